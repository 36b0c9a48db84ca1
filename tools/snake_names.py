#!/usr/bin/env python3
"""Spells the names that this repository declares in antt in snake case: definitions, lemmas, fields and constructors.

usage: snake_names.py [--check] FOLDER

FOLDER is the top of the repository. A name is turned where it stands as a whole word: in the .antt files below specs/ and
proofs/, in the .rt files (where only clauses and `ghost use` items have such names), in must-fail edits, and in the pages.
In a comment or a page a name with hyphens alone turns only within backticks. Types and modules keep their names, and so do
the names of functions of src/, of the libraries, and the answers of a Proof.antt, which are named for what Rattle asks.
A line that begins 'meets:' names a new spelling that a file has already, or that two names would share.
--check writes nothing, and prints each name with its new spelling.
"""

import collections
import os
import re
import sys

WORD = re.compile(r'[^\s(){}.;,@"«»`]+')
DECLARED = re.compile(
    r"^[ \t]*((?:(?:pub|abbrev|unfoldable|opaque|private) +)*)"
    r"([^\s(){}.;,@\"«»]+(?: +[^\s(){}.;,@\"«»:]+)*)(?: \{[^{}\n]*\})* +:(?= |$)",
    re.M,
)
NOT_NAMES = {"module", "use", "record", "data", "where", "unfolding", "let", "in", "field", "constructor", "mod", "of"}
# Names that the kit's scripts spelled like the new spelling of another name, each with the file (or the end of it, or "" for
# all) where it stands, and its name from now on.
FIRST = [
    ("bars/proofs/BarLaws.antt", "in_use", "in_use_here"),
    ("notes/proofs/NoteLaws.antt", "is_free", "was_free"),
    ("room/proofs/Numbers.antt", "call_fits", "call_fits_law"),
    ("room/proofs/Numbers.antt", "run_fits", "run_fits_law"),
    ("statics/proofs/SetLaws.antt", "same_place", "same_place_law"),
    ("store/proofs/CellLaws.antt", "given_back", "given_back_law"),
    ("syntax/proofs/FormNumbers.antt", "nothing_left", "nothing_left_law"),
    (".antt", "held_by", "by_holder"),
]


def snake(name):
    name = re.sub(r"(?<=[a-z0-9₀₁₂₃′'])([A-Z])", lambda m: "_" + m[1].lower(), name)
    return name.replace("-", "_")


def turns(name):
    if not re.match(r"[a-z]", name) or "◌" in name:
        return False
    return bool(re.search(r"[a-z0-9₀₁₂₃]-[a-zA-Z0-9]|[a-z0-9][A-Z]", name))


def files(top, *endings):
    for folder, dirs, names in os.walk(top):
        dirs[:] = sorted(d for d in dirs if d not in ("out", ".git", "target"))
        for name in sorted(names):
            if name.endswith(endings):
                yield os.path.join(folder, name)


def read(path):
    with open(path, encoding="utf-8") as f:
        return f.read()


def bare(text):
    return re.sub(r"--[^\n]*", "", text)


def declared(text):
    for m in DECLARED.finditer(bare(text)):
        after = text[m.end():m.end() + 80]
        if re.match(r" *tie\.(Need|invariant|decreases)", bare(text)[m.end():m.end() + 60]):
            continue
        for name in m[2].split():
            if name not in NOT_NAMES:
                yield name


def of_libraries(text):
    """The names that a file imports from a library."""
    found = set()
    for m in re.finditer(r"^[ \t]*(?:pub |ghost )*use ([^\s{;]+?)\.\{([^}]*)\}", text, re.M):
        if not m[1].startswith("Rattle.") or m[1].startswith(("Rattle.std", "Rattle.core", "Rattle.libc")):
            found |= {it.split(" as ")[0].strip() for it in m[2].split(",")}
    return found


def main(argv):
    check = "--check" in argv
    top = [a for a in argv if a != "--check"][0]
    crates = os.path.join(top, "crates")
    antt = list(files(crates, ".antt"))
    names = set()
    for path in antt:
        names |= {n for n in declared(read(path)) if turns(n)}
    table = {n: snake(n) for n in names}
    plain = {n for path in antt for n in declared(read(path)) if not turns(n)} | {"bit_and", "bit_or"}
    for old in table:
        if table[old] in plain and "-" in old:
            table[old] += "_law"
    by_new = collections.defaultdict(set)
    for old, new in table.items():
        by_new[new].add(old)
    for new, olds in sorted(by_new.items()):
        # A law that is spelled like the definition that it is about is called its law.
        for old in olds:
            if len(olds) > 1 and "-" in old:
                table[old] = new + "_law"
    rt = list(files(crates, ".rt"))
    edits = list(files(crates, ".edit"))
    pages = [p for p in files(top, ".md")]
    functions = {n for p in rt for n in re.findall(r"\bfn (\w+)", read(p))}
    for path in antt + rt + edits + pages:
        text = read(path)
        given = text
        for end, old, new in FIRST:
            if path.endswith(end) and path.endswith(".antt"):
                text = re.sub(rf"(?<![\w.-]){old}(?![\w.-])", new, text)
        stays = of_libraries(text)
        words = set(WORD.findall(bare(text)))
        mine = {n: t for n, t in table.items() if n in words and n not in stays}
        if path.endswith((".antt", ".rt")):
            alone = set(re.findall(rf"(?<![.\w-])({WORD.pattern})(?![.\w(<-])", re.sub(r"(?m)//.*|^ *(?:pub )?(?:ghost )?use [^{]*", "", bare(text))))
            for n, t in sorted(mine.items()):
                if t in alone:
                    print("meets:", path, n, "is", t)

        # Behind a dot a Proof.antt has what Rattle names for a function of src/.
        by_function = path.endswith("/Proof.antt")

        def one(m):
            if by_function and m[0] in mine and mine[m[0]].endswith("_law") and snake(m[0]) in functions and m.start() and m.string[m.start() - 1] == ".":
                return m[0]
            return mine.get(m[0], m[0])

        def prose(text):
            """Text that is no code: names in camel case anywhere, all names within backticks."""
            text = WORD.sub(lambda w: table[w[0]] if w[0] in table and re.search("[A-Z]", w[0]) else w[0], text)
            return re.sub(r"`[^`\n]*`", lambda s: WORD.sub(lambda w: table.get(w[0], w[0]), s[0]), text)

        if path.endswith(".antt"):
            lines = []
            for line in text.split("\n"):
                cut = re.search(r"(?:^|\s)--(?=\s|$)", line)
                at = cut.start() if cut else len(line)
                lines.append(WORD.sub(one, line[:at]) + prose(line[at:]))
            new = "\n".join(lines)
        elif path.endswith(".rt"):
            lines = []
            for line in text.split("\n"):
                cut = re.search(r"(?:^|\s)//(?=\s|/|!|$)", line)
                at = cut.start() if cut else len(line)
                lines.append(WORD.sub(one, line[:at]) + prose(line[at:]))
            new = "\n".join(lines)
        elif path.endswith(".edit"):
            lines = []
            for line in text.split("\n"):
                lines.append(WORD.sub(lambda m: table.get(m[0], m[0]), line) if line.startswith(("old:", "new:")) else prose(line))
            new = "\n".join(lines)
        else:
            new = prose(text)
        if new != given and not check:
            with open(path, "w", encoding="utf-8") as f:
                f.write(new)
    print(len(table), "names")
    if check:
        for a, b in sorted(table.items()):
            print(a, b)


if __name__ == "__main__":
    main(sys.argv[1:])
