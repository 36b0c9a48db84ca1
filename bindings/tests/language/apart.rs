//! The tables of 8.2 and 8.3, which take a script apart: offsets, bytes, term
//! numbers and term rows, the kinds by the names of 2.3, what each term leaves
//! in the store, and the line.

use crate::common::notation::rows_in;
use crate::common::store::is_tidy;
use crate::common::terms::{block, bytes_of, copy, inner_terms, rows_of, Row as TermRow, Term};
use crate::document::{bytes, numbers, Document, Row, Table};
use crate::outcome::{called, Fact};
use crate::program::{Program, BOTH};
use roomscript::{Called, Fault, Limits, Stop, READINGS_LEN};

/// The column on what a run leaves in the store.
const LEAVES: &str = "Run: what the term leaves in the store";
/// The bytes of mark and version.
const LEAD: usize = 5;
/// A variable that no script here declares.
const CLOSED: u32 = 63;

/// A script, as its paragraph tells it.
struct Script {
    rows: Vec<TermRow>,
    bytes: Vec<u8>,
    readings: [i32; READINGS_LEN],
    line: Called,
}

pub fn holds(document: &Document, table: &Table) {
    let script = script(&document.paragraph(&table.paragraph).text());
    // Mark and version may be left out.
    let mut offset = if table.has("Meaning") { 0 } else { LEAD };
    let mut term = 0;
    for row in table.rows() {
        let bytes = bytes(row.cell("Bytes"));
        let bytes = bytes.unwrap_or_else(|| panic!("no bytes: {}", row.shown()));
        assert_eq!(row.cell("Offset"), offset.to_string(), "{}", row.shown());
        assert!(
            script.bytes[offset..].starts_with(&bytes),
            "{}",
            row.shown()
        );
        offset += bytes.len();
        match row.cell("Term") {
            "" => lead_holds(row, &bytes),
            number => {
                assert_eq!(number, term.to_string(), "{}", row.shown());
                term_holds(row, document, &script.rows[term]);
                term += 1;
            }
        }
    }
    assert_eq!((offset, term), (script.bytes.len(), script.rows.len()));
    for program in &BOTH {
        run_holds(program, &script);
        if table.has(LEAVES) {
            stores_hold(program, &script, table);
        }
    }
}

/// The script in the first backquotes of a paragraph, its readings and its line.
fn script(text: &str) -> Script {
    let notation = text.split('`').nth(1).expect("a script");
    let rows = rows_in(notation).unwrap_or_else(|wrong| panic!("{wrong}: {notation}"));
    let bytes = bytes_of(&rows);
    assert!(
        text.contains(&format!("{} bytes", bytes.len())),
        "bytes of {notation}"
    );
    let line = text
        .split_once("Line: `")
        .and_then(|(_, rest)| rest.split_once('`'));
    let line = line.and_then(|(line, _)| called(line)).expect("the line");
    let told = readings(text).expect("the readings");
    let mut readings = [0; READINGS_LEN];
    readings[..told.len()].copy_from_slice(&told);
    Script {
        rows,
        bytes,
        readings,
        line,
    }
}

/// The first readings: `readings 185 and 200`, or `reading 0 equal to 19`.
fn readings(text: &str) -> Option<Vec<i32>> {
    let after = |words| text.split_once(words).map(|(_, rest)| rest);
    let (list, end) = match after("with readings ") {
        Some(rest) => (rest, ':'),
        None => (after("with reading 0 equal to ")?, '.'),
    };
    numbers(&list.split(end).next()?.replace(" and ", ", "))
}

/// The rows before the first term: the mark and the version.
fn lead_holds(row: Row, bytes: &[u8]) {
    assert_eq!(row.cell("Term row"), "", "{}", row.shown());
    match (row.cell("Meaning"), bytes) {
        ("mark", b"RCS") | ("version 1", [0, 1]) | ("version 2", [0, 2]) => (),
        _ => panic!("neither mark nor version: {}", row.shown()),
    }
}

/// The fields of a term's row, and its name by 2.3 where the row has a meaning.
fn term_holds(row: Row, document: &Document, fields: &TermRow) {
    let told = numbers(row.cell("Term row"));
    assert_eq!(told, Some(fields.to_vec()), "{}", row.shown());
    if let Some(meaning) = row.find("Meaning") {
        let kinds = document.paragraph("2.3").tables().remove(0);
        let kind = format!("{:02X}", fields[0]);
        let named = kinds.rows().find(|row| row.cell("Kind") == kind);
        let name = named.expect("a kind of 2.3").cell("Term");
        assert!(meaning.starts_with(name), "{name}: {}", row.shown());
        for operand in operands(fields) {
            assert!(meaning.contains(&operand), "{operand}: {}", row.shown());
        }
    }
}

/// The operands of a term in the notation of 1.5, but for numbers and counts.
fn operands(fields: &TermRow) -> Vec<String> {
    let place = |at: usize| {
        let stars = "*".repeat(fields[at + 1] as usize);
        format!("{stars}v{}", fields[at])
    };
    match fields[0] {
        0x02 => vec![fields[1].to_string()],
        0x03..=0x06 | 0x09 | 0x0C => vec![place(1)],
        0x08 => vec![format!("v{}", fields[1])],
        0x0A | 0x0D => vec![place(1), place(3)],
        _ => Vec::new(),
    }
}

fn run_holds(program: &Program, script: &Script) {
    let mut rows = vec![9; Limits::BASE.row_numbers()];
    let mut store = vec![9; Limits::BASE.store_numbers()];
    let called = (program.call)(
        Limits::BASE,
        &script.bytes,
        &script.readings,
        &mut rows,
        &mut store,
    );
    assert_eq!(called, Ok(script.line), "{}", program.name);
    assert!(
        is_tidy(Limits::BASE, &store, script.line.cells),
        "{}",
        program.name
    );
}

/// What each term of the outermost block, and those in it, leave in the store.
fn stores_hold(program: &Program, script: &Script, table: &Table) {
    let rows: Vec<Row> = table.rows().collect();
    let terms = outermost(&script.rows);
    let mut first = 1;
    for count in 1..=terms.len() {
        let store = store_after(program, script, &terms[..count]);
        let next = first + terms[count - 1].len();
        rows[first..next]
            .iter()
            .for_each(|row| facts_hold(*row, &store));
        first = next;
    }
    let mut store = vec![9; Limits::BASE.store_numbers()];
    let all = rows_of(&terms);
    let ran = (program.run_unchecked)(Limits::BASE, &all, &script.readings, &mut store);
    assert_eq!(
        ran.map(|ran| ran.answer),
        Ok(script.line.answer),
        "{}",
        program.name
    );
    facts_hold(rows[0], &store);
}

/// The terms of the outermost block.
fn outermost(rows: &[TermRow]) -> Vec<Term> {
    let mut terms = Vec::new();
    let mut rest = &rows[1..];
    while !rest.is_empty() {
        let mut due = 1;
        let ends = rest.iter().position(|row| {
            due = due + inner_terms(row) - 1;
            due == 0
        });
        let (term, others) = rest.split_at(ends.expect("a whole term") + 1);
        terms.push(term.to_vec());
        rest = others;
    }
    assert_eq!(block(&terms), rows);
    terms
}

/// The store after these terms: a copy of a closed row, which is 60, follows
/// them, and a fault leaves the store as it was.
fn store_after(program: &Program, script: &Script, terms: &[Term]) -> Vec<u32> {
    let stopped = [terms, &[copy((CLOSED, 0))]].concat();
    let rows = rows_of(&stopped);
    let term = block(&stopped).len() as u32 - 1;
    let mut store = vec![9; Limits::BASE.store_numbers()];
    let ran = (program.run_unchecked)(Limits::BASE, &rows, &script.readings, &mut store);
    assert_eq!(
        ran,
        Err(Stop::Fault(Fault { number: 60, term })),
        "{}",
        program.name
    );
    store
}

/// The rows and cells that a row tells of. What it says of a value no function
/// tells.
fn facts_hold(row: Row, store: &[u32]) {
    for part in row
        .cell(LEAVES)
        .split("; ")
        .filter(|part| !part.starts_with("value: "))
    {
        let stated = part.split_once(": ").map_or(part, |(stated, _)| stated);
        let fact = Fact::parse(stated).unwrap_or_else(|| panic!("{part}: {}", row.shown()));
        assert!(
            fact.holds(Limits::BASE, store),
            "{store:?}, {}",
            row.shown()
        );
    }
}
