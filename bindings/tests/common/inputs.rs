//! The inputs in `examples/`, with the line that the program prints for each.

use super::examples::*;
use super::terms::*;

/// The file's name without its ending, its bytes, and the line.
pub struct Example {
    pub name: String,
    pub input: Vec<u8>,
    pub line: &'static str,
}

/// Readings, and then a script.
pub fn input_of(readings: [i32; 8], script: &[u8]) -> Vec<u8> {
    let mut input = readings.map(i32::to_be_bytes).concat();
    input.extend(script);
    input
}

fn example(name: impl Into<String>, script: &[u8], line: &'static str) -> Example {
    Example {
        name: name.into(),
        input: input_of([0; 8], script),
        line,
    }
}

/// E1 to E11, with the lines that their outcomes give (LANGUAGE 6.11, 8.4).
pub fn listed() -> Vec<Example> {
    let scripts = [
        (e1(), "accepted 8 call 1 cells 0"),
        (e2(), "accepted 6 call 5 cells 0"),
        (e3(), "refused 33 at 6"),
        (e4(), "accepted 9 call 8 cells 1"),
        (e5(), "refused 40 at 4"),
        (e6(), "accepted 12 call 2 cells 0"),
        (e7(), "refused 36 at 7"),
        // The program runs accepted scripts only, so that E8 is E3 again.
        (e3(), "refused 33 at 6"),
        (e9(), "refused 37 at 5"),
        (e10(9), "refused 42 at 2"),
        (e11(), "accepted 13 call 2 cells 0"),
    ];
    let mut listed: Vec<Example> = (1..)
        .zip(scripts)
        .map(|(number, (terms, line))| example(format!("e{number}"), &script_of(&terms), line))
        .collect();
    listed[0].input = input_of([185, 200, 0, 0, 0, 0, 0, 0], &script_of(&e1()));
    let again = script_of(&e2_used_again());
    listed.push(example("e2-used-again", &again, "refused 34 at 5"));
    let eight = script_of(&e10(8));
    listed.push(example("e10-eight", &eight, "accepted 12 call 0 cells 8"));
    listed
}

/// Blocks of one term round a number.
fn levels(count: usize) -> Vec<u8> {
    // Both the outermost block and the number are a level.
    let inner = (0..count - 2).fold(number(3), |inner, _| block(&[inner]));
    script_of(&[inner])
}

/// Two blocks of numbers.
fn terms(first: usize, second: usize) -> Vec<u8> {
    let numbers = |count| block(&vec![number(4); count]);
    script_of(&[numbers(first), numbers(second)])
}

/// Boxes side by side, and a number as the answer.
fn boxes_beside(count: usize) -> Vec<u8> {
    let mut terms = vec![boxed(number(5)); count];
    terms.push(number(6));
    script_of(&terms)
}

/// E1, and then bytes of 0.
fn bytes(count: usize) -> Vec<u8> {
    let mut script = script_of(&e1());
    script.resize(count, 0);
    script
}

/// The edges. Places in bytes: the 17th level begins after the header and 16
/// blocks of 2 bytes, the 513th term after 3 blocks and 509 numbers of 5
/// bytes, the 65th box after a block and 64 boxed numbers of 6 bytes.
pub fn edges() -> Vec<Example> {
    let mut edges = vec![
        example("levels-16", &levels(16), "accepted 16 call 3 cells 0"),
        example("levels-17", &levels(17), "refused 15 at 37"),
        example("terms-512", &terms(255, 254), "accepted 512 call 4 cells 0"),
        example("terms-513", &terms(255, 255), "refused 16 at 2556"),
        example(
            "boxes-64",
            &boxes_beside(64),
            "accepted 130 call 6 cells 64",
        ),
        example("boxes-65", &boxes_beside(65), "refused 17 at 391"),
        example("bytes-32768", &bytes(32_768), "refused 19 at 25"),
        example("bytes-32769", &bytes(32_769), "refused 1 at 0"),
        example("no-bytes", &[], "refused 12 at 0"),
    ];
    for (name, length) in [("readings-short", 31), ("nothing", 0)] {
        let mut short = example(name, &[], "readings short");
        short.input.truncate(length);
        edges.push(short);
    }
    edges
}

/// Answers below 0 and at both ends of their range, from a reading, from a
/// number of the script and from a reading in a box.
pub fn answers() -> Vec<Example> {
    let boxed_last = [let_(0, boxed(reading(7))), copy((0, 1))];
    let mut answers = vec![
        example(
            "negative",
            &script_of(&[reading(0)]),
            "accepted 2 call -10 cells 0",
        ),
        example(
            "smallest",
            &script_of(&[number(i32::MIN)]),
            "accepted 2 call -2147483648 cells 0",
        ),
        example(
            "largest",
            &script_of(&boxed_last),
            "accepted 5 call 2147483647 cells 1",
        ),
    ];
    answers[0].input[..4].copy_from_slice(&(-10i32).to_be_bytes());
    answers[2].input[28..32].copy_from_slice(&i32::MAX.to_be_bytes());
    answers
}

/// A reading and an offset, sums held to both ends, and what depends on the
/// version. The sum begins at offset 18, after the header, a block of 2 bytes
/// and lets of 4 and 7.
pub fn sums() -> Vec<Example> {
    let offset = [
        let_(0, reading(0)),
        let_(1, number(-15)),
        sum((0, 0), (1, 0)),
    ];
    let boxed_last = [let_(0, boxed(reading(7))), sum((0, 1), (0, 1))];
    let of = |version, terms: &[Term]| bytes_in(version, &block(terms));
    let first = |reading| [reading, 0, 0, 0, 0, 0, 0, 0];
    let last = |reading| [0, 0, 0, 0, 0, 0, 0, reading];
    let of_e1 = [185, 200, 0, 0, 0, 0, 0, 0];
    let double = [let_(0, reading(0)), sum((0, 0), (0, 0))];
    let inputs = [
        (
            "sum",
            first(185),
            of(2, &offset),
            "accepted 6 call 170 cells 0",
        ),
        (
            "sum-high",
            first(i32::MAX),
            of(2, &double),
            "accepted 4 call 2147483647 cells 0",
        ),
        (
            "sum-low",
            last(i32::MIN),
            of(2, &boxed_last),
            "accepted 5 call -2147483648 cells 1",
        ),
        (
            "sum-version-1",
            first(185),
            of(1, &offset),
            "refused 13 at 18",
        ),
        (
            "version-2",
            of_e1,
            of(2, &e1()),
            "accepted 8 call 1 cells 0",
        ),
        ("version-3", of_e1, of(3, &e1()), "refused 11 at 3"),
    ];
    let example = |(name, readings, script, line): (&str, _, Vec<u8>, _)| Example {
        name: name.to_string(),
        input: input_of(readings, &script),
        line,
    };
    inputs.map(example).into()
}

/// A choice between two borrows, with each branch, and one after which what may
/// be borrowed is moved away (LANGUAGE 8.9).
pub fn choices() -> Vec<Example> {
    let one = || number(1);
    let of_two = [
        let_(0, reading(0)),
        let_(1, one()),
        let_(2, number(2)),
        let_(3, choice((0, 0), &[shared((1, 0))], &[shared((2, 0))])),
        copy((3, 1)),
    ];
    let elsewhere = [assign((3, 0), exclusive((2, 1))), mov((1, 0)), one()];
    let moved = [
        let_(0, reading(0)),
        let_(1, boxed(one())),
        let_(2, boxed(number(2))),
        let_(3, exclusive((1, 1))),
        choice((0, 0), &elsewhere, &[one()]),
        assign((3, 1), number(5)),
        one(),
    ];
    let (of_two, moved) = (script_of(&of_two), script_of(&moved));
    let mut choices = vec![
        example("choice-first", &of_two, "accepted 14 call 1 cells 0"),
        example("choice-second", &of_two, "accepted 14 call 2 cells 0"),
        example("choice-moved", &moved, "refused 33 at 19"),
    ];
    choices[0].input[..4].copy_from_slice(&(-3i32).to_be_bytes());
    choices
}

pub fn all() -> Vec<Example> {
    let mut all = listed();
    all.extend(edges());
    all.extend(answers());
    all.extend(sums());
    all.extend(choices());
    all
}
