//! Terms as bytes, so that tests can be written close to the notation of the
//! language (LANGUAGE 1.5), and the layers put together.

#![allow(dead_code)]

use reference::form::header;
use reference::{check, length, read, run, run_unchecked, write, Limits, Ran, Refusal, NEWEST};

/// The set of the program.
pub const LIMITS: Limits = Limits::BASE;
pub const ROWS_LEN: usize = LIMITS.row_numbers();
pub const STORE_LEN: usize = LIMITS.store_numbers();

pub const fn set(terms: u32, variables: u32, boxes: u32, levels: u32) -> Limits {
    Limits {
        terms,
        variables,
        boxes,
        levels,
    }
}

pub type Term = Vec<u8>;

/// Variable and follows.
pub type Place = (u8, u8);

pub fn number(value: i32) -> Term {
    let mut term = vec![0x01];
    term.extend(value.to_be_bytes());
    term
}

pub fn reading(index: u8) -> Term {
    vec![0x02, index]
}

pub fn copy(place: Place) -> Term {
    vec![0x03, place.0, place.1]
}

pub fn mov(place: Place) -> Term {
    vec![0x04, place.0, place.1]
}

pub fn shared(place: Place) -> Term {
    vec![0x05, place.0, place.1]
}

pub fn exclusive(place: Place) -> Term {
    vec![0x06, place.0, place.1]
}

pub fn boxed(inner: Term) -> Term {
    [vec![0x07], inner].concat()
}

/// So many boxes round a term.
pub fn boxes(count: usize, inner: Term) -> Term {
    [vec![0x07; count], inner].concat()
}

pub fn let_(variable: u8, inner: Term) -> Term {
    [vec![0x08, variable], inner].concat()
}

pub fn assign(place: Place, right: Term) -> Term {
    [vec![0x09, place.0, place.1], right].concat()
}

pub fn below(first: Place, second: Place) -> Term {
    vec![0x0A, first.0, first.1, second.0, second.1]
}

pub fn sum(first: Place, second: Place) -> Term {
    vec![0x0D, first.0, first.1, second.0, second.1]
}

pub fn block(terms: &[Term]) -> Term {
    [vec![0x0B, terms.len() as u8], terms.concat()].concat()
}

/// A choice by a place between two blocks of these terms.
pub fn choice(place: Place, first: &[Term], second: &[Term]) -> Term {
    let blocks = [block(first), block(second)].concat();
    [vec![0x0C, place.0, place.1], blocks].concat()
}

/// A whole script of a version with these terms in its outermost block.
pub fn script_of(version: u32, terms: &[Term]) -> Vec<u8> {
    [header(version).to_vec(), block(terms)].concat()
}

/// One of version 1, so without choices and sums.
pub fn script(terms: &[Term]) -> Vec<u8> {
    script_of(1, terms)
}

pub fn rows_of(script: &[u8]) -> Vec<u32> {
    rows_under(LIMITS, script)
}

pub fn rows_under(limits: Limits, script: &[u8]) -> Vec<u32> {
    let mut rows = vec![7; limits.row_numbers()];
    read(limits, NEWEST, script, &mut rows).expect("a script that can be read");
    rows
}

pub fn refused<T>(number: u32, place: u32) -> Result<T, Refusal> {
    Err(Refusal { number, place })
}

pub fn check_terms(terms: &[Term]) -> Result<u32, Refusal> {
    check(LIMITS, &rows_of(&script_of(NEWEST, terms)))
}

/// Whether the check accepts, without the number of terms.
pub fn judge(terms: &[Term]) -> Result<(), Refusal> {
    check_terms(terms).map(|_| ())
}

pub const READINGS: [i32; 8] = [185, 200, 0, -1, i32::MIN, i32::MAX, 7, 1];

/// Either of the two runs.
pub type Run = fn(Limits, &[u32], &[i32], &mut [u32]) -> Result<Ran, Refusal>;

pub const RUNS: [Run; 2] = [run, run_unchecked];

/// What a store may have held before: no two numbers are equal.
pub fn junk(limits: Limits) -> Vec<u32> {
    (1..=limits.store_numbers() as u32).collect()
}

/// Runs over a store that held something before.
pub fn run_over_junk(run: Run, limits: Limits, terms: &[Term]) -> (Result<Ran, Refusal>, Vec<u32>) {
    let mut store = junk(limits);
    let rows = rows_under(limits, &script_of(NEWEST, terms));
    let answer = run(limits, &rows, &READINGS, &mut store);
    (answer, store)
}

/// Runs unchecked over a store that held something before.
pub fn unchecked(terms: &[Term]) -> (Result<Ran, Refusal>, Vec<u32>) {
    run_over_junk(run_unchecked, LIMITS, terms)
}

/// What running unchecked answers.
pub fn fault(terms: &[Term]) -> Result<Ran, Refusal> {
    unchecked(terms).0
}

pub fn ran<E>(answer: i32, cells: u32) -> Result<Ran, E> {
    Ok(Ran { answer, cells })
}

/// The store row of a variable.
pub fn variable_row(store: &[u32], variable: usize) -> [u32; 3] {
    store[3 * variable..][..3].try_into().unwrap()
}

/// The store row of a cell.
pub fn cell_row(store: &[u32], cell: usize) -> [u32; 3] {
    variable_row(store, 64 + cell)
}

/// The store after a run of an accepted script with so many cells.
pub fn tidy(cells: u32) -> Vec<u32> {
    tidy_under(LIMITS, cells)
}

pub fn tidy_under(limits: Limits, cells: u32) -> Vec<u32> {
    let mut store = vec![0; limits.store_numbers()];
    for cell in 0..cells {
        store[3 * (limits.variables + cell) as usize] = 2;
    }
    store
}

/// How many terms a script of these terms has.
fn count(terms: &[Term]) -> u32 {
    let mut rows = vec![0; ROWS_LEN];
    let read = read(LIMITS, NEWEST, &script_of(NEWEST, terms), &mut rows);
    read.expect("a script").terms
}

/// Why the check refuses these terms, if it does, while every variable is in
/// use: after them all are named. What it says of those names does not count.
pub fn refused_in_use(terms: &[Term]) -> Option<Refusal> {
    let names = (0..LIMITS.variables as u8).map(|variable| copy((variable, 0)));
    let named: Vec<Term> = terms.iter().cloned().chain(names).collect();
    let refusal = judge(&named).err()?;
    (refusal.place < count(terms)).then_some(refusal)
}

/// What the check says of these terms while every variable is in use, so that
/// each holder in scope bars.
pub fn judge_in_use(terms: &[Term]) -> Result<(), Refusal> {
    refused_in_use(terms).map_or(judge(terms), Err)
}

/// The same; what the check accepts must run by both ways.
pub fn safe_in_use(terms: &[Term]) -> Result<(), Refusal> {
    refused_in_use(terms).map_or(safe(terms), Err)
}

/// What the check says of these terms and a number after them, while every
/// variable is in use, counted from the first of those that come then.
pub fn behind(before: &[Term], then: &[Term]) -> Result<(), Refusal> {
    let earlier = count(before);
    safe_in_use(&[before, then, &[number(1)]].concat()).map_err(|refusal| Refusal {
        place: refusal
            .place
            .checked_sub(earlier)
            .expect("refused after what stands before"),
        ..refusal
    })
}

/// What the check says; what it accepts must run by both ways.
pub fn safe(terms: &[Term]) -> Result<(), Refusal> {
    let answer = judge(terms);
    let rows = rows_of(&script_of(2, terms));
    for reading in [0, 1] {
        let mut store = junk(LIMITS);
        let ran = run(LIMITS, &rows, &[reading; 8], &mut store);
        assert_eq!(ran.map(|_| ()), answer);
        if let Ok(ran) = ran {
            assert_eq!(store, tidy(ran.cells));
        }
    }
    answer
}

/// The rows with a block in place of each choice that runs one of its two
/// blocks, the first where `first` says so, whatever number is at its place.
pub fn chosen(rows: &[u32], first: &mut dyn FnMut() -> bool) -> Vec<u32> {
    let mut out = Vec::new();
    choose(rows.as_chunks().0, &mut 0, first, &mut out);
    let mut out = out.concat();
    assert!(out.len() <= rows.len());
    out.resize(rows.len(), 0);
    out
}

/// Writes the term at `at`, which is moved past it, with everything inside.
fn choose(
    rows: &[[u32; 5]],
    at: &mut usize,
    first: &mut dyn FnMut() -> bool,
    out: &mut Vec<[u32; 5]>,
) {
    let row = rows[*at];
    *at += 1;
    let inner = match row[0] {
        12 => {
            let [_, root, follows, ..] = row;
            // The place is still read.
            out.extend([[11, 2, 0, 0, 0], [3, root, follows, 0, 0]]);
            let first_block = first();
            for block in [true, false] {
                let mut written = Vec::new();
                choose(rows, at, first, &mut written);
                if block == first_block {
                    out.append(&mut written);
                }
            }
            return;
        }
        11 => row[1],
        7..=9 => 1,
        _ => 0,
    };
    out.push(row);
    (0..inner).for_each(|_| choose(rows, at, first, out));
}

/// The levels of the term at `at`, which is moved past it.
pub fn levels(rows: &[&[u32]], at: &mut usize) -> usize {
    let row = rows[*at];
    *at += 1;
    let inner = match row[0] {
        11 => row[1],
        7..=9 => 1,
        12 => 2,
        _ => 0,
    };
    1 + (0..inner).map(|_| levels(rows, at)).max().unwrap_or(0)
}

/// What writing fills of an output of this length. Every byte of it must be
/// given a value, and every other one stay as it was.
pub fn written(
    limits: Limits,
    version: u32,
    rows: &[u32],
    room: usize,
) -> Result<Vec<u8>, Refusal> {
    let [first, second] = [0xA5, 0x5A].map(|before| {
        let mut output = vec![before; room];
        let answer = write(limits, version, rows, &mut output);
        let filled = answer.map_or(0, |bytes| bytes as usize);
        assert!(output[filled..].iter().all(|byte| *byte == before));
        output.truncate(filled);
        answer.map(|_| output)
    });
    // A byte without a value would differ, as the outputs did before.
    assert_eq!(first, second);
    first
}

/// What the length is. Writing must answer the same whatever the output, but
/// for 5 exactly where the output is shorter.
pub fn measured(limits: Limits, version: u32, rows: &[u32]) -> Result<u32, Refusal> {
    let answer = length(limits, version, rows);
    // Where there is no length, outputs of any length are refused alike.
    let bytes = answer.map_or(9, |bytes| bytes as usize);
    let script = written(limits, version, rows, bytes + 70);
    assert_eq!(script.clone().map(|script| script.len() as u32), answer);
    for room in [0, bytes - 1, bytes, bytes + 1] {
        let short = answer.is_ok() && room < bytes;
        let due = if short { refused(5, 0) } else { script.clone() };
        assert_eq!(written(limits, version, rows, room), due);
    }
    answer
}
