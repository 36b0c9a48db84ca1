//! How large a script is, for the tests of the scripts that are timed.

use reference::form::{BLOCK, BOX, CHOICE, FIELDS, LET};
use reference::{read, Limits, NEWEST};

/// The terms of a script and its rows.
pub fn rows_of(limits: Limits, script: &[u8]) -> (u32, Vec<u32>) {
    let mut rows = vec![0; limits.row_numbers()];
    let read = read(limits, NEWEST, script, &mut rows).expect("a script");
    (read.terms, rows)
}

/// Terms, boxes and levels of a script.
pub fn outline(limits: Limits, script: &[u8]) -> (u32, usize, usize) {
    let (terms, rows) = rows_of(limits, script);
    let used: Vec<&[u32]> = rows.chunks(FIELDS).take(terms as usize).collect();
    let boxes = used.iter().filter(|row| row[0] == BOX).count();
    (terms, boxes, levels(&used, &mut 0))
}

/// How many variables a script declares.
pub fn variables(limits: Limits, script: &[u8]) -> usize {
    let rows = rows_of(limits, script).1;
    rows.chunks(FIELDS).filter(|row| row[0] == LET).count()
}

/// The levels of the term at a row, which is moved past it.
fn levels(rows: &[&[u32]], at: &mut usize) -> usize {
    let row = rows[*at];
    *at += 1;
    let inner = match row[0] {
        BLOCK => row[1],
        CHOICE => 2,
        7..=9 => 1,
        _ => 0,
    };
    1 + (0..inner).map(|_| levels(rows, at)).max().unwrap_or(0)
}
