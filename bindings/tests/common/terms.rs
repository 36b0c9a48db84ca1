//! Terms as rows, so that scripts can be written close to their notation.

use roomscript::{Limits, FIELDS};

pub type Row = [u32; FIELDS];

/// The rows of a term and of everything inside it.
pub type Term = Vec<Row>;

/// Variable and follows.
pub type Place = (u32, u32);

pub fn number(value: i32) -> Term {
    vec![[0x01, value as u32, 0, 0, 0]]
}

pub fn reading(index: u32) -> Term {
    vec![[0x02, index, 0, 0, 0]]
}

pub fn copy(place: Place) -> Term {
    vec![[0x03, place.0, place.1, 0, 0]]
}

pub fn mov(place: Place) -> Term {
    vec![[0x04, place.0, place.1, 0, 0]]
}

pub fn shared(place: Place) -> Term {
    vec![[0x05, place.0, place.1, 0, 0]]
}

pub fn exclusive(place: Place) -> Term {
    vec![[0x06, place.0, place.1, 0, 0]]
}

pub fn boxed(inner: Term) -> Term {
    boxes(1, inner)
}

/// So many boxes round a term.
pub fn boxes(count: usize, inner: Term) -> Term {
    [vec![[0x07, 0, 0, 0, 0]; count], inner].concat()
}

pub fn let_(variable: u32, inner: Term) -> Term {
    [vec![[0x08, variable, 0, 0, 0]], inner].concat()
}

pub fn assign(place: Place, right: Term) -> Term {
    [vec![[0x09, place.0, place.1, 0, 0]], right].concat()
}

pub fn below(first: Place, second: Place) -> Term {
    vec![[0x0A, first.0, first.1, second.0, second.1]]
}

pub fn sum(first: Place, second: Place) -> Term {
    vec![[0x0D, first.0, first.1, second.0, second.1]]
}

/// A choice on a place, with two blocks of these terms.
pub fn choice(place: Place, first: &[Term], second: &[Term]) -> Term {
    let first_row = vec![[0x0C, place.0, place.1, 0, 0]];
    [first_row, block(first), block(second)].concat()
}

pub fn block(terms: &[Term]) -> Term {
    [vec![[0x0B, terms.len() as u32, 0, 0, 0]], terms.concat()].concat()
}

/// How many terms stand directly inside a term with this row.
pub fn inner_terms(row: &[u32]) -> u32 {
    match row[0] {
        0x0B => row[1],
        0x0C => 2,
        0x07..=0x09 => 1,
        _ => 0,
    }
}

/// Mark and version.
pub fn header(version: u32) -> [u8; 5] {
    [b'R', b'C', b'S', (version >> 8) as u8, version as u8]
}

/// All rows of a script with these terms in its outermost block, under a set
/// whose terms are not fewer.
pub fn rows_under(limits: Limits, terms: &[Term]) -> Vec<u32> {
    let mut rows = block(terms).concat();
    assert!(rows.len() <= limits.row_numbers(), "terms of the set");
    rows.resize(limits.row_numbers(), 0);
    rows
}

/// The same under the language's own set.
pub fn rows_of(terms: &[Term]) -> Vec<u32> {
    rows_under(Limits::BASE, terms)
}

/// Whether a kind is one that version 2 adds.
pub fn of_version_2(kind: u32) -> bool {
    kind == 0x0C || kind == 0x0D
}

/// The first version that has the kinds of these rows, all fields in one.
pub fn version_of(rows: &[u32]) -> u32 {
    match rows.chunks(FIELDS).any(|row| of_version_2(row[0])) {
        true => 2,
        false => 1,
    }
}

/// The bytes of a script with these terms in its outermost block, in the first
/// version that has their kinds.
pub fn script_of(terms: &[Term]) -> Vec<u8> {
    bytes_of(&block(terms))
}

/// The bytes of a script with these rows, in the first version that has their
/// kinds.
pub fn bytes_of(rows: &[Row]) -> Vec<u8> {
    bytes_in(version_of(rows.as_flattened()), rows)
}

/// The bytes of a script with these rows, all fields in one, up to the first row
/// of kind 0.
pub fn bytes_of_all(version: u32, rows: &[u32]) -> Vec<u8> {
    let rows = rows.chunks_exact(FIELDS).take_while(|row| row[0] != 0);
    let rows = rows.map(|row| row.try_into().expect("a whole row"));
    bytes_in(version, &rows.collect::<Vec<Row>>())
}

/// The bytes of these rows after mark and version, whether the version has
/// their kinds or not.
pub fn bytes_in(version: u32, rows: &[Row]) -> Vec<u8> {
    let mut script = header(version).to_vec();
    for row in rows {
        let bytes = row.map(|field| field as u8);
        let operands = match row[0] {
            0x01 => &row[1].to_be_bytes(),
            0x07 => &bytes[1..1],
            0x02 | 0x08 | 0x0B => &bytes[1..2],
            0x0A | 0x0D => &bytes[1..5],
            _ => &bytes[1..3],
        };
        script.push(bytes[0]);
        script.extend(operands);
    }
    script
}
