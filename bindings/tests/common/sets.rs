//! Sets of limits that the tests hand in.

use super::terms::{block, inner_terms, Row, Term};
use roomscript::Limits;

pub const fn set(terms: u32, variables: u32, boxes: u32, levels: u32) -> Limits {
    Limits {
        terms,
        variables,
        boxes,
        levels,
    }
}

/// The least of each. No script is within it: a block has an inner term, which
/// is on the second level.
pub const LEAST: Limits = set(1, 1, 0, 1);
pub const SMALL: Limits = set(24, 5, 3, 5);
/// Fewer terms than in the language's own set, and more of all else.
pub const UNEVEN: Limits = set(200, 70, 65, 17);

/// Every set that is named, in order of its size.
pub const NAMED: [Limits; 5] = [LEAST, SMALL, UNEVEN, Limits::BASE, Limits::LARGEST];

/// The four numbers of a set, to change one of them.
pub fn fields(limits: &mut Limits) -> [&mut u32; 4] {
    [
        &mut limits.terms,
        &mut limits.variables,
        &mut limits.boxes,
        &mut limits.levels,
    ]
}

/// A set as it is named in the tests' output.
pub fn shown(limits: Limits) -> String {
    let Limits {
        terms,
        variables,
        boxes,
        levels,
    } = limits;
    format!("{terms}/{variables}/{boxes}/{levels}")
}

/// The smallest set that a script with these terms in its outermost block is
/// within.
pub fn fitting(terms: &[Term]) -> Limits {
    fitting_rows(&block(terms))
}

/// The same of a script with these rows.
pub fn fitting_rows(rows: &[Row]) -> Limits {
    let boxes = rows.iter().filter(|row| row[0] == 0x07).count();
    set(
        rows.len() as u32,
        rows.iter().map(variables).max().unwrap_or(0).max(1),
        boxes as u32,
        levels(&mut rows.iter()),
    )
}

/// How many variables there must be for the operands of a row.
fn variables(row: &Row) -> u32 {
    match row[0] {
        0x03..=0x06 | 0x08 | 0x09 | 0x0C => row[1] + 1,
        0x0A | 0x0D => row[1].max(row[3]) + 1,
        _ => 0,
    }
}

/// The levels of the next term.
fn levels<'a>(rows: &mut impl Iterator<Item = &'a Row>) -> u32 {
    let row = rows.next().expect("the row of a term");
    let inner = (0..inner_terms(row)).map(|_| levels(rows));
    1 + inner.max().unwrap_or(0)
}
