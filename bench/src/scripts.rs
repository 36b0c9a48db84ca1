//! The scripts that are timed under the language's own set of limits. Each is
//! accepted by the ownership check, but for one that is only run unchecked, to
//! see how much stack that takes.

#[cfg(test)]
pub mod outline;

use reference::form::header;

/// The first example, E1 (LANGUAGE 8.2).
pub const E1: [u8; 25] = [
    0x52, 0x43, 0x53, 0x00, 0x01, 0x0B, 0x04, 0x08, 0x00, 0x02, 0x00, 0x08, 0x01, 0x02, 0x01, 0x08,
    0x02, 0x05, 0x00, 0x00, 0x0A, 0x02, 0x01, 0x01, 0x00,
];

pub const READING: &[u8] = &[0x02, 1];

/// The variables are 0 to 63.
const VARIABLES: u8 = 64;

/// A statement's bytes, and how many terms it has.
pub type Statement = (usize, Vec<u8>);

/// Statements of every kind of version 1, 24 terms in all. They declare three
/// variables and have two boxes, so that 512 terms of them are within the
/// limits.
fn statements(first: u8) -> Vec<Statement> {
    let (a, b, c) = (first, first + 1, first + 2);
    [
        // let a = 300; let b = box reading 3
        (2, vec![0x08, a, 0x01, 0, 0, 1, 44]),
        (3, vec![0x08, b, 0x07, 0x02, 3]),
        // { let c = &a; below *c, *b }
        (4, vec![0x0B, 2, 0x08, c, 0x05, a, 0, 0x0A, c, 1, b, 1]),
        // *b = copy a; { &a; &mut *b; copy *b }
        (2, vec![0x09, b, 1, 0x03, a, 0]),
        (4, vec![0x0B, 3, 0x05, a, 0, 0x06, b, 1, 0x03, b, 1]),
        // below a, *b; b = box move *b
        (1, vec![0x0A, a, 0, b, 1]),
        (3, vec![0x09, b, 0, 0x07, 0x04, b, 1]),
        // a = reading 5; a = { move a }
        (2, vec![0x09, a, 0, 0x02, 5]),
        (3, vec![0x09, a, 0, 0x0B, 1, 0x04, a, 0]),
    ]
    .to_vec()
}

/// Statements with seven sums, as many terms, variables and boxes in all.
fn statements_with_sums(first: u8) -> Vec<Statement> {
    let (a, b, c) = (first, first + 1, first + 2);
    [
        // let a = 300; let b = box reading 3
        (2, vec![0x08, a, 0x01, 0, 0, 1, 44]),
        (3, vec![0x08, b, 0x07, 0x02, 3]),
        // { let c = &a; sum *c, *b }
        (4, vec![0x0B, 2, 0x08, c, 0x05, a, 0, 0x0D, c, 1, b, 1]),
        // *b = sum a, *b; { sum a, *b; copy *b }
        (2, vec![0x09, b, 1, 0x0D, a, 0, b, 1]),
        (3, vec![0x0B, 2, 0x0D, a, 0, b, 1, 0x03, b, 1]),
        // sum a, *b; b = box move *b
        (1, vec![0x0D, a, 0, b, 1]),
        (3, vec![0x09, b, 0, 0x07, 0x04, b, 1]),
        // a = sum *b, a; a = { sum a, a }; sum *b, *b
        (2, vec![0x09, a, 0, 0x0D, b, 1, a, 0]),
        (3, vec![0x09, a, 0, 0x0B, 1, 0x0D, a, 0, a, 0]),
        (1, vec![0x0D, b, 1, b, 1]),
    ]
    .to_vec()
}

/// A block of the statements given, as a script of version 1.
pub fn script(statements: &[Vec<u8>]) -> Vec<u8> {
    script_in(1, statements)
}

/// The same as a script of a version.
pub fn script_in(version: u32, statements: &[Vec<u8>]) -> Vec<u8> {
    let count = statements.len() as u8;
    [&header(version), &[0x0B, count][..], &statements.concat()].concat()
}

/// A script of exactly so many terms, 2 to 512, in the same mixture at every
/// size.
pub fn mixed(terms: usize) -> Vec<u8> {
    script(&mixture(terms, statements))
}

/// A script of version 2, likewise, with sums.
pub fn with_sums(terms: usize) -> Vec<u8> {
    script_in(2, &mixture(terms, statements_with_sums))
}

/// Statements of a script of exactly so many terms.
pub fn mixture(terms: usize, statements: fn(u8) -> Vec<Statement>) -> Vec<Vec<u8>> {
    // The outermost block and the answer are there at every size.
    let mut left = terms - 2;
    let mut chosen = Vec::new();
    for (size, statement) in (0..VARIABLES - 2).step_by(3).flat_map(statements) {
        // What is too large for the end makes room for single terms.
        if size > left {
            break;
        }
        chosen.push(statement);
        left -= size;
    }
    chosen.extend(vec![READING.to_vec(); left + 1]);
    chosen
}

/// 21 terms with 2 boxes that reach from level 2 to level 16: a number in
/// blocks that assign it to a number or in a box, and copy it from there.
fn deep(number: u8, boxed: u8) -> Vec<u8> {
    let mut term = vec![0x01, 0, 0, 0, 9];
    for level in 0..6 {
        let (around, after) = match level % 3 {
            0 => (vec![0x09, boxed, 0, 0x07], [0x03, boxed, 1]),
            _ => (vec![0x09, number, 0], [0x03, number, 0]),
        };
        term = [&[0x0B, 2], &around[..], &term, &after].concat();
    }
    term
}

/// 512 terms, 64 boxes, 16 levels, and 64 variables that are all in scope at
/// the end, 14 of which hold a borrow.
pub fn full() -> Vec<u8> {
    let (number, held) = (0, 1);
    let mut statements = vec![
        vec![0x08, number, 0x01, 0, 0, 1, 44],
        vec![0x08, held, 0x02, 2],
    ];
    let borrows = 2..16;
    statements.extend(
        borrows
            .clone()
            .map(|borrow| vec![0x08, borrow, 0x05, held, 0]),
    );
    for (boxed, borrow) in (16..VARIABLES).zip(borrows.cycle()) {
        statements.push(vec![0x08, boxed, 0x07, 0x02, 3]);
        statements.push(vec![0x09, boxed, 1, 0x03, borrow, 1]);
        statements.push(vec![0x0A, number, 0, boxed, 1]);
    }
    statements.extend((16..24).map(|boxed| deep(number, boxed)));
    statements.extend(vec![vec![0x0A, number, 0, held, 0]; 22]);
    statements.push(READING.to_vec());
    script(&statements)
}

/// A script that the check refuses, for the stack of its unchecked run: all 64 cells in
/// one chain, which a block on level 13 drops.
pub fn chain() -> Vec<u8> {
    chain_of(64, 13)
}

/// So many cells in one chain, which a block on so deep a level drops. It has
/// three levels in it.
pub fn chain_of(cells: u8, level: usize) -> Vec<u8> {
    let mut statements = vec![vec![0x08, 0, 0x07, 0x02, 0]];
    statements.extend(vec![vec![0x09, 0, 0, 0x07, 0x04, 0, 0]; cells as usize - 1]);
    statements.push(READING.to_vec());
    let inner = [&[0x0B, cells + 1], &statements.concat()[..]].concat();
    script(&[[&[0x0B, 1].repeat(level - 2)[..], &inner].concat()])
}

#[cfg(test)]
mod tests {
    use super::outline::{outline, rows_of};
    use super::*;
    use reference::form::SUM;
    use reference::{check, run_unchecked, Limits};

    const SET: Limits = Limits::BASE;

    #[test]
    fn full_is_at_every_limit_and_accepted() {
        assert_eq!(outline(SET, &full()), (512, 64, 16));
        assert_eq!(check(SET, &rows_of(SET, &full()).1), Ok(512));
    }

    #[test]
    fn mixed_has_the_terms_asked_for_and_is_accepted() {
        for terms in 2..=512 {
            for script in [mixed(terms), with_sums(terms)] {
                assert_eq!(outline(SET, &script).0, terms as u32);
                assert_eq!(check(SET, &rows_of(SET, &script).1), Ok(terms as u32));
            }
        }
    }

    #[test]
    fn with_sums_has_them() {
        let sums = |script: &[u8]| {
            let rows = rows_of(SET, script).1;
            rows.chunks(5).filter(|row| row[0] == SUM).count()
        };
        assert_eq!(sums(&with_sums(60)), 15);
        assert_eq!(sums(&with_sums(512)), 147);
        assert_eq!(sums(&mixed(512)), 0);
    }

    #[test]
    fn chain_takes_every_cell() {
        assert_eq!(outline(SET, &chain()), (206, 64, 16));
        let rows = rows_of(SET, &chain()).1;
        assert!(check(SET, &rows).is_err());
        let ran = run_unchecked(SET, &rows, &[0; 8], &mut [0; 384]).expect("no fault");
        assert_eq!(ran.cells, 64);
    }
}
