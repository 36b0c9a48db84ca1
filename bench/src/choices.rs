//! The scripts with choices that are timed, all of version 2 and accepted by the
//! ownership check.

use crate::scripts::{mixture, script_in, Statement, READING};
use roomscript::Limits;

/// `let v0=reading 0; choice v0 {7} {8}`.
pub fn small() -> Vec<u8> {
    let read = vec![0x08, 0, 0x02, 0];
    let choice = vec![
        0x0C, 0, 0, 0x0B, 1, 0x01, 0, 0, 0, 7, 0x0B, 1, 0x01, 0, 0, 0, 8,
    ];
    script_in(2, &[read, choice])
}

/// Statements with three choices, 26 terms in all. They declare three variables
/// and have a box, so that 512 terms of them are within the limits.
fn statements(first: u8) -> Vec<Statement> {
    let (a, b, c) = (first, first + 1, first + 2);
    let borrowed = [
        0x08, c, 0x0C, a, 0, 0x0B, 1, 0x05, a, 0, 0x0B, 1, 0x05, b, 1,
    ];
    [
        // let a = 300; let b = box reading 3
        (2, vec![0x08, a, 0x01, 0, 0, 1, 44]),
        (3, vec![0x08, b, 0x07, 0x02, 3]),
        // { let c = choice a { &a } { &*b }; below *c, a }
        (8, [&[0x0B, 2], &borrowed[..], &[0x0A, c, 1, a, 0]].concat()),
        // choice *b { *b = copy a } { a = reading 5 }
        (
            7,
            vec![
                0x0C, b, 1, 0x0B, 1, 0x09, b, 1, 0x03, a, 0, 0x0B, 1, 0x09, a, 0, 0x02, 5,
            ],
        ),
        // *b = choice a { copy *b } { reading 2 }
        (
            6,
            vec![
                0x09, b, 1, 0x0C, a, 0, 0x0B, 1, 0x03, b, 1, 0x0B, 1, 0x02, 2,
            ],
        ),
    ]
    .to_vec()
}

/// A script of exactly so many terms, 2 to 512, in the same mixture at every
/// size.
pub fn mixed(terms: usize) -> Vec<u8> {
    script_in(2, &mixture(terms, statements))
}

/// 250 choices, each of which lets one of so many variables borrow another
/// place in each branch. Under the largest set, which has room for 125 of them.
pub fn borrowers(count: u8) -> Vec<u8> {
    let mut terms = vec![
        vec![0x08, 0, 0x02, 0],
        vec![0x08, 1, 0x01, 0, 0, 0, 1],
        vec![0x08, 2, 0x01, 0, 0, 0, 2],
    ];
    let borrower = |at: usize| 3 + (at % count as usize) as u8;
    terms.extend((0..count as usize).map(|at| vec![0x08, borrower(at), 0x05, 1, 0]));
    // choice v0 { v=&v1; 1 } { v=&v2; 1 }
    let bound = |v: u8, to: u8| vec![0x0B, 2, 0x09, v, 0, 0x05, to, 0, 0x01, 0, 0, 0, 1];
    let choice = |at| {
        let v = borrower(at);
        [vec![0x0C, 0, 0], bound(v, 1), bound(v, 2)].concat()
    };
    let choices: Vec<Vec<u8>> = (0..250).map(choice).collect();
    let blocks = choices
        .chunks(25)
        .map(|some| [vec![0x0B, some.len() as u8], some.concat()].concat());
    terms.extend(blocks);
    terms.push(READING.to_vec());
    script_in(2, &terms)
}

/// As many choices in each other as the levels of a set allow, with all its
/// variables in scope. They stand in first and second branches in turn, which
/// the runs take whatever the readings are.
pub fn nested(limits: Limits) -> Vec<u8> {
    let variables = limits.variables as u8;
    let mut terms = vec![
        vec![0x08, 0, 0x01, 0, 0, 0, 0],
        vec![0x08, 1, 0x01, 0, 0, 0, 1],
    ];
    terms.extend((2..variables).map(|v| vec![0x08, v, 0x05, 1, 0]));
    // The innermost branches have no level left for an assign. The outermost
    // block and the term in them are a level each.
    let innermost = [&[0x0B, 1], READING].concat();
    let mut term = [&[0x0C, 1, 0], &innermost[..], &innermost].concat();
    for at in 1..(limits.levels as u8 - 2) / 2 {
        // Variable 0 is 0, and variable 1 is not.
        let by = at % 2;
        let deeper = [vec![0x0B, 2, 0x09, 2, 0, 0x05, 0, 0], term].concat();
        let other = [&[0x0B, 2, 0x09, 3, 0, 0x05, 0, 0], READING].concat();
        let branches = match by {
            1 => [deeper, other],
            _ => [other, deeper],
        };
        term = [vec![0x0C, by, 0], branches.concat()].concat();
    }
    terms.push(term);
    script_in(2, &terms)
}

#[cfg(test)]
mod tests {
    use super::*;
    use crate::scripts::outline::{outline, rows_of, variables};
    use reference::form::CHOICE;
    use reference::{check, Limits as Set};

    /// Terms, levels and choices of a script that is accepted.
    fn accepted(set: Set, script: &[u8]) -> (u32, usize, usize) {
        let (terms, rows) = rows_of(set, script);
        assert_eq!(check(set, &rows), Ok(terms));
        let choices = rows.chunks(5).filter(|row| row[0] == CHOICE).count();
        (terms, outline(set, script).2, choices)
    }

    #[test]
    fn mixed_has_the_terms_asked_for_and_is_accepted() {
        for terms in 2..=512 {
            let found = accepted(Set::BASE, &mixed(terms)).0;
            assert_eq!(found, terms as u32);
        }
        assert_eq!(accepted(Set::BASE, &mixed(60)), (60, 6, 6));
        assert_eq!(accepted(Set::BASE, &mixed(512)), (512, 6, 58));
    }

    #[test]
    fn small_and_borrowers_are_accepted() {
        assert_eq!(accepted(Set::BASE, &small()), (8, 4, 1));
        for count in [4, 60, 120] {
            let script = borrowers(count);
            let terms = 2268 + 2 * count as u32;
            assert_eq!(accepted(Set::LARGEST, &script), (terms, 6, 250));
            let declared = variables(Set::LARGEST, &script);
            assert_eq!(declared, 3 + count as usize);
        }
    }

    #[test]
    fn nested_is_as_deep_as_the_levels() {
        let base = nested(Limits::BASE);
        assert_eq!(accepted(Set::BASE, &base), (182, 16, 7));
        assert_eq!(variables(Set::BASE, &base), 64);
        let largest = nested(Limits::LARGEST);
        assert_eq!(accepted(Set::LARGEST, &largest), (374, 32, 15));
        assert_eq!(variables(Set::LARGEST, &largest), 128);
    }
}
