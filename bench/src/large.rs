//! Scripts for the largest set of limits. Each is accepted by the ownership
//! check, but for one that is only run unchecked, to see how much stack that
//! takes.

use crate::scripts::{script, READING};
use roomscript::Limits;

const LIMITS: Limits = Limits::LARGEST;

/// A statement's bytes, and how many terms it has.
type Statement = (usize, Vec<u8>);

/// Statements on two variables that declare nothing and have no box, 15 terms
/// in all.
fn round(a: u8, b: u8) -> [Statement; 7] {
    [
        // *b = copy a; { &a; &mut *b; copy *b }
        (2, vec![0x09, b, 1, 0x03, a, 0]),
        (4, vec![0x0B, 3, 0x05, a, 0, 0x06, b, 1, 0x03, b, 1]),
        // below a, *b
        (1, vec![0x0A, a, 0, b, 1]),
        // a = reading 5; a = { move a }
        (2, vec![0x09, a, 0, 0x02, 5]),
        (3, vec![0x09, a, 0, 0x0B, 1, 0x04, a, 0]),
        // copy *b; *b = 300
        (1, vec![0x03, b, 1]),
        (2, vec![0x09, b, 1, 0x01, 0, 0, 1, 44]),
    ]
}

/// What an inner block does with two variables around it and one of its own,
/// 94 terms in all.
fn inside(first: u8) -> Vec<Statement> {
    let (a, b, c) = (first, first + 1, first + 2);
    let mut statements = vec![
        // { let c = &a; below *c, *b }; b = box move *b
        (4, vec![0x0B, 2, 0x08, c, 0x05, a, 0, 0x0A, c, 1, b, 1]),
        (3, vec![0x09, b, 0, 0x07, 0x04, b, 1]),
        // { below a, *b; { copy a } }
        (4, vec![0x0B, 2, 0x0A, a, 0, b, 1, 0x0B, 1, 0x03, a, 0]),
        // { move a; a = reading 1; { copy a } }
        (
            6,
            vec![
                0x0B, 3, 0x04, a, 0, 0x09, a, 0, 0x02, 1, 0x0B, 1, 0x03, a, 0,
            ],
        ),
        // *b = reading 7
        (2, vec![0x09, b, 1, 0x02, 7]),
    ];
    statements.extend((0..5).flat_map(|_| round(a, b)));
    statements
}

/// The block of as many of the statements as there is room for, with its
/// terms.
fn block(statements: Vec<Statement>, room: usize) -> Option<Statement> {
    let (mut terms, mut count, mut bytes) = (1, 0, Vec::new());
    for (size, statement) in statements {
        if terms + size > room {
            break;
        }
        terms += size;
        count += 1;
        bytes.extend(statement);
    }
    (count > 0).then(|| (terms, [&[0x0B, count], &bytes[..]].concat()))
}

/// Statements of so many terms in all, in the same mixture at every size. All
/// but one in three variables are declared in the outermost block.
fn mixture(terms: usize, first: u8) -> Vec<Vec<u8>> {
    let mut left = terms;
    let mut chosen = Vec::new();
    for a in (first..).step_by(3) {
        if left < 5 {
            break;
        }
        // let a = 300; let b = box reading 3
        chosen.push(vec![0x08, a, 0x01, 0, 0, 1, 44]);
        chosen.push(vec![0x08, a + 1, 0x07, 0x02, 3]);
        left -= 5;
        let Some((size, inner)) = block(inside(a), left) else {
            break;
        };
        chosen.push(inner);
        left -= size;
    }
    chosen.extend(vec![READING.to_vec(); left]);
    chosen
}

/// A script of exactly so many terms, 2 to 4,096. Every 100 terms have three
/// variables and two boxes.
pub fn mixed(terms: usize) -> Vec<u8> {
    // The outermost block and the answer are there at every size.
    let mut statements = mixture(terms - 2, 0);
    statements.push(READING.to_vec());
    script(&statements)
}

/// 4,096 terms, 128 boxes, 32 levels and 128 variables.
pub fn full() -> Vec<u8> {
    let mut statements = vec![
        // Blocks from level 2 to level 31, and a reading.
        [&[0x0B, 1].repeat(30)[..], READING].concat(),
    ];
    // The mixture below takes the other 120 variables and 80 boxes.
    statements.extend((0..8).map(|variable| vec![0x08, variable, 0x02, 2]));
    statements.extend(vec![vec![0x07, 0x02, 3]; 48]);
    let used = 1 + 31 + 8 * 2 + 48 * 2 + 1;
    statements.extend(mixture(LIMITS.terms as usize - used, 8));
    statements.push(READING.to_vec());
    script(&statements)
}

/// A script that the check refuses, for the stack of its unchecked run: all 128 cells in
/// one chain, which a block on level 29 drops.
pub fn chain() -> Vec<u8> {
    crate::scripts::chain_of(128, 29)
}

#[cfg(test)]
mod tests {
    use super::*;
    use crate::scripts::outline::{outline, rows_of, variables};
    use reference::{check, run_unchecked, Limits};

    const SET: Limits = Limits::LARGEST;

    #[test]
    fn full_is_at_every_limit_and_accepted() {
        assert_eq!(outline(SET, &full()), (4096, 128, 32));
        assert_eq!(variables(SET, &full()), 128);
        assert_eq!(check(SET, &rows_of(SET, &full()).1), Ok(4096));
    }

    #[test]
    fn mixed_has_the_terms_asked_for_and_is_accepted() {
        for terms in 2..=4096 {
            let script = mixed(terms);
            let (found, rows) = rows_of(SET, &script);
            assert_eq!(found, terms as u32);
            assert_eq!(check(SET, &rows), Ok(terms as u32));
        }
        assert_eq!(outline(SET, &mixed(4096)), (4096, 82, 5));
        assert_eq!(variables(SET, &mixed(4096)), 123);
    }

    #[test]
    fn chain_takes_every_cell() {
        assert_eq!(outline(SET, &chain()), (414, 128, 32));
        let rows = rows_of(SET, &chain()).1;
        assert!(check(SET, &rows).is_err());
        let ran = run_unchecked(SET, &rows, &[0; 8], &mut [0; 768]).expect("no fault");
        assert_eq!(ran.cells, 128);
    }
}
