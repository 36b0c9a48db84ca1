//! Scripts that borrow through shared borrows, all accepted by the ownership
//! check.

use crate::scripts::{mixture, script, Statement};

/// Statements with six such borrows, 24 terms in all. They declare three
/// variables, so that 512 terms of them are within the limits.
fn statements(first: u8) -> Vec<Statement> {
    let (a, b, c) = (first, first + 1, first + 2);
    [
        // let a = 300; let b = &a
        (2, vec![0x08, a, 0x01, 0, 0, 1, 44]),
        (2, vec![0x08, b, 0x05, a, 0]),
        // b = { let c = &b; &**c }
        (
            5,
            vec![0x09, b, 0, 0x0B, 2, 0x08, c, 0x05, b, 0, 0x05, c, 2],
        ),
        // below *b, a; { &*b; copy *b }
        (1, vec![0x0A, b, 1, a, 0]),
        (3, vec![0x0B, 2, 0x05, b, 1, 0x03, b, 1]),
        // b = { { &*b } }; b = &*b
        (4, vec![0x09, b, 0, 0x0B, 1, 0x0B, 1, 0x05, b, 1]),
        (2, vec![0x09, b, 0, 0x05, b, 1]),
        // copy *b; { &*b; below *b, a }; &*b
        (1, vec![0x03, b, 1]),
        (3, vec![0x0B, 2, 0x05, b, 1, 0x0A, b, 1, a, 0]),
        (1, vec![0x05, b, 1]),
    ]
    .to_vec()
}

/// A script of exactly so many terms, 2 to 512, in the same mixture at every
/// size.
pub fn mixed(terms: usize) -> Vec<u8> {
    script(&mixture(terms, statements))
}

#[cfg(test)]
mod tests {
    use super::mixed;
    use crate::scripts::outline::{outline, rows_of};
    use reference::{check, Limits};

    const SET: Limits = Limits::BASE;

    #[test]
    fn mixed_has_the_terms_asked_for_and_is_accepted() {
        for terms in 2..=512 {
            let script = mixed(terms);
            assert_eq!(outline(SET, &script).0, terms as u32);
            assert_eq!(check(SET, &rows_of(SET, &script).1), Ok(terms as u32));
        }
    }
}
