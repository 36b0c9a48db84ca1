//! Scripts in which borrows end at their last use, all accepted by the
//! ownership check: what they are of is used afterwards, while their variables
//! are still in scope.

use crate::scripts::{mixture, script, script_in, Statement, READING};
use roomscript::Limits;

/// Statements that ask fifteen times about a variable with a holder, 24 terms
/// in all. They declare three variables, so that 512 terms of them are within
/// the limits.
fn statements(first: u8) -> Vec<Statement> {
    let (a, b, c) = (first, first + 1, first + 2);
    [
        // let a = 300; let b = &mut a; let c = &mut *b; *c = reading 3
        (2, vec![0x08, a, 0x01, 0, 0, 1, 44]),
        (2, vec![0x08, b, 0x06, a, 0]),
        (2, vec![0x08, c, 0x06, b, 1]),
        (2, vec![0x09, c, 1, 0x02, 3]),
        // below a, a; a = copy a; { &a; &mut a; copy a }
        (1, vec![0x0A, a, 0, a, 0]),
        (2, vec![0x09, a, 0, 0x03, a, 0]),
        (4, vec![0x0B, 3, 0x05, a, 0, 0x06, a, 0, 0x03, a, 0]),
        // a = { move a }; a = { below a, a }; { copy a; below a, a }
        (3, vec![0x09, a, 0, 0x0B, 1, 0x04, a, 0]),
        (3, vec![0x09, a, 0, 0x0B, 1, 0x0A, a, 0, a, 0]),
        (3, vec![0x0B, 2, 0x03, a, 0, 0x0A, a, 0, a, 0]),
    ]
    .to_vec()
}

/// A script of exactly so many terms, 2 to 512, in the same mixture at every
/// size.
pub fn mixed(terms: usize) -> Vec<u8> {
    script(&mixture(terms, statements))
}

/// As many variables as a set allows, all but three of which hold each other
/// after a choice, and then terms that ask about what one of them holds, as many
/// as the set allows: each time all of them are looked at, and none is in use.
pub fn round(limits: Limits) -> Vec<u8> {
    let variables = limits.variables as u8;
    let (other, beside) = (variables - 2, variables - 1);
    let mut terms = vec![vec![0x08, 0, 0x02, 0], vec![0x08, 1, 0x02, 1]];
    // A chain of exclusive borrows: the first is of v1, and each of the others
    // of what the one before it borrows.
    terms.extend((2..other).map(|v| vec![0x08, v, 0x06, v - 1, u8::from(v > 2)]));
    // let other = reading 2; let beside = &mut other
    terms.push(vec![0x08, other, 0x02, 2]);
    terms.push(vec![0x08, beside, 0x06, other, 0]);
    // choice v0 { beside = &mut *last of the chain; 1 } { v2 = &mut *beside; 1 }
    let bound = |v: u8, to: u8| vec![0x0B, 2, 0x09, v, 0, 0x06, to, 1, 0x01, 0, 0, 0, 1];
    let (one, two) = (bound(beside, other - 1), bound(2, beside));
    terms.push([vec![0x0C, 0, 0], one, two].concat());
    // Two terms for each let, and the choice.
    let taken = 2 * variables as usize + 9;
    with_questions(limits, terms, taken, 1, READING.to_vec())
}

/// As many variables as a set allows, all but two of which are a chain of
/// exclusive borrows that is used at the end. The first of them borrowed v0, and
/// borrows v1 since. Then terms that ask about v0, as many as the set allows:
/// each time it is looked at whether the first still holds v0.
pub fn out_of_date(limits: Limits) -> Vec<u8> {
    let variables = limits.variables as u8;
    let mut terms = vec![vec![0x08, 0, 0x02, 0], vec![0x08, 1, 0x02, 1]];
    // let v2 = &mut v0; v2 = &mut v1; let v3 = &mut *v2; and so on
    terms.push(vec![0x08, 2, 0x06, 0, 0]);
    terms.push(vec![0x09, 2, 0, 0x06, 1, 0]);
    terms.extend((3..variables).map(|v| vec![0x08, v, 0x06, v - 1, 1]));
    // Two terms for each let, and for the assign.
    let taken = 2 * variables as usize + 2;
    with_questions(limits, terms, taken, 0, vec![0x03, variables - 1, 1])
}

/// A script with these terms, which are so many with their inner ones, then as
/// many that ask about a variable as there is room for, and the answer.
fn with_questions(
    limits: Limits,
    mut terms: Vec<Vec<u8>>,
    taken: usize,
    about: u8,
    answer: Vec<u8>,
) -> Vec<u8> {
    // The outermost block, and the answer.
    let mut left = limits.terms as usize - taken - 2;
    while left > 1 {
        let count = (left - 1).min(240);
        terms.push(
            [
                vec![0x0B, count as u8],
                [0x0A, about, 0, about, 0].repeat(count),
            ]
            .concat(),
        );
        left -= count + 1;
    }
    terms.extend(vec![READING.to_vec(); left]);
    terms.push(answer);
    script_in(2, &terms)
}

#[cfg(test)]
mod tests {
    use super::*;
    use crate::scripts::outline::{outline, rows_of, variables};
    use reference::form::{ASSIGN, BELOW, MOVE};
    use reference::{check, check_by_scope, Limits as Set};

    /// What the check answers where borrows last as long as their variables.
    fn number_by_scope(set: Set, rows: &[u32]) -> Option<u32> {
        check_by_scope(set, rows)
            .err()
            .map(|refusal| refusal.number)
    }

    #[test]
    fn mixed_has_the_terms_asked_for_and_is_accepted() {
        for terms in 2..=512 {
            let script = mixed(terms);
            assert_eq!(outline(Set::BASE, &script).0, terms as u32);
            let rows = rows_of(Set::BASE, &script).1;
            assert_eq!(check(Set::BASE, &rows), Ok(terms as u32));
            let due = (terms >= 11).then_some(34);
            assert_eq!(number_by_scope(Set::BASE, &rows), due, "{terms}");
        }
    }

    /// Under either set it has all variables and all terms. Where one of those
    /// that the choice binds is named at the end, the first term that asks is
    /// refused.
    #[test]
    fn round_is_accepted_while_none_is_used_again() {
        let sets = [(Limits::BASE, Set::BASE), (Limits::LARGEST, Set::LARGEST)];
        for (limits, set) in sets {
            let script = round(limits);
            assert_eq!(variables(set, &script), set.variables as usize);
            let (terms, mut rows) = rows_of(set, &script);
            assert_eq!(check(set, &rows), Ok(terms));
            assert_eq!(terms, set.terms);
            assert_eq!(number_by_scope(set, &rows), Some(35));
            let asks = rows.chunks(5).position(|row| row[0] == BELOW);
            let last = 5 * (terms as usize - 1);
            for used in [2, set.variables - 1] {
                rows[last..].copy_from_slice(&[3, used, 1, 0, 0]);
                let refusal = check(set, &rows).expect_err("used again");
                assert_eq!((refusal.number, Some(refusal.place as usize)), (34, asks));
            }
        }
    }

    /// It has all variables and all terms too. Where the assign gives the first
    /// of the chain its own borrow back, the first term that asks is refused.
    #[test]
    fn out_of_date_is_accepted_since_another_borrow_is_held() {
        let sets = [(Limits::BASE, Set::BASE), (Limits::LARGEST, Set::LARGEST)];
        for (limits, set) in sets {
            let script = out_of_date(limits);
            assert_eq!(variables(set, &script), set.variables as usize);
            let (terms, mut rows) = rows_of(set, &script);
            assert_eq!(check(set, &rows), Ok(terms));
            assert_eq!(terms, set.terms);
            let place = |kind: u32| rows.chunks(5).position(|row| row[0] == kind);
            let asks = place(BELOW);
            let right_side = 5 * place(ASSIGN).expect("an assign") + 5;
            rows[right_side..right_side + 5].copy_from_slice(&[MOVE, 2, 0, 0, 0]);
            let refusal = check(set, &rows).expect_err("held again");
            assert_eq!((refusal.number, Some(refusal.place as usize)), (34, asks));
        }
    }
}
