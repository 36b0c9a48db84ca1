//! Scripts by which the rule shows beside other readings of it: the place as
//! it is named, the first shared link instead of the last, and the follows that
//! remain forgotten.

#[allow(dead_code)]
#[path = "../literal_check/judge.rs"]
mod judge;

use super::common::*;
use judge::{check_by, Recording, Using};

/// What the check answers while every variable is in use, and what a check
/// would answer that records otherwise, each the number of a refusal or 0.
fn numbers(terms: &[Term]) -> (u32, [u32; 3]) {
    let terms = [terms, &[number(0)]].concat();
    let answer = safe_in_use(&terms).map_or_else(|refusal| refusal.number, |()| 0);
    let rows = rows_of(&script_of(2, &terms));
    let literal = |recording| match check_by(recording, Using::Scope, LIMITS, &rows) {
        Ok(_) => 0,
        Err((number, _)) => number,
    };
    assert_eq!(literal(Recording::Rule), answer);
    let others = [
        Recording::Named,
        Recording::FirstLink,
        Recording::WithoutFollows,
    ];
    (answer, others.map(literal))
}

/// v1 is borrowed by v2 and v2 by v3, which is gone after `&**v3`.
fn two_links(then: &[Term]) -> Vec<Term> {
    let before = [
        let_(1, number(1)),
        let_(2, shared((1, 0))),
        let_(3, shared((2, 0))),
        let_(4, shared((3, 2))),
    ];
    [&before, then].concat()
}

#[test]
fn the_place_that_is_named() {
    let passed = two_links(&[mov((3, 0))]);
    assert_eq!(numbers(&passed), (0, [35, 0, 0]));
    let through_itself = [
        let_(1, number(1)),
        let_(2, shared((1, 0))),
        assign((2, 0), shared((2, 1))),
    ];
    assert_eq!(numbers(&through_itself), (0, [35, 0, 0]));
    let given = [
        let_(1, number(1)),
        let_(2, block(&[let_(3, shared((1, 0))), shared((3, 1))])),
    ];
    assert_eq!(numbers(&given), (0, [40, 0, 0]));
    let kept = [
        let_(0, number(0)),
        let_(1, number(1)),
        let_(2, shared((1, 0))),
        let_(3, exclusive((2, 0))),
        let_(4, shared((3, 2))),
        assign((3, 1), shared((0, 0))),
    ];
    assert_eq!(numbers(&kept), (0, [35, 0, 0]));
}

/// One branch binds v4 to v2 and moves v3 away. Recorded as it is named, v4
/// could not be used, and v1 would be free.
#[test]
fn accepted_by_the_named_place_and_refused_by_the_rule() {
    let before = [
        let_(0, reading(0)),
        let_(1, number(1)),
        let_(2, number(2)),
        let_(3, shared((1, 0))),
        let_(4, shared((3, 1))),
        choice(
            (0, 0),
            &[assign((4, 0), shared((2, 0))), mov((3, 0)), number(1)],
            &[number(1)],
        ),
    ];
    let then = |term: Term| numbers(&[&before[..], &[term]].concat());
    assert_eq!(then(assign((1, 0), number(5))), (35, [0, 35, 35]));
    assert_eq!(then(copy((4, 1))), (0, [33, 0, 0]));
}

#[test]
fn the_first_link_instead_of_the_last() {
    let first = two_links(&[mov((3, 0)), mov((2, 0))]);
    assert_eq!(numbers(&first), (0, [35, 35, 0]));
    let given = [
        let_(1, number(1)),
        let_(
            2,
            block(&[
                let_(3, shared((1, 0))),
                let_(4, shared((3, 0))),
                shared((4, 2)),
            ]),
        ),
    ];
    assert_eq!(numbers(&given), (0, [40, 40, 0]));
}

/// v4 borrows `*v2`, which is v1 by way of an exclusive link. Without the
/// follow it would borrow v2 itself, and a copy of what is there would be of
/// what v2 borrows.
#[test]
fn the_follows_that_remain() {
    let before = [
        let_(0, number(0)),
        let_(1, shared((0, 0))),
        let_(2, exclusive((1, 0))),
        let_(3, shared((2, 0))),
        let_(4, shared((3, 2))),
        let_(5, copy((4, 1))),
        mov((4, 0)),
        mov((3, 0)),
        mov((2, 0)),
        mov((1, 0)),
    ];
    assert_eq!(numbers(&before), (0, [0, 0, 35]));
}
