//! A borrow ends at its last use: only variables in use bar reading (34;
//! LANGUAGE 3.11) and writing (35; 3.12). The order in which terms finish is in
//! `finishing`, variables that hold each other are in `round`, and what stays in
//! the store is in `stale`.

use crate::common::refused;
use crate::common::terms::*;
use crate::hand::*;

/// Accepted, and it runs to this answer.
#[track_caller]
pub fn gives_one(terms: &[Term], answer: i32) {
    assert_eq!(accepts(terms), Ok(()));
    assert_eq!(runs(terms).map(|ran| ran.answer), Ok(answer));
}

#[track_caller]
pub fn refuses_at(terms: &[Term], number: u32, term: u32) {
    assert_eq!(accepts(terms), refused(number, term));
}

/// `let v0=5` and what is borrowed of it by v1. Terms 0 to 4.
fn lent(borrow: fn(Place) -> Term, then: &[Term]) -> Vec<Term> {
    let before = [let_(0, number(5)), let_(1, borrow((0, 0)))];
    [&before, then].concat()
}

pub fn held(then: &[Term]) -> Vec<Term> {
    lent(exclusive, then)
}

#[test]
fn e2_and_e2_used_again() {
    gives_one(&held(&[copy((0, 0))]), 5);
    refuses_at(&held(&[copy((0, 0)), copy((1, 1))]), 34, 5);
    // Used before, and not again.
    gives_one(&held(&[copy((1, 1)), copy((0, 0))]), 5);
    gives_one(&held(&[assign((1, 1), number(6)), copy((0, 0))]), 6);
}

/// Every term that asks, with the borrow over and with it used again by every
/// term that names it.
#[test]
fn every_term_that_asks_and_every_term_that_names() {
    let asking = [
        (copy((0, 0)), 34, 5),
        (shared((0, 0)), 34, 5),
        (below((0, 0), (0, 0)), 34, 5),
        (sum((0, 0), (0, 0)), 34, 5),
        (choice((0, 0), &[number(1)], &[number(1)]), 34, 5),
        (mov((0, 0)), 35, 5),
        (exclusive((0, 0)), 35, 5),
        (assign((0, 0), number(6)), 35, 5),
    ];
    let naming = [
        copy((1, 1)),
        mov((1, 0)),
        shared((1, 0)),
        exclusive((1, 1)),
        assign((1, 1), number(7)),
        below((2, 0), (1, 1)),
        below((1, 1), (2, 0)),
        sum((2, 0), (1, 1)),
        choice((1, 1), &[number(1)], &[number(1)]),
        let_(1, number(7)),
        let_(3, boxed(copy((1, 1)))),
        block(&[block(&[copy((1, 1))])]),
        choice((2, 0), &[number(1)], &[copy((1, 1))]),
    ];
    for (ask, number_due, term) in asking {
        let over = held(&[ask.clone(), number(1)]);
        assert_eq!(accepts(&over), Ok(()));
        for name in &naming {
            let again = held(&[ask.clone(), name.clone(), number(1)]);
            refuses_at(&again, number_due, term);
        }
    }
}

/// A shared borrow bars no reading, in use or not.
#[test]
fn a_shared_borrow_bars_writing_only() {
    for last in [number(1), copy((1, 1))] {
        let with = |ask: Term| lent(shared, &[ask, last.clone()]);
        assert_eq!(accepts(&with(copy((0, 0)))), Ok(()));
        assert_eq!(accepts(&with(shared((0, 0)))), Ok(()));
        let used = last == copy((1, 1));
        for ask in [mov((0, 0)), exclusive((0, 0)), assign((0, 0), number(6))] {
            let due = if used { refused(35, 5) } else { Ok(()) };
            assert_eq!(accepts(&with(ask)), due);
        }
    }
}

/// v1 borrows v0, and each of the others what the one before it borrows, by
/// way of it: whichever is used again keeps all before it in use.
#[test]
fn a_chain_of_holders() {
    for length in 1..=8 {
        let mut before = vec![let_(0, number(5)), let_(1, exclusive((0, 0)))];
        before.extend((2..=length).map(|of| let_(of, exclusive((of - 1, 1)))));
        let count = 1 + 2 * (length as u32 + 1);
        let then = |terms: &[Term]| [&before[..], terms].concat();
        gives_one(&then(&[copy((0, 0))]), 5);
        for used in 1..=length {
            let again = then(&[copy((0, 0)), copy((used, 1))]);
            refuses_at(&again, 34, count);
            // Of those before it only what it holds is barred, and it is not
            // itself, as the later ones are over.
            gives_one(&then(&[copy((used, 1)), copy((0, 0))]), 5);
        }
        for held in 1..length {
            let again = then(&[copy((held, 1)), copy((length, 1))]);
            refuses_at(&again, 34, count);
        }
    }
}

/// References to references: in use by way of holders that are not named.
#[test]
fn a_chain_of_references() {
    let before = [
        let_(0, number(5)),
        let_(1, shared((0, 0))),
        let_(2, shared((1, 0))),
        let_(3, shared((2, 0))),
    ];
    let then = |terms: &[Term]| [&before[..], terms].concat();
    for (root, value) in [(0, number(6)), (1, shared((0, 0))), (2, shared((1, 0)))] {
        let write = assign((root, 0), value);
        assert_eq!(accepts(&then(&[write.clone(), number(1)])), Ok(()));
        let again = accepts(&then(&[write, copy((3, 3))]));
        assert_eq!(again.map_err(|refusal| refusal.number), Err(35));
    }
    // A shared borrow through v3 is of v2: v4 keeps v2 in use, and v3 not.
    let through = |write: Term| then(&[let_(4, shared((3, 1))), write, copy((4, 3))]);
    gives_one(&through(assign((3, 0), shared((2, 0)))), 5);
    refuses_at(&through(assign((2, 0), shared((1, 0)))), 35, 11);
}

/// What was moved away holds nothing, named or not.
#[test]
fn a_moved_holder() {
    let moved = || let_(2, mov((1, 0)));
    gives_one(&held(&[moved(), copy((0, 0))]), 5);
    refuses_at(&held(&[moved(), copy((0, 0)), copy((2, 1))]), 34, 7);
    // v1 is named later, but it holds nothing until then.
    let again = [
        moved(),
        let_(3, number(1)),
        copy((0, 0)),
        assign((1, 0), exclusive((3, 0))),
        copy((1, 1)),
    ];
    gives_one(&held(&again), 1);
}

/// Bound to another place, a variable holds the old one no longer; until then
/// the assign to come keeps it in use.
#[test]
fn bound_again() {
    let bind = || assign((1, 0), exclusive((2, 0)));
    let other = || let_(2, number(6));
    gives_one(&held(&[other(), bind(), copy((0, 0)), copy((1, 1))]), 6);
    refuses_at(&held(&[other(), copy((0, 0)), bind(), number(1)]), 34, 7);
}

/// A let names its variable: one that is refused for it keeps it in use.
#[test]
fn a_let_names_its_variable() {
    let again = || let_(1, number(2));
    refuses_at(&held(&[copy((0, 0)), again(), number(1)]), 34, 5);
    refuses_at(&lent(shared, &[copy((0, 0)), again(), number(1)]), 30, 6);
    refuses_at(&held(&[again(), copy((0, 0))]), 30, 5);
}

/// A name counts also where the variable is out of scope.
#[test]
fn named_out_of_scope() {
    let inner = block(&[let_(1, exclusive((0, 0))), copy((0, 0)), number(1)]);
    let terms = [let_(0, number(5)), inner];
    assert_eq!(accepts(&terms), Ok(()));
    let later = [&terms[..], &[copy((1, 1))]].concat();
    refuses_at(&later, 34, 6);
    let shared_inner = block(&[let_(1, shared((0, 0))), copy((0, 0)), number(1)]);
    refuses_at(&[let_(0, number(5)), shared_inner, copy((1, 1))], 31, 8);
}

/// Block ends and 40 go by scope, in use or not.
#[test]
fn scope_still_counts() {
    let inner = [
        let_(2, number(2)),
        assign((1, 0), shared((2, 0))),
        number(0),
    ];
    refuses_at(&lent(shared, &[block(&inner), number(1)]), 40, 8);
    let given = let_(2, block(&[let_(3, number(3)), shared((3, 0))]));
    refuses_at(&lent(shared, &[given, number(1)]), 40, 6);
    // Nor does an end of use bring back what is moved away.
    let boxed_v0 = [let_(0, boxed(number(5))), let_(1, shared((0, 1)))];
    let moved = [&boxed_v0[..], &[mov((0, 0)), copy((0, 1))]].concat();
    refuses_at(&moved, 33, 7);
}

/// `let v0=1; let v1=2; let v2=&mut v0` and these terms. Terms 0 to 6.
fn two_and_one_lent(then: &[Term]) -> Vec<Term> {
    let before = [
        let_(0, number(1)),
        let_(1, number(2)),
        let_(2, exclusive((0, 0))),
    ];
    [&before, then].concat()
}

/// A variable in use that was given another borrow holds the first no more, and
/// those that hold it do not lead there either.
#[test]
fn in_use_and_given_another_borrow() {
    let given = |v: u32| assign((v, 0), exclusive((1, 0)));
    let (ask, from_v2) = (copy((0, 0)), let_(3, exclusive((2, 1))));
    let and_v4 = let_(4, exclusive((3, 1)));
    let of_v2 = [ask.clone(), copy((2, 1))];
    refuses_at(&two_and_one_lent(&of_v2), 34, 7);
    gives_one(&two_and_one_lent(&[&[given(2)], &of_v2[..]].concat()), 2);
    let of_v3 = [from_v2.clone(), ask.clone(), copy((3, 1))];
    refuses_at(&two_and_one_lent(&of_v3), 34, 9);
    gives_one(&two_and_one_lent(&[&[given(2)], &of_v3[..]].concat()), 2);
    // One step further on: v2 holds v0, and v3 holds v2 no more.
    let of_v4 = [and_v4, ask, copy((4, 1))];
    let held = [&[from_v2.clone()], &of_v4[..]].concat();
    refuses_at(&two_and_one_lent(&held), 34, 11);
    let over = [&[from_v2, given(3)], &of_v4[..]].concat();
    gives_one(&two_and_one_lent(&over), 2);
}

/// v3 held v2, was given another borrow, and then one of v4, which holds v2: it
/// leads to v0 again, by another way.
#[test]
fn in_use_and_given_a_borrow_that_leads_back() {
    let terms = |back: &[Term]| {
        let there = [
            let_(3, exclusive((2, 1))),
            assign((3, 0), exclusive((1, 0))),
            let_(4, exclusive((2, 1))),
        ];
        two_and_one_lent(&[&there, back, &[copy((0, 0)), copy((3, 1))]].concat())
    };
    gives_one(&terms(&[]), 2);
    refuses_at(&terms(&[assign((3, 0), exclusive((4, 1)))]), 34, 15);
}
