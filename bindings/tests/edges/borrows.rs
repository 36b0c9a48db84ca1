//! Borrows that are held (LANGUAGE 3.10): reading barred (34; 3.11), writing
//! barred (35; 3.12), and what stands behind a shared borrow (36; 3.22). All
//! variables are in use here.

use crate::common::refused;
use crate::common::terms::*;
use crate::hand::*;
use crate::in_use::accepts_in_use;

/// `let v0=1; let v1=` a borrow of v0, the terms given, and a number.
#[track_caller]
fn with(borrow: fn(Place) -> Term, terms: &[Term]) -> Result<(), roomscript::Refusal> {
    let first = [let_(0, number(1)), let_(1, borrow((0, 0)))];
    accepts_in_use(&[&first[..], terms, &[number(0)]].concat())
}

#[test]
fn reading_is_barred_by_exclusive_borrows() {
    for term in [
        copy((0, 0)),
        shared((0, 0)),
        below((0, 0), (9, 0)),
        below((1, 1), (0, 0)),
        sum((0, 0), (9, 0)),
        sum((1, 1), (0, 0)),
    ] {
        assert_eq!(with(exclusive, &[term]), refused(34, 5));
    }
    for term in [
        copy((0, 0)),
        shared((0, 0)),
        below((0, 0), (0, 0)),
        sum((0, 0), (0, 0)),
    ] {
        assert_eq!(with(shared, &[term]), Ok(()));
    }
}

#[test]
fn writing_is_barred_by_all_borrows() {
    for borrow in [shared, exclusive] {
        for term in [mov((0, 0)), exclusive((0, 0)), assign((0, 0), number(2))] {
            assert_eq!(with(borrow, &[term]), refused(35, 5));
        }
    }
}

#[test]
fn the_root_is_judged_and_not_the_place() {
    // v1 borrows the inside of v0.
    let then = |borrow: fn(Place) -> Term, term: Term| {
        accepts_in_use(&[
            let_(0, boxed(number(1))),
            let_(1, borrow((0, 1))),
            term,
            number(0),
        ])
    };
    assert_eq!(then(exclusive, copy((0, 0))), refused(34, 6));
    assert_eq!(then(exclusive, copy((0, 1))), refused(34, 6));
    assert_eq!(then(exclusive, shared((0, 0))), refused(34, 6));
    assert_eq!(then(shared, mov((0, 0))), refused(35, 6));
    assert_eq!(
        then(shared, assign((0, 0), boxed(number(2)))),
        refused(35, 6)
    );
    assert_eq!(then(shared, assign((0, 1), number(2))), refused(35, 6));
    assert_eq!(then(shared, exclusive((0, 0))), refused(35, 6));
}

#[test]
fn a_borrow_through_a_borrow_bars_the_latter() {
    // v2 borrows *v1, so v1 is barred by v2, and v0 still by v1.
    let then = |term| with(exclusive, &[let_(2, exclusive((1, 1))), term]);
    assert_eq!(then(copy((2, 1))), Ok(()));
    assert_eq!(then(assign((2, 1), number(3))), Ok(()));
    assert_eq!(then(copy((1, 1))), refused(34, 7));
    assert_eq!(then(copy((0, 0))), refused(34, 7));
    assert_eq!(then(assign((1, 1), number(3))), refused(35, 7));
    assert_eq!(then(mov((1, 0))), refused(35, 7));
    // Through a shared borrow of v1 its exclusive one can be read.
    let read = [let_(2, shared((1, 0))), copy((2, 2))];
    assert_eq!(with(exclusive, &read), Ok(()));
}

#[test]
fn a_borrow_inside_a_box_is_held() {
    let then = |terms: &[Term]| {
        let first = [let_(0, number(1)), let_(1, boxed(exclusive((0, 0))))];
        accepts_in_use(&[&first[..], terms, &[number(0)]].concat())
    };
    assert_eq!(then(&[copy((0, 0))]), refused(34, 6));
    assert_eq!(then(&[mov((1, 1)), copy((0, 0))]), Ok(()));
    assert_eq!(then(&[mov((1, 0)), copy((0, 0))]), Ok(()));
}

#[test]
fn what_holds_nothing() {
    // A value that no variable takes.
    let dropped = [let_(0, number(1)), exclusive((0, 0)), copy((0, 0))];
    assert_eq!(checks(&dropped), Ok(5));
    // A variable that left scope, or whose borrow is moved away.
    let gone = block(&[let_(2, exclusive((0, 0))), number(0)]);
    let left = [let_(0, number(1)), gone, copy((0, 0))];
    assert_eq!(checks(&left), Ok(8));
    assert_eq!(with(exclusive, &[mov((1, 0)), copy((0, 0))]), Ok(()));
    let moved = [mov((1, 0)), assign((0, 0), number(2))];
    assert_eq!(with(shared, &moved), Ok(()));
    // The new variable of a moved borrow holds it.
    let passed_on = [let_(2, mov((1, 0))), copy((0, 0))];
    assert_eq!(with(exclusive, &passed_on), refused(34, 7));
}

#[test]
fn a_let_holds_only_once_it_is_done() {
    // The right side of v1 borrows v0 and then reads it.
    let right = block(&[exclusive((0, 0)), copy((0, 0))]);
    let terms = [let_(0, number(1)), let_(1, right), copy((1, 0))];
    assert_eq!(checks(&terms), Ok(8));
}

#[test]
fn nothing_is_written_behind_a_shared_borrow() {
    assert_eq!(with(shared, &[exclusive((1, 1))]), refused(36, 5));
    assert_eq!(with(shared, &[assign((1, 1), number(2))]), refused(36, 5));
    // Before other link kinds, and before what is held.
    let other = [assign((1, 1), boxed(number(2)))];
    assert_eq!(with(shared, &other), refused(36, 5));
    let held = [let_(2, shared((1, 0))), exclusive((1, 1))];
    assert_eq!(with(shared, &held), refused(36, 7));
    // After what is moved away.
    let moved = [mov((1, 0)), exclusive((1, 1))];
    assert_eq!(with(shared, &moved), refused(33, 6));
    let moved = [mov((1, 0)), assign((1, 1), number(2))];
    assert_eq!(with(shared, &moved), refused(33, 6));
}

#[test]
fn one_shared_link_on_the_path_is_enough() {
    // v2 is an exclusive borrow of the shared borrow v1.
    let then = |term| with(shared, &[let_(2, exclusive((1, 0))), term]);
    assert_eq!(then(exclusive((2, 2))), refused(36, 7));
    assert_eq!(then(assign((2, 2), number(3))), refused(36, 7));
    assert_eq!(then(assign((2, 1), shared((0, 0)))), Ok(()));
    // v2 is a shared borrow of the exclusive borrow v1.
    let then = |term| with(exclusive, &[let_(2, shared((1, 0))), term]);
    assert_eq!(then(exclusive((2, 2))), refused(36, 7));
    assert_eq!(then(assign((2, 2), number(3))), refused(36, 7));
}

#[test]
fn boxes_and_exclusive_borrows_can_be_passed() {
    let terms = [
        let_(0, boxed(number(1))),
        let_(1, exclusive((0, 0))),
        let_(2, exclusive((1, 2))),
        assign((2, 1), number(5)),
        copy((2, 1)),
    ];
    assert_eq!(checks(&terms), Ok(11));
    assert_eq!(runs(&terms), crate::common::ran(5, 1));
}
