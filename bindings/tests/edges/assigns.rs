//! Assigns (LANGUAGE 3.25): their order, links (39) and lives (40), and what is
//! held in the new state (35). All variables are in use here.

use crate::common::terms::*;
use crate::common::{ran, refused};
use crate::hand::*;
use crate::in_use::{accepts_in_use, checks_in_use};

/// `let v0=1; let v1=2`, the terms given, and a number.
#[track_caller]
fn with_two(terms: &[Term]) -> Result<(), roomscript::Refusal> {
    let first = [let_(0, number(1)), let_(1, number(2))];
    accepts_in_use(&[&first[..], terms, &[number(0)]].concat())
}

/// The same with `let v2=&v0` at 5.
#[track_caller]
fn with_borrow(terms: &[Term]) -> Result<(), roomscript::Refusal> {
    with_two(&[&[let_(2, shared((0, 0)))], terms].concat())
}

#[test]
fn the_right_side_goes_first() {
    let moved = [
        let_(0, boxed(number(1))),
        assign((0, 1), block(&[mov((0, 0)), number(2)])),
        number(0),
    ];
    assert_eq!(checks(&moved), refused(33, 4));
    // It can also fill again what the place passes.
    let refill = block(&[assign((0, 0), boxed(number(3))), number(4)]);
    let filled = [
        let_(0, boxed(number(1))),
        mov((0, 0)),
        assign((0, 1), refill),
        copy((0, 1)),
    ];
    assert_eq!(checks(&filled), Ok(12));
    assert_eq!(runs(&filled), ran(4, 2));
    // Its refusal comes before the place's.
    assert_eq!(with_two(&[assign((9, 0), copy((0, 1)))]), refused(32, 6));
}

#[test]
fn the_order_of_an_assign() {
    assert_eq!(
        with_two(&[assign((9, 8), boxed(number(1)))]),
        refused(31, 5)
    );
    assert_eq!(
        with_two(&[assign((0, 1), boxed(number(1)))]),
        refused(32, 5)
    );
    let moved = [mov((2, 0)), assign((2, 1), boxed(number(1)))];
    assert_eq!(with_borrow(&moved), refused(33, 8));
    let behind = [assign((2, 1), boxed(number(1)))];
    assert_eq!(with_borrow(&behind), refused(36, 7));
    // Other link kinds come before what is barred.
    assert_eq!(
        with_borrow(&[assign((0, 0), boxed(number(1)))]),
        refused(39, 7)
    );
    assert_eq!(with_borrow(&[assign((0, 0), number(1))]), refused(35, 7));
}

#[test]
fn link_kinds_must_be_equal() {
    assert_eq!(
        with_two(&[assign((0, 0), boxed(number(3)))]),
        refused(39, 5)
    );
    assert_eq!(with_two(&[assign((0, 0), shared((1, 0)))]), refused(39, 5));
    assert_eq!(with_borrow(&[assign((2, 0), number(3))]), refused(39, 7));
    assert_eq!(
        with_borrow(&[assign((2, 0), exclusive((1, 0)))]),
        refused(39, 7)
    );
    assert_eq!(
        with_borrow(&[assign((2, 0), boxed(shared((1, 0))))]),
        refused(39, 7)
    );
    assert_eq!(with_borrow(&[assign((2, 0), shared((1, 0)))]), Ok(()));
    let two = |follows, value| {
        let first = let_(0, boxes(2, number(1)));
        accepts(&[first, assign((0, follows), value), number(0)])
    };
    assert_eq!(two(0, boxed(number(2))), refused(39, 5));
    assert_eq!(two(1, boxes(2, number(2))), refused(39, 5));
    assert_eq!(two(1, boxed(number(2))), Ok(()));
}

#[test]
fn below_and_sum_are_of_numbers() {
    for of_two in [below, sum] {
        let first = [let_(0, boxed(number(1))), of_two((0, 0), (9, 0))];
        assert_eq!(checks(&first), refused(39, 4));
        let second = [let_(0, boxed(number(1))), of_two((0, 1), (0, 0))];
        assert_eq!(checks(&second), refused(39, 4));
        // What is barred comes before.
        let barred = [
            let_(0, boxed(number(1))),
            let_(1, exclusive((0, 0))),
            of_two((0, 0), (0, 0)),
        ];
        assert_eq!(checks_in_use(&barred), refused(34, 6));
    }
}

#[test]
fn a_block_keeps_its_own_variables() {
    let inside = |last: Term| {
        let inner = block(&[let_(2, number(3)), last]);
        with_two(&[inner])
    };
    assert_eq!(inside(shared((2, 0))), refused(40, 5));
    assert_eq!(inside(exclusive((2, 0))), refused(40, 5));
    assert_eq!(inside(boxed(shared((2, 0)))), refused(40, 5));
    assert_eq!(inside(shared((0, 0))), Ok(()));
    // The inner block is named, not those around it.
    let nested = [block(&[block(&[let_(2, number(3)), shared((2, 0))])])];
    assert_eq!(with_two(&nested), refused(40, 6));
    // Through a shared link it is a borrow of what that borrows, as a copy is.
    let through = |borrow: fn(Place) -> Term, last: Term| {
        with_two(&[block(&[let_(2, borrow((0, 0))), last])])
    };
    for last in [shared((2, 1)), copy((2, 0)), mov((2, 0))] {
        assert_eq!(through(shared, last), Ok(()));
    }
    // Through an exclusive link the named root counts, whatever that borrows.
    assert_eq!(through(exclusive, shared((2, 1))), refused(40, 5));
    assert_eq!(through(exclusive, exclusive((2, 1))), refused(40, 5));
    assert_eq!(through(exclusive, mov((2, 0))), Ok(()));
}

#[test]
fn a_borrow_must_not_outlive_its_root() {
    let inner = [block(&[
        let_(3, number(3)),
        assign((2, 0), shared((3, 0))),
        number(0),
    ])];
    assert_eq!(with_borrow(&inner), refused(40, 10));
    // An inner variable can borrow an outer one.
    let inwards = [block(&[
        let_(3, number(3)),
        let_(4, shared((3, 0))),
        assign((4, 0), shared((0, 0))),
        assign((3, 0), number(5)),
    ])];
    assert_eq!(with_two(&inwards), Ok(()));
    // After other link kinds, before what is barred.
    let other = [block(&[
        let_(3, boxed(number(3))),
        assign((2, 0), shared((3, 0))),
    ])];
    assert_eq!(with_borrow(&other), refused(39, 11));
    let barred = [
        let_(4, shared((2, 0))),
        block(&[let_(3, number(3)), assign((2, 0), shared((3, 0)))]),
    ];
    assert_eq!(with_borrow(&barred), refused(40, 12));
}

#[test]
fn the_variable_finally_written_counts() {
    // *v3 is v2: v4 lives as long as v3, but not as long as v2.
    let through = |right: Term| {
        with_borrow(&[block(&[
            let_(3, exclusive((2, 0))),
            let_(4, number(3)),
            assign((3, 1), right),
            number(0),
        ])])
    };
    assert_eq!(through(shared((4, 0))), refused(40, 12));
    assert_eq!(through(shared((1, 0))), Ok(()));
}

#[test]
fn a_write_through_a_borrow_changes_what_is_held() {
    // *v3=&v1 lands in v2, which then holds v1 and no longer v0.
    let then = |terms: &[Term]| {
        let first = [let_(3, exclusive((2, 0))), assign((3, 1), shared((1, 0)))];
        with_borrow(&[&first[..], terms].concat())
    };
    assert_eq!(then(&[assign((0, 0), number(5))]), Ok(()));
    assert_eq!(then(&[assign((1, 0), number(5))]), refused(35, 11));
    assert_eq!(then(&[copy((2, 1))]), refused(34, 11));
    assert_eq!(then(&[mov((3, 0)), copy((2, 1))]), Ok(()));
}

#[test]
fn the_new_value_is_in_place_when_writing_is_judged() {
    // The old borrow is gone by then, and the new one is there.
    let again = [assign((2, 0), shared((0, 0))), assign((1, 0), number(3))];
    assert_eq!(with_borrow(&again), Ok(()));
    assert_eq!(with_borrow(&[assign((2, 0), shared((2, 1)))]), Ok(()));
    let held = [let_(3, shared((2, 0))), assign((2, 0), shared((1, 0)))];
    assert_eq!(with_borrow(&held), refused(35, 9));
    // The right side is judged while the old one is held.
    let exclusively = |right: Term| with_two(&[let_(2, exclusive((0, 0))), assign((2, 0), right)]);
    assert_eq!(exclusively(exclusive((0, 0))), refused(35, 8));
    assert_eq!(exclusively(exclusive((1, 0))), Ok(()));
    assert_eq!(exclusively(exclusive((2, 1))), refused(35, 7));
    // Through *v3 the variable v2 would come to borrow from v3, its borrower.
    let round = [
        let_(2, exclusive((0, 0))),
        let_(3, exclusive((2, 0))),
        assign((3, 1), exclusive((3, 2))),
    ];
    assert_eq!(with_two(&round), refused(35, 9));
    // A shared borrow is of what v2 borrows already.
    let again = [let_(3, exclusive((2, 0))), assign((3, 1), shared((3, 2)))];
    assert_eq!(with_borrow(&again), Ok(()));
}
