//! The borrows through shared borrows that LANGUAGE 8.10 lists, those with
//! choices from 8.9, and the example of 3.26.

use crate::common::terms::*;
use crate::common::{ran, refused};
use crate::hand::*;
use crate::listed_choices::{choose, gives, one, refuses, then, two_numbers};

/// `let v0=1` and these terms, without a reading.
fn after_one(terms: &[Term]) -> Vec<Term> {
    then(&[let_(0, one())], terms)
}

/// `let v0=1`, a block of these terms, 0.
fn in_a_block(terms: &[Term]) -> Vec<Term> {
    after_one(&[block(terms), number(0)])
}

#[test]
fn listed_blocks_that_give_a_borrow() {
    let last = block(&[
        let_(2, shared((0, 0))),
        let_(3, shared((2, 0))),
        shared((3, 2)),
    ]);
    let bound = [let_(1, shared((0, 0))), assign((1, 0), last), copy((1, 1))];
    assert_eq!(runs(&after_one(&bound)), ran(1, 0));
    let remaining = [
        let_(1, shared((0, 0))),
        let_(2, exclusive((1, 0))),
        let_(3, shared((2, 0))),
        let_(4, shared((3, 2))),
        copy((4, 1)),
    ];
    assert_eq!(runs(&in_a_block(&remaining)), ran(0, 0));
    let of_v0 = || let_(1, exclusive((0, 0)));
    let beyond = [of_v0(), let_(2, shared((1, 0))), shared((2, 2))];
    assert_eq!(runs(&in_a_block(&beyond)), refused(40, 3));
    for borrow in [shared((1, 1)), exclusive((1, 1))] {
        assert_eq!(runs(&in_a_block(&[of_v0(), borrow])), refused(40, 3));
    }
}

#[test]
fn listed_roots() {
    let of_v0 = || let_(1, shared((0, 0)));
    let held = [of_v0(), let_(2, exclusive((1, 0))), shared((1, 1))];
    let barred = then(&held, &[copy((2, 2))]);
    assert_eq!(runs(&after_one(&barred)), refused(34, 7));
    // v2 is not used again.
    assert_eq!(runs(&after_one(&then(&held, &[one()]))), ran(1, 0));
    let passed = [of_v0(), let_(2, shared((1, 1))), mov((1, 0))];
    let free = then(&passed, &[copy((2, 1))]);
    assert_eq!(runs(&after_one(&free)), ran(1, 0));
    let lent = then(&passed, &[assign((0, 0), number(5)), copy((2, 1))]);
    assert_eq!(runs(&after_one(&lent)), refused(35, 8));
    // An exclusive borrow through itself is one of itself.
    let own = [
        let_(1, exclusive((0, 0))),
        assign((1, 0), exclusive((1, 1))),
        number(0),
    ];
    assert_eq!(runs(&after_one(&own)), refused(35, 5));
    // v1 is passed behind the shared link.
    let behind = [
        let_(1, exclusive((0, 0))),
        let_(2, shared((1, 0))),
        let_(3, shared((2, 2))),
        mov((2, 0)),
        mov((1, 0)),
        copy((3, 1)),
    ];
    assert_eq!(runs(&after_one(&behind)), refused(35, 10));
    let too_long = [
        let_(0, boxes(8, one())),
        let_(1, exclusive((0, 1))),
        shared((0, 0)),
        copy((1, 8)),
    ];
    assert_eq!(runs(&too_long), refused(34, 13));
}

#[test]
fn listed_several_places() {
    let of_two = || let_(3, choose(&[shared((1, 0))], &[shared((2, 0))]));
    let through = [of_two(), let_(4, shared((3, 1))), mov((3, 0))];
    let with = |more: &[Term]| [&two_numbers()[..], &through, more].concat();
    gives(&with(&[copy((4, 1))]), [1, 2], 0);
    refuses(&with(&[assign((2, 0), number(7)), copy((4, 1))]), 35, 16);
}

#[test]
fn listed_several_variables() {
    let through = [
        let_(3, shared((1, 0))),
        let_(4, shared((2, 0))),
        let_(5, choose(&[shared((3, 0))], &[shared((4, 0))])),
        let_(6, shared((5, 2))),
        mov((5, 0)),
        mov((3, 0)),
        mov((4, 0)),
    ];
    for root in [1, 2] {
        let written = [assign((root, 0), number(7)), copy((6, 1))];
        refuses(&[&two_numbers()[..], &through, &written].concat(), 35, 22);
    }
}

/// v5 may hold v1 exclusively, which is recorded, and nobody v4, which is named.
#[test]
fn listed_recorded_root() {
    let holders = [
        let_(3, number(3)),
        let_(4, shared((2, 0))),
        let_(5, exclusive((3, 0))),
    ];
    let to_v1 = |root, borrow: fn(Place) -> Term| [assign((root, 0), borrow((1, 0))), one()];
    let named = [
        choose(&to_v1(4, shared), &to_v1(5, exclusive)),
        shared((4, 1)),
        copy((5, 1)),
    ];
    gives(&[&two_numbers()[..], &holders, &named].concat(), [3, 1], 0);
}

/// v5 may borrow v3, v9 or v8, and v9 through v3: a place that is met again
/// hides no borrowed one.
#[test]
fn listed_met_again() {
    let holders = [
        let_(6, number(3)),
        let_(7, number(4)),
        let_(3, exclusive((1, 0))),
        let_(8, exclusive((6, 0))),
        let_(9, exclusive((7, 0))),
        let_(10, number(5)),
        let_(11, exclusive((10, 0))),
        let_(5, shared((11, 0))),
    ];
    let v9 = |place| assign((9, 0), exclusive(place));
    let v5 = |root| assign((5, 0), shared((root, 0)));
    let v8 = assign((8, 0), exclusive((2, 0)));
    let second = choose(&[v9((3, 1)), v5(9), one()], &[v9((3, 1)), v8, v5(8), one()]);
    let through = [
        choose(&[v9((2, 0)), v5(3), one()], &[second]),
        let_(12, shared((5, 2))),
        v5(11),
        mov((9, 0)),
        copy((12, 1)),
    ];
    refuses(&[&two_numbers()[..], &holders, &through].concat(), 35, 50);
}

/// v3 and v4 borrow through each other, and v6 through v3.
#[test]
fn listed_circle() {
    let holders = [
        let_(5, number(3)),
        let_(3, exclusive((1, 0))),
        let_(4, exclusive((2, 0))),
        let_(6, exclusive((5, 0))),
    ];
    let through = |root, place| [assign((root, 0), exclusive(place)), one()];
    let second = choose(&through(4, (3, 1)), &through(6, (3, 1)));
    let circle = [choose(&through(3, (4, 1)), &[second]), copy((6, 1))];
    let terms = [&two_numbers()[..], &holders, &circle].concat();
    gives(&terms, [3, 1], 0);
}
