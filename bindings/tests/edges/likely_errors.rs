//! Four errors that a check is likely to be written with, and scripts that tell
//! a check with each of them from one without. Each error is also a must-fail
//! edit of the code, which its test names.

use crate::common::terms::*;
use crate::common::{fault, ran, refused};
use crate::hand::*;

/// The place of an assign judged before its right side (LANGUAGE 3.25):
/// `rules/assign_place_first`.
#[test]
fn an_assigns_place_judged_first() {
    // `let v0=box 1; *v0={move v0; 2}; 0`: before the right side the box is
    // there. With the error this is accepted, and its run meets a fault.
    let moves = block(&[mov((0, 0)), number(2)]);
    let away = [let_(0, boxed(number(1))), assign((0, 1), moves), number(0)];
    assert_eq!(checks(&away), refused(33, 4));
    assert_eq!(gives_unchecked(&away), fault(60, 4));
    // `let v0=box 1; move v0; *v0={v0=box 3; 4}; copy *v0`: before the right
    // side the box is away. With the error this is refused with 33 at 5.
    let fills = block(&[assign((0, 0), boxed(number(3))), number(4)]);
    let again = [
        let_(0, boxed(number(1))),
        mov((0, 0)),
        assign((0, 1), fills),
        copy((0, 1)),
    ];
    assert_eq!(checks(&again), Ok(12));
    assert_eq!(runs(&again), ran(4, 2));
    // `let v0=1; v9=copy *v0; 0`: with the error 31 at 3.
    let both = [let_(0, number(1)), assign((9, 0), copy((0, 1))), number(0)];
    assert_eq!(checks(&both), refused(32, 4));
}

/// A borrow kept that an assign has overwritten, so that its old place stays
/// barred (LANGUAGE 3.25): `assigns/overwritten_borrow_kept`.
#[test]
fn an_overwritten_borrow_kept() {
    let two = [let_(0, number(1)), let_(1, number(2))];
    let after = |terms: &[Term]| [&two[..], terms].concat();
    // E6: `let v2=&v0; v2=&v1; v0=9; copy *v2`. With the error 35 at 9.
    let shares = after(&[
        let_(2, shared((0, 0))),
        assign((2, 0), shared((1, 0))),
        assign((0, 0), number(9)),
        copy((2, 1)),
    ]);
    assert_eq!(checks(&shares), Ok(12));
    assert_eq!(runs(&shares), ran(2, 0));
    // `let v2=&mut v0; v2=&mut v1; let v3=copy v0; *v2=5; below v3, v1`. With
    // the error 34 at 10.
    let excludes = after(&[
        let_(2, exclusive((0, 0))),
        assign((2, 0), exclusive((1, 0))),
        let_(3, copy((0, 0))),
        assign((2, 1), number(5)),
        below((3, 0), (1, 0)),
    ]);
    assert_eq!(checks(&excludes), Ok(14));
    assert_eq!(runs(&excludes), ran(1, 0));
    // `let v2=&v0; let v3=&mut v2; *v3=&v1; v0=9; copy *v2`: the same through
    // a borrow. With the error 35 at 11.
    let through = after(&[
        let_(2, shared((0, 0))),
        let_(3, exclusive((2, 0))),
        assign((3, 1), shared((1, 0))),
        assign((0, 0), number(9)),
        copy((2, 1)),
    ]);
    assert_eq!(checks(&through), Ok(14));
    assert_eq!(runs(&through), ran(2, 0));
}

/// Lifetimes compared with the variable of the borrower, where a write through
/// an exclusive borrow lands in an outer one (LANGUAGE 3.25):
/// `rules/lifetimes_of_borrower`.
#[test]
fn lifetimes_of_the_borrower() {
    // `let v0=1; let v1=&v0; {let v2=&mut v1; let v3=2; *v2=RIGHT; 0}; copy
    // *v1`: v3 lives as long as v2, and not as long as v1.
    let script = |right: Term| {
        let inner = block(&[
            let_(2, exclusive((1, 0))),
            let_(3, number(2)),
            assign((2, 1), right),
            number(0),
        ]);
        let first = [let_(0, number(1)), let_(1, shared((0, 0)))];
        [&first[..], &[inner, copy((1, 1))]].concat()
    };
    // With the error this is accepted, and its run meets a fault.
    let inwards = script(shared((3, 0)));
    assert_eq!(checks(&inwards), refused(40, 10));
    assert_eq!(gives_unchecked(&inwards), fault(60, 13));
    let outwards = script(shared((0, 0)));
    assert_eq!(checks(&outwards), Ok(14));
    assert_eq!(runs(&outwards), ran(1, 0));
}

/// A let whose own number can be declared again inside its right side
/// (LANGUAGE 3.24): `notes/let_number_free_inside`.
#[test]
fn a_lets_number_declared_again_inside() {
    // `let v0={let v0=1; 2}; 0`. With the error each of these is accepted, or
    // refused with 41 at 1.
    let again = || block(&[let_(0, number(1)), number(2)]);
    let inside = [let_(0, again()), number(0)];
    assert_eq!(checks(&inside), refused(30, 3));
    assert_eq!(gives_unchecked(&inside), ran(0, 0));
    let at_once = [let_(0, let_(0, number(1))), number(0)];
    assert_eq!(checks(&at_once), refused(30, 2));
    // `let v0=box {let v1={let v0=1; 2}; 3}; 0`.
    let deeper = block(&[let_(1, again()), number(3)]);
    let deep = [let_(0, boxed(deeper)), number(0)];
    assert_eq!(checks(&deep), refused(30, 6));
    // `let v1=1; let v0=choice v1 {3} {let v0=1; 2}; 0`.
    let either = choice((1, 0), &[number(3)], &[let_(0, number(1)), number(2)]);
    let branch = [let_(1, number(1)), let_(0, either), number(0)];
    assert_eq!(checks(&branch), refused(30, 8));
}
