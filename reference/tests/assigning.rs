//! The ownership rules of assigns (LANGUAGE 3.25) and of blocks with borrows
//! (3.28).

mod common;

use common::*;

/// Like v0 = 1, v1 = 2 and the given terms.
fn with_two(terms: &[Term]) -> Result<(), reference::Refusal> {
    let first = [let_(0, number(1)), let_(1, number(2))];
    judge_in_use(&[&first[..], terms, &[number(0)]].concat())
}

#[test]
fn the_right_side_goes_first() {
    // The block on the right moves the box away that the place passes.
    let moved = [
        let_(0, boxed(number(1))),
        assign((0, 1), block(&[mov((0, 0)), number(2)])),
        number(0),
    ];
    assert_eq!(judge(&moved), refused(33, 4));
    // It may also give a place what it had lost.
    let refilled = [
        let_(0, boxed(number(1))),
        mov((0, 0)),
        assign(
            (0, 1),
            block(&[assign((0, 0), boxed(number(3))), number(2)]),
        ),
        copy((0, 1)),
    ];
    assert_eq!(judge(&refilled), Ok(()));
}

#[test]
fn the_path_only_must_be_there() {
    let whole = [let_(0, boxes(2, number(1))), mov((0, 1))];
    let then = |last: &[Term]| judge(&[&whole[..], last, &[copy((0, 2))]].concat());
    assert_eq!(then(&[assign((0, 2), number(3))]), refused(33, 6));
    assert_eq!(then(&[assign((0, 1), boxed(number(3)))]), Ok(()));
    assert_eq!(then(&[assign((0, 0), boxes(2, number(3)))]), Ok(()));
    assert_eq!(then(&[]), refused(33, 6));
}

#[test]
fn order_of_an_assign() {
    assert_eq!(with_two(&[assign((9, 0), number(1))]), refused(31, 5));
    assert_eq!(with_two(&[assign((0, 1), number(1))]), refused(32, 5));
    let borrowed = |term: Term| with_two(&[let_(2, shared((0, 0))), term]);
    assert_eq!(borrowed(assign((2, 1), boxed(number(1)))), refused(36, 7));
    assert_eq!(borrowed(assign((2, 0), number(1))), refused(39, 7));
    assert_eq!(borrowed(assign((2, 0), exclusive((1, 0)))), refused(39, 7));
    assert_eq!(borrowed(assign((0, 0), number(1))), refused(35, 7));
    assert_eq!(borrowed(assign((0, 0), boxed(number(1)))), refused(39, 7));
    // Out of the inner block's scope: 40 before the barred root.
    let inner = [
        let_(2, shared((0, 0))),
        let_(3, shared((2, 0))),
        block(&[let_(4, number(3)), assign((2, 0), shared((4, 0)))]),
    ];
    assert_eq!(with_two(&inner), refused(40, 12));
    let barred = [
        let_(2, shared((0, 0))),
        let_(3, shared((2, 0))),
        assign((2, 0), shared((1, 0))),
    ];
    assert_eq!(with_two(&barred), refused(35, 9));
}

#[test]
fn an_overwritten_borrow_is_no_longer_held() {
    let terms = |last: Term| {
        with_two(&[
            let_(2, exclusive((0, 0))),
            assign((2, 0), exclusive((1, 0))),
            last,
        ])
    };
    assert_eq!(terms(copy((0, 0))), Ok(()));
    assert_eq!(terms(copy((1, 0))), refused(34, 9));
    // The right side is judged while the old borrow is held.
    let again = [
        let_(2, exclusive((0, 0))),
        assign((2, 0), exclusive((0, 0))),
    ];
    assert_eq!(with_two(&again), refused(35, 8));
    let again = [let_(2, shared((0, 0))), assign((2, 0), shared((0, 0)))];
    assert_eq!(with_two(&again), Ok(()));
}

#[test]
fn a_variable_must_not_come_to_borrow_itself() {
    let own = [
        let_(2, exclusive((0, 0))),
        assign((2, 0), exclusive((2, 1))),
    ];
    assert_eq!(with_two(&own), refused(35, 7));
    // Through an exclusive borrow: v2 would borrow from v3, which borrows it.
    let through = [
        let_(2, exclusive((0, 0))),
        let_(3, exclusive((2, 0))),
        assign((3, 1), exclusive((3, 2))),
    ];
    assert_eq!(with_two(&through), refused(35, 9));
}

/// A shared borrow through the link that it is written to is of what that link
/// borrows.
#[test]
fn a_shared_borrow_does_not_come_to_borrow_itself() {
    let of_v0 = || let_(2, shared((0, 0)));
    let bound_again = [
        vec![of_v0(), assign((2, 0), shared((2, 1)))],
        vec![
            of_v0(),
            let_(3, exclusive((2, 0))),
            assign((3, 1), shared((3, 2))),
        ],
        vec![of_v0(), assign((2, 0), copy((2, 0)))],
    ];
    for terms in bound_again {
        let with = |last: &[Term]| {
            let answer = with_two(&[&terms[..], last].concat());
            answer.map_err(|refusal| refusal.number)
        };
        assert_eq!(with(&[]), Ok(()));
        assert_eq!(with(&[assign((0, 0), number(5))]), Err(35));
        assert_eq!(with(&[assign((1, 0), number(5))]), Ok(()));
    }
}

#[test]
fn a_write_through_an_exclusive_borrow() {
    // *v3 = &v1 lands in v2: v0 is free afterwards, v1 is held.
    let terms = |last: &[Term]| {
        let first = [
            let_(2, shared((0, 0))),
            let_(3, exclusive((2, 0))),
            assign((3, 1), shared((1, 0))),
        ];
        with_two(&[&first[..], last].concat())
    };
    assert_eq!(terms(&[assign((0, 0), number(5))]), Ok(()));
    assert_eq!(terms(&[assign((1, 0), number(5))]), refused(35, 11));
    assert_eq!(terms(&[copy((3, 2))]), Ok(()));
    // v2 itself stays barred while v3 holds it.
    assert_eq!(terms(&[copy((2, 1))]), refused(34, 11));
    assert_eq!(terms(&[mov((3, 0)), copy((2, 1))]), Ok(()));
}

#[test]
fn lifetimes_count_for_the_variable_finally_written() {
    // v4 lives as long as v3, but v2, which is written, lives longer.
    let terms = |right: Term| {
        with_two(&[
            let_(2, shared((0, 0))),
            block(&[
                let_(3, exclusive((2, 0))),
                let_(4, number(3)),
                assign((3, 1), right),
                number(0),
            ]),
        ])
    };
    assert_eq!(terms(shared((4, 0))), refused(40, 12));
    assert_eq!(terms(shared((1, 0))), Ok(()));
    // An inner variable may borrow an outer one.
    let inwards = [block(&[
        let_(3, number(4)),
        let_(2, shared((3, 0))),
        assign((2, 0), shared((0, 0))),
        assign((3, 0), number(5)),
    ])];
    assert_eq!(with_two(&inwards), Ok(()));
}

#[test]
fn borrows_inside_boxes_are_held() {
    let terms = |last: &[Term]| with_two(&[&[let_(2, boxed(exclusive((0, 0))))], last].concat());
    assert_eq!(terms(&[copy((0, 0))]), refused(34, 8));
    assert_eq!(terms(&[mov((2, 1)), copy((0, 0))]), Ok(()));
    assert_eq!(terms(&[mov((2, 0)), copy((0, 0))]), Ok(()));
    let refill = [assign((2, 1), exclusive((1, 0))), copy((0, 0))];
    assert_eq!(terms(&refill), Ok(()));
    let refill = [assign((2, 1), exclusive((1, 0))), copy((1, 0))];
    assert_eq!(terms(&refill), refused(34, 10));
    assert_eq!(terms(&[assign((2, 2), number(4)), copy((2, 2))]), Ok(()));
}

#[test]
fn blocks_and_the_borrows_of_their_values() {
    let out = |inner: &[Term]| with_two(&[let_(2, block(inner)), copy((2, 1))]);
    assert_eq!(out(&[shared((0, 0))]), Ok(()));
    assert_eq!(out(&[let_(3, shared((0, 0))), copy((3, 0))]), Ok(()));
    assert_eq!(out(&[let_(3, shared((0, 0))), mov((3, 0))]), Ok(()));
    assert_eq!(out(&[let_(3, shared((0, 0))), shared((3, 1))]), Ok(()));
    assert_eq!(
        out(&[let_(3, exclusive((0, 0))), shared((3, 1))]),
        refused(40, 6)
    );
    assert_eq!(
        out(&[let_(3, number(1)), boxed(shared((3, 0)))]),
        refused(40, 6)
    );
    // A refusal of an inner block names the inner block.
    let nested = [block(&[let_(3, number(1)), shared((3, 0))])];
    assert_eq!(out(&nested), refused(40, 7));
    // What left scope holds nothing any more.
    let gone = [
        block(&[let_(3, exclusive((0, 0))), number(0)]),
        copy((0, 0)),
    ];
    assert_eq!(with_two(&gone), Ok(()));
    // The value of a block is held once a variable has it.
    let kept = [
        let_(2, block(&[let_(3, exclusive((0, 0))), mov((3, 0))])),
        copy((0, 0)),
    ];
    assert_eq!(with_two(&kept), refused(34, 10));
}

#[test]
fn values_that_no_variable_takes_hold_nothing() {
    assert_eq!(with_two(&[exclusive((0, 0)), copy((0, 0))]), Ok(()));
    assert_eq!(with_two(&[boxed(exclusive((0, 0))), copy((0, 0))]), Ok(()));
}
