//! Faults 60 to 63 of unchecked runs (LANGUAGE 5.6), each with its term and the
//! whole store (4.21).

use crate::common::fault;
use crate::common::store::{cell, store_of, StoreRow};
use crate::common::terms::*;
use crate::hand::*;

/// A fault that leaves only these rows of the store other than 0.
#[track_caller]
fn faults(terms: &[Term], number: u32, term: u32, left: &[(usize, StoreRow)]) {
    assert_eq!(runs_unchecked(terms), (fault(number, term), store_of(left)));
}

#[test]
fn a_closed_row_60() {
    for term in [
        copy((0, 0)),
        mov((0, 0)),
        shared((0, 0)),
        exclusive((0, 8)),
        below((0, 0), (0, 0)),
        sum((0, 0), (0, 0)),
        assign((0, 0), number(1)),
    ] {
        faults(&[term, number(0)], 60, 1, &[]);
    }
    for of_two in [below, sum] {
        let second = [let_(0, number(4)), of_two((0, 0), (1, 0))];
        faults(&second, 60, 3, &[(0, [1, 1, 4])]);
    }
    // The right side of an assign has run by then.
    let assigned = [assign((0, 0), boxed(number(1)))];
    faults(&assigned, 60, 1, &[(cell(0), [1, 1, 1])]);
    // A let's row is not open while its right side runs.
    faults(&[let_(0, copy((0, 0))), number(0)], 60, 2, &[]);
}

#[test]
fn a_closed_row_behind_a_reference_60() {
    let inner = block(&[let_(2, number(3)), shared((2, 0))]);
    for term in [copy((1, 1)), shared((1, 1)), mov((1, 1)), copy((1, 2))] {
        let terms = [let_(1, inner.clone()), term];
        faults(&terms, 60, 6, &[(1, [1, 3, 2])]);
    }
}

#[test]
fn an_empty_row_60() {
    for term in [
        copy((0, 0)),
        mov((0, 0)),
        below((0, 0), (0, 0)),
        sum((0, 0), (0, 0)),
        copy((0, 1)),
        shared((0, 1)),
        assign((0, 1), number(2)),
    ] {
        let terms = [let_(0, number(1)), mov((0, 0)), term, number(0)];
        faults(&terms, 60, 4, &[(0, [1, 0, 0])]);
    }
}

#[test]
fn storing_no_value_stores_empty_60() {
    let inner = let_(1, number(9));
    let by_let = [let_(0, inner.clone()), copy((0, 0))];
    faults(&by_let, 60, 4, &[(0, [1, 0, 0]), (1, [1, 1, 9])]);
    let by_box = [let_(0, boxed(inner.clone())), copy((0, 1))];
    let left = [(0, [1, 2, 0]), (1, [1, 1, 9]), (cell(0), [1, 0, 0])];
    faults(&by_box, 60, 5, &left);
    let by_assign = [let_(0, number(1)), assign((0, 0), inner), copy((0, 0))];
    faults(&by_assign, 60, 6, &[(0, [1, 0, 0]), (1, [1, 1, 9])]);
}

#[test]
fn a_cell_given_back_60() {
    // v0 still owns the cell that the copy gave back.
    let terms = [let_(0, boxed(number(1))), copy((0, 0)), copy((0, 1))];
    let left = [(0, [1, 2, 0]), (cell(0), [2, 0, 0])];
    faults(&terms, 60, 5, &left);
    let terms = [
        let_(0, boxed(number(1))),
        copy((0, 0)),
        assign((0, 1), number(5)),
    ];
    faults(&terms, 60, 5, &left);
}

#[test]
fn a_follow_of_a_number_61() {
    for term in [
        copy((0, 1)),
        mov((0, 1)),
        shared((0, 1)),
        exclusive((0, 8)),
        below((0, 1), (0, 0)),
        below((0, 0), (0, 1)),
        sum((0, 1), (0, 0)),
        sum((0, 0), (0, 1)),
        assign((0, 1), number(2)),
    ] {
        let terms = [let_(0, number(-1)), term, number(0)];
        faults(&terms, 61, 3, &[(0, [1, 1, u32::MAX])]);
    }
}

#[test]
fn below_and_sum_of_other_kinds_61() {
    let left = [(0, [1, 2, 0]), (cell(0), [1, 1, 1])];
    for of_two in [below, sum] {
        // The first place is read, and its kind judged, before the second.
        let first = [let_(0, boxed(number(1))), of_two((0, 0), (9, 0))];
        faults(&first, 61, 4, &left);
        let second = [let_(0, boxed(number(1))), of_two((0, 1), (0, 0))];
        faults(&second, 61, 4, &left);
        let reference = [
            let_(5, number(1)),
            let_(6, shared((5, 0))),
            of_two((6, 0), (5, 0)),
        ];
        faults(&reference, 61, 5, &[(5, [1, 1, 1]), (6, [1, 3, 5])]);
    }
}

#[test]
fn an_answer_that_is_no_number_61() {
    faults(&[let_(0, number(1))], 61, 0, &[]);
    faults(&[let_(0, number(1)), shared((0, 0))], 61, 0, &[]);
    faults(&[block(&[let_(0, number(1))])], 61, 0, &[]);
    // Judged after closing, and nothing drops it.
    let owner = [let_(0, boxed(number(1))), mov((0, 0))];
    faults(&owner, 61, 0, &[(cell(0), [1, 1, 1])]);
    faults(&[boxed(number(1))], 61, 0, &[(cell(0), [1, 1, 1])]);
    let copied = [let_(0, boxed(number(1))), copy((0, 0))];
    faults(&copied, 61, 0, &[(cell(0), [2, 0, 0])]);
}

#[test]
fn a_let_on_an_open_row_62() {
    let terms = [let_(0, number(1)), let_(0, number(2)), number(0)];
    faults(&terms, 62, 3, &[(0, [1, 1, 1])]);
    // The inner term has run by then, and its value is lost.
    let terms = [let_(0, number(1)), let_(0, boxed(number(2))), number(0)];
    faults(&terms, 62, 3, &[(0, [1, 1, 1]), (cell(0), [1, 1, 2])]);
    faults(&[let_(0, let_(0, number(1)))], 62, 1, &[(0, [1, 1, 1])]);
    let empty = [let_(0, number(1)), mov((0, 0)), let_(0, number(2))];
    faults(&empty, 62, 4, &[(0, [1, 0, 0])]);
    let inner = [let_(0, number(1)), block(&[let_(0, number(2)), number(3)])];
    faults(&inner, 62, 4, &[(0, [1, 1, 1])]);
}

#[test]
fn a_block_drops_a_cell_twice_63() {
    let left = [(0, [1, 2, 0]), (cell(0), [2, 0, 0])];
    let twice = block(&[copy((0, 0)), copy((0, 0)), number(2)]);
    let terms = [let_(0, boxed(number(1))), twice, number(3)];
    faults(&terms, 63, 4, &left);
    // The value of an inner block is dropped by the one around it.
    let once = block(&[copy((0, 0))]);
    let terms = [let_(0, boxed(number(1))), once.clone(), once, number(3)];
    faults(&terms, 63, 0, &left);
}

#[test]
fn an_assign_drops_a_cell_twice_63() {
    // The row keeps the old value meanwhile.
    let terms = [
        let_(0, boxed(number(1))),
        copy((0, 0)),
        assign((0, 0), boxed(number(2))),
    ];
    let left = [(0, [1, 2, 0]), (cell(0), [2, 0, 0]), (cell(1), [1, 1, 2])];
    faults(&terms, 63, 5, &left);
    // A cell that owns itself.
    let terms = [
        let_(0, boxed(number(1))),
        assign((0, 1), copy((0, 0))),
        assign((0, 1), number(5)),
        number(0),
    ];
    faults(&terms, 63, 6, &[(0, [1, 2, 0]), (cell(0), [2, 0, 0])]);
}

#[test]
fn a_closing_drops_a_cell_twice_63() {
    // Last opened first: v1 gives the cell back, v0 is closed and faults, v2
    // stays open.
    let terms = [
        let_(2, boxed(number(1))),
        let_(0, copy((2, 0))),
        let_(1, copy((2, 0))),
        number(0),
    ];
    faults(&terms, 63, 0, &[(2, [1, 2, 0]), (cell(0), [2, 0, 0])]);
    // The cells that the same drop gave back before the fault stay so.
    let terms = [
        let_(1, boxes(3, number(1))),
        let_(0, copy((1, 2))),
        number(0),
    ];
    let left = [
        (cell(0), [2, 0, 0]),
        (cell(1), [2, 0, 0]),
        (cell(2), [2, 0, 0]),
    ];
    faults(&terms, 63, 0, &left);
    // An inner block's closing names that block.
    let inner = block(&[let_(1, copy((0, 0))), let_(2, copy((0, 0))), number(0)]);
    let terms = [let_(0, boxed(number(1))), inner, number(0)];
    faults(&terms, 63, 4, &[(0, [1, 2, 0]), (cell(0), [2, 0, 0])]);
}
