//! Runs (LANGUAGE 4): what both refuse before they begin, and unchecked ones:
//! answers, and what a block does at its end.

use crate::common::store::{cell, is_tidy, store_of};
use crate::common::terms::*;
use crate::common::{fault, ran, refused, RunAnswer};
use crate::hand::*;
use roomscript::Limits;

const BASE: Limits = Limits::BASE;
const ROWS: usize = BASE.row_numbers();
const STORE: usize = BASE.store_numbers();

/// What both runs answer under the language's own set.
#[track_caller]
fn refuses(rows: &[u32], readings: &[i32], length: usize) -> RunAnswer {
    both_refuse(BASE, rows, readings, length)
}

#[test]
fn refusals_by_the_caller() {
    let rows = rows_of(&[number(5)]);
    let ended = vec![0; ROWS];
    for length in [0, 1, 2559, 2561, 5120] {
        // The lowest number first, and all before the rows.
        let other = vec![0; length];
        assert_eq!(refuses(&other, &READINGS, STORE), refused(2, 0));
        assert_eq!(refuses(&other, &READINGS, 0), refused(2, 0));
        assert_eq!(refuses(&other, &[], STORE), refused(2, 0));
        assert_eq!(refuses(&other, &[], 0), refused(2, 0));
    }
    for length in [0, 1, 3, 383, 385, 768] {
        for rows in [&rows, &ended] {
            assert_eq!(refuses(rows, &READINGS, length), refused(3, 0));
            assert_eq!(refuses(rows, &[], length), refused(3, 0));
        }
    }
    for length in [0, 1, 7, 9, 16] {
        for rows in [&rows, &ended] {
            let readings = vec![1; length];
            assert_eq!(refuses(rows, &readings, STORE), refused(4, 0));
        }
    }
    assert_eq!(refuses(&ended, &READINGS, STORE), refused(12, 0));
}

#[test]
fn refusals_by_the_rows() {
    let with = |field: usize, value| {
        let mut rows = rows_of(&[let_(0, number(1)), copy((0, 0))]);
        rows[field] = value;
        refuses(&rows, &READINGS, STORE)
    };
    assert_eq!(with(15, 0), refused(12, 3));
    assert_eq!(with(15, 14), refused(13, 3));
    assert_eq!(with(16, 64), refused(14, 3));
    assert_eq!(with(19, 1), refused(14, 3));
    assert_eq!(with(1, 0), refused(14, 0));
    assert_eq!(with(0, 7), refused(18, 0));
    assert_eq!(with(20, 1), refused(19, 4));
    let deep = (0..15).fold(number(1), |inner, _| block(&[inner]));
    assert_eq!(gives_unchecked(&[deep.clone()[1..].to_vec()]), ran(1, 0));
    assert_eq!(
        refuses(&rows_of(&[deep]), &READINGS, STORE),
        refused(15, 16)
    );
    let many = vec![boxed(number(1)); 65];
    assert_eq!(refuses(&rows_of(&many), &READINGS, STORE), refused(17, 129));
}

#[test]
fn readings_and_numbers() {
    for (index, value) in READINGS.iter().enumerate() {
        assert_eq!(gives_unchecked(&[reading(index as u32)]), ran(*value, 0));
        assert_eq!(gives_unchecked(&[number(*value)]), ran(*value, 0));
    }
}

#[test]
fn below_is_signed() {
    let compared = |first, second| {
        gives_unchecked(&[
            let_(0, number(first)),
            let_(63, number(second)),
            below((0, 0), (63, 0)),
        ])
    };
    assert_eq!(compared(-1, 0), ran(1, 0));
    assert_eq!(compared(0, -1), ran(0, 0));
    assert_eq!(compared(3, 3), ran(0, 0));
    assert_eq!(compared(i32::MIN, i32::MAX), ran(1, 0));
    assert_eq!(compared(i32::MAX, i32::MIN), ran(0, 0));
    assert_eq!(compared(i32::MIN, i32::MIN), ran(0, 0));
}

#[test]
fn cells_are_taken_as_boxes_finish() {
    // The innermost box has cell 0, and each outer one owns the one before.
    let left = [
        (0, [1, 2, 2]),
        (cell(0), [1, 1, 5]),
        (cell(1), [1, 2, 0]),
        (cell(2), [1, 2, 1]),
    ];
    let terms = [let_(0, boxes(3, number(5))), copy((9, 0))];
    assert_eq!(runs_unchecked(&terms), (fault(60, 6), store_of(&left)));
}

#[test]
fn all_cells_can_be_taken() {
    let mut terms = vec![boxed(number(1)); 64];
    terms.push(number(6));
    let (answer, store) = runs_unchecked(&terms);
    assert_eq!(answer, ran(6, 64));
    assert!(is_tidy(BASE, &store, 64));
    // Kept by variables up to the end.
    let mut terms: Vec<Term> = (0..64).map(|v| let_(v, boxed(number(7)))).collect();
    terms.push(copy((63, 1)));
    let (answer, store) = runs_unchecked(&terms);
    assert_eq!(answer, ran(7, 64));
    assert!(is_tidy(BASE, &store, 64));
    // All in one chain, which is dropped as a whole.
    let mut terms = vec![let_(0, boxed(number(7)))];
    terms.extend(vec![assign((0, 0), boxed(mov((0, 0)))); 63]);
    terms.push(number(8));
    let (answer, store) = runs_unchecked(&terms);
    assert_eq!(answer, ran(8, 64));
    assert!(is_tidy(BASE, &store, 64));
}

#[test]
fn a_row_that_was_closed_can_be_opened_again() {
    let terms = [
        block(&[let_(0, number(1)), number(2)]),
        let_(0, number(3)),
        copy((0, 0)),
    ];
    assert_eq!(gives_unchecked(&terms), ran(3, 0));
}

#[test]
fn an_empty_row_can_be_borrowed_and_filled() {
    let terms = [
        let_(0, number(1)),
        mov((0, 0)),
        let_(1, exclusive((0, 0))),
        assign((1, 1), number(4)),
        copy((0, 0)),
    ];
    assert_eq!(gives_unchecked(&terms), ran(4, 0));
}

#[test]
fn a_variable_belongs_to_the_block_around_its_let() {
    // v1 is opened before v0, within the right side of its let.
    let terms = [let_(0, let_(1, number(4))), copy((1, 0))];
    let (answer, store) = runs_unchecked(&terms);
    assert_eq!(answer, ran(4, 0));
    assert!(is_tidy(BASE, &store, 0));
    // The inner block closes its own variables only.
    let left = [(0, [1, 1, 1])];
    let terms = [
        let_(0, number(1)),
        block(&[let_(1, number(2)), number(3)]),
        copy((1, 0)),
    ];
    assert_eq!(runs_unchecked(&terms), (fault(60, 7), store_of(&left)));
}

#[test]
fn a_block_drops_every_value_but_the_last() {
    let left = [(cell(0), [2, 0, 0]), (cell(1), [1, 1, 2])];
    let terms = [block(&[boxed(number(1)), boxed(number(2))])];
    assert_eq!(runs_unchecked(&terms), (fault(61, 0), store_of(&left)));
    // Dropped after its term: the next term finds the cell given back.
    let left = [
        (0, [1, 0, 0]),
        (1, [1, 3, cell(0) as u32]),
        (cell(0), [2, 0, 0]),
    ];
    let terms = [
        let_(0, boxed(number(1))),
        let_(1, shared((0, 1))),
        mov((0, 0)),
        copy((1, 1)),
    ];
    assert_eq!(runs_unchecked(&terms), (fault(60, 7), store_of(&left)));
}

#[test]
fn an_assign_drops_the_old_value() {
    let left = [
        (0, [1, 2, 2]),
        (cell(0), [2, 0, 0]),
        (cell(1), [2, 0, 0]),
        (cell(2), [1, 1, 3]),
    ];
    let terms = [
        let_(0, boxes(2, number(1))),
        assign((0, 0), boxed(number(3))),
        copy((9, 0)),
    ];
    assert_eq!(runs_unchecked(&terms), (fault(60, 8), store_of(&left)));
}
