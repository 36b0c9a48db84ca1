//! The run rules (LANGUAGE 4) by unchecked runs (6.7), with the store as each
//! fault leaves it (4.21).

mod common;

use common::*;
use reference::run_unchecked;

#[test]
fn refusals_before_the_run_leave_the_store() {
    let rows = rows_of(&script(&[number(5)]));
    let mut store = vec![9; STORE_LEN];
    assert_eq!(
        run_unchecked(LIMITS, &rows[1..], &READINGS, &mut store),
        refused(2, 0)
    );
    assert_eq!(
        run_unchecked(LIMITS, &rows[1..], &[], &mut []),
        refused(2, 0)
    );
    assert_eq!(
        run_unchecked(LIMITS, &rows, &READINGS, &mut store[1..]),
        refused(3, 0)
    );
    assert_eq!(run_unchecked(LIMITS, &rows, &[], &mut []), refused(3, 0));
    assert_eq!(
        run_unchecked(LIMITS, &rows, &READINGS[1..], &mut store),
        refused(4, 0)
    );
    assert_eq!(
        run_unchecked(LIMITS, &rows, &[1; 9], &mut store),
        refused(4, 0)
    );
    assert_eq!(
        run_unchecked(LIMITS, &[0; ROWS_LEN], &[], &mut store),
        refused(4, 0)
    );
    assert_eq!(
        run_unchecked(LIMITS, &[0; ROWS_LEN], &READINGS, &mut store),
        refused(12, 0)
    );
    let mut left = rows.clone();
    left[10] = 1;
    assert_eq!(
        run_unchecked(LIMITS, &left, &READINGS, &mut store),
        refused(19, 2)
    );
    assert_eq!(store, vec![9; STORE_LEN]);
    assert_eq!(
        run_unchecked(LIMITS, &rows, &READINGS, &mut store),
        ran(5, 0)
    );
    assert_eq!(store, tidy(0));
}

#[test]
fn readings_and_numbers_are_signed() {
    for (index, value) in READINGS.iter().enumerate() {
        assert_eq!(fault(&[reading(index as u8)]), ran(*value, 0));
    }
    let compare = |first, second| {
        fault(&[
            let_(0, number(first)),
            let_(63, number(second)),
            below((0, 0), (63, 0)),
        ])
    };
    assert_eq!(compare(-1, 0), ran(1, 0));
    assert_eq!(compare(0, -1), ran(0, 0));
    assert_eq!(compare(i32::MIN, i32::MAX), ran(1, 0));
    assert_eq!(compare(3, 3), ran(0, 0));
}

#[test]
fn locating() {
    assert_eq!(fault(&[copy((0, 0))]), refused(60, 1));
    assert_eq!(fault(&[shared((0, 0))]), refused(60, 1));
    assert_eq!(fault(&[assign((0, 0), number(1))]), refused(60, 1));
    // A follow of a number is of the wrong kind, one of nothing is empty.
    assert_eq!(fault(&[let_(0, number(1)), copy((0, 1))]), refused(61, 3));
    let empty = [let_(0, number(1)), mov((0, 0)), copy((0, 1))];
    assert_eq!(fault(&empty), refused(60, 4));
    let empty = [let_(0, number(1)), mov((0, 0)), mov((0, 0))];
    assert_eq!(fault(&empty), refused(60, 4));
    // A borrow of an empty open row is possible.
    let borrowed = [let_(0, number(1)), mov((0, 0)), shared((0, 0)), number(3)];
    assert_eq!(fault(&borrowed), ran(3, 0));
    // A cell that was given back, reached through a reference.
    let given_back = [
        let_(0, boxed(number(1))),
        let_(1, shared((0, 1))),
        mov((0, 0)),
        copy((1, 1)),
    ];
    assert_eq!(fault(&given_back), refused(60, 7));
    // A variable that was closed, reached through a reference.
    let closed = [
        let_(1, block(&[let_(2, number(3)), shared((2, 0))])),
        copy((1, 1)),
    ];
    assert_eq!(fault(&closed), refused(60, 6));
}

#[test]
fn below_reads_its_first_place_first() {
    assert_eq!(
        fault(&[let_(0, number(1)), below((0, 0), (1, 0))]),
        refused(60, 3)
    );
    let boxed_first = [let_(0, boxed(number(1))), below((0, 0), (1, 0))];
    assert_eq!(fault(&boxed_first), refused(61, 4));
    let boxed_second = [let_(0, boxed(number(1))), below((0, 1), (0, 0))];
    assert_eq!(fault(&boxed_second), refused(61, 4));
    let empty = [let_(0, number(1)), mov((0, 0)), below((0, 0), (0, 0))];
    assert_eq!(fault(&empty), refused(60, 4));
}

#[test]
fn a_let_on_an_open_row() {
    let (answer, store) = unchecked(&[let_(0, number(1)), let_(0, boxed(number(2)))]);
    assert_eq!(answer, refused(62, 3));
    assert_eq!(variable_row(&store, 0), [1, 1, 1]);
    assert_eq!(cell_row(&store, 0), [1, 1, 2]);
    // The inner let opens the row first.
    assert_eq!(fault(&[let_(0, let_(0, number(1)))]), refused(62, 1));
    // A row that was closed may be opened again.
    let again = [
        block(&[let_(0, number(1)), number(2)]),
        let_(0, number(3)),
        copy((0, 0)),
    ];
    assert_eq!(fault(&again), ran(3, 0));
    // An empty row is open all the same.
    let empty = [let_(0, number(1)), mov((0, 0)), let_(0, number(2))];
    assert_eq!(fault(&empty), refused(62, 4));
}

#[test]
fn storing_no_value_stores_empty() {
    let (answer, store) = unchecked(&[let_(0, let_(1, number(1))), copy((0, 0))]);
    assert_eq!(answer, refused(60, 4));
    assert_eq!(variable_row(&store, 0), [1, 0, 0]);
    let (answer, store) = unchecked(&[let_(0, boxed(let_(1, number(1)))), copy((0, 1))]);
    assert_eq!(answer, refused(60, 5));
    assert_eq!(cell_row(&store, 0), [1, 0, 0]);
    let assigned = [
        let_(0, number(1)),
        assign((0, 0), let_(1, number(2))),
        copy((0, 0)),
    ];
    assert_eq!(fault(&assigned), refused(60, 6));
}

#[test]
fn the_answer_is_judged_after_closing() {
    let (answer, store) = unchecked(&[let_(0, boxed(number(1))), mov((0, 0))]);
    assert_eq!(answer, refused(61, 0));
    assert_eq!(variable_row(&store, 0), [0, 0, 0]);
    // Nothing drops the answer.
    assert_eq!(cell_row(&store, 0), [1, 1, 1]);
    assert_eq!(fault(&[let_(0, number(1))]), refused(61, 0));
    assert_eq!(fault(&[let_(0, number(1)), shared((0, 0))]), refused(61, 0));
    // A fault while closing comes before.
    let twice = [
        let_(0, boxed(number(1))),
        let_(1, copy((0, 0))),
        copy((0, 0)),
    ];
    assert_eq!(fault(&twice), refused(63, 0));
}

#[test]
fn drops_of_a_block_name_the_block() {
    let terms = [
        let_(0, boxed(number(1))),
        block(&[copy((0, 0)), copy((0, 0)), number(2)]),
        number(3),
    ];
    let (answer, store) = unchecked(&terms);
    assert_eq!(answer, refused(63, 4));
    assert_eq!(variable_row(&store, 0), [1, 2, 0]);
    assert_eq!(cell_row(&store, 0), [2, 0, 0]);
    // The value of the inner block is dropped by the outer one.
    let outer = [
        let_(0, boxed(number(1))),
        block(&[copy((0, 0))]),
        block(&[copy((0, 0))]),
        number(3),
    ];
    assert_eq!(fault(&outer), refused(63, 0));
}

#[test]
fn dropping_goes_along_the_cells() {
    let (answer, store) = unchecked(&[boxes(3, number(1)), copy((0, 0))]);
    assert_eq!(answer, refused(60, 5));
    for cell in 0..3 {
        assert_eq!(cell_row(&store, cell), [2, 0, 0]);
    }
    // The innermost box finished first and has cell 0.
    let (answer, store) = unchecked(&[let_(0, boxes(3, number(1))), copy((9, 0))]);
    assert_eq!(answer, refused(60, 6));
    assert_eq!(cell_row(&store, 0), [1, 1, 1]);
    assert_eq!(cell_row(&store, 1), [1, 2, 0]);
    assert_eq!(cell_row(&store, 2), [1, 2, 1]);
    assert_eq!(variable_row(&store, 0), [1, 2, 2]);
}

#[test]
fn an_assign_drops_the_old_value_before_it_writes() {
    let terms = [
        let_(0, boxed(number(1))),
        assign((0, 0), boxed(number(2))),
        copy((0, 1)),
    ];
    let (answer, store) = unchecked(&terms);
    assert_eq!(answer, ran(2, 2));
    assert_eq!(store, tidy(2));
    // The row keeps the old value while it is dropped: the fault shows it.
    let twice = [
        let_(0, boxed(number(1))),
        copy((0, 0)),
        assign((0, 0), number(2)),
        number(0),
    ];
    let (answer, store) = unchecked(&twice);
    assert_eq!(answer, refused(63, 5));
    assert_eq!(variable_row(&store, 0), [1, 2, 0]);
    assert_eq!(cell_row(&store, 0), [2, 0, 0]);
}

#[test]
fn a_cell_that_owns_itself_is_given_back_twice() {
    let terms = [
        let_(0, boxed(number(1))),
        assign((0, 1), copy((0, 0))),
        assign((0, 1), number(5)),
        number(0),
    ];
    let (answer, store) = unchecked(&terms);
    assert_eq!(answer, refused(63, 6));
    assert_eq!(variable_row(&store, 0), [1, 2, 0]);
    assert_eq!(cell_row(&store, 0), [2, 0, 0]);
}

#[test]
fn variables_are_closed_last_opened_first() {
    // v1 owns cell 1, which owns cell 0, and v0 owns cell 0 as well. v0 was
    // opened later and gives cell 0 back, so that v1 is the one that faults,
    // with its row already 0 and cell 1 given back.
    let terms = [
        let_(1, boxed(boxed(number(1)))),
        let_(0, copy((1, 1))),
        let_(2, number(3)),
        number(0),
    ];
    let (answer, store) = unchecked(&terms);
    assert_eq!(answer, refused(63, 0));
    assert_eq!(store, tidy(2));
    let fault_between = [
        let_(2, boxed(number(1))),
        let_(0, copy((2, 0))),
        let_(1, copy((2, 0))),
        number(0),
    ];
    let (answer, store) = unchecked(&fault_between);
    assert_eq!(answer, refused(63, 0));
    assert_eq!(variable_row(&store, 0), [0, 0, 0]);
    assert_eq!(variable_row(&store, 1), [0, 0, 0]);
    assert_eq!(variable_row(&store, 2), [1, 2, 0]);
}

#[test]
fn a_variable_in_a_right_side_belongs_to_the_block_around() {
    let terms = [let_(0, let_(1, number(4))), copy((1, 0))];
    assert_eq!(fault(&terms), ran(4, 0));
}
