//! Stores under other sets than the language's own (LANGUAGE 4.1, 4.3): the row
//! of cell c is the number of variables plus c, and references name rows.

use crate::common::examples::{e3, e9};
use crate::common::sets::{fitting, set, SMALL, UNEVEN};
use crate::common::store::{cell_under, is_tidy, store_under, StoreRow};
use crate::common::terms::*;
use crate::common::{fault, ran, UncheckedAnswer};
use crate::hand::{checks_under, runs_unchecked_under};
use roomscript::Limits;

/// A run leaves this answer and only these rows other than 0, whose numbers
/// may depend on the set.
#[track_caller]
fn leaves(terms: &[Term], answer: UncheckedAnswer, left: fn(Limits) -> Vec<(usize, StoreRow)>) {
    let tall = set(40, 100, 128, 9);
    let wide = set(40, 128, 3, 9);
    for limits in [fitting(terms), SMALL, UNEVEN, tall, wide, Limits::LARGEST] {
        let store = store_under(limits, &left(limits));
        assert_eq!(
            runs_unchecked_under(limits, terms),
            (answer, store),
            "{limits:?}"
        );
    }
}

fn cell(limits: Limits, number: usize) -> usize {
    cell_under(limits, number)
}

#[test]
fn cells_come_after_the_variables() {
    assert_eq!(cell(SMALL, 2), 7);
    assert_eq!(cell(UNEVEN, 0), 70);
    assert_eq!(cell(Limits::LARGEST, 127), 255);
    leaves(&e3(), fault(60, 6), |limits| {
        vec![(0, [1, 0, 0]), (1, [1, 2, 0]), (cell(limits, 0), [1, 1, 7])]
    });
    leaves(&e9(), fault(63, 0), |limits| {
        vec![(cell(limits, 0), [2, 0, 0])]
    });
}

#[test]
fn owners_name_cells() {
    let terms = [let_(4, boxes(2, number(5))), copy((0, 0))];
    leaves(&terms, fault(60, 5), |limits| {
        vec![
            (4, [1, 2, 1]),
            (cell(limits, 0), [1, 1, 5]),
            (cell(limits, 1), [1, 2, 0]),
        ]
    });
}

#[test]
fn references_name_rows() {
    let terms = [
        let_(0, boxes(2, number(1))),
        let_(1, shared((0, 2))),
        let_(2, exclusive((0, 1))),
        let_(3, shared((1, 0))),
        copy((4, 0)),
    ];
    leaves(&terms, fault(60, 11), |limits| {
        vec![
            (0, [1, 2, 1]),
            (1, [1, 3, cell(limits, 0) as u32]),
            (2, [1, 3, cell(limits, 1) as u32]),
            (3, [1, 3, 1]),
            (cell(limits, 0), [1, 1, 1]),
            (cell(limits, 1), [1, 2, 0]),
        ]
    });
    // Through a reference to a cell.
    let terms = [
        let_(0, boxed(number(1))),
        let_(1, exclusive((0, 1))),
        assign((1, 1), number(-9)),
        copy((0, 1)),
    ];
    leaves(&terms, ran(-9, 1), |limits| {
        vec![(cell(limits, 0), [2, 0, 0])]
    });
}

/// A reference to the last variable and one to the first cell, whose rows are
/// next to each other.
#[test]
fn the_last_variable_and_the_first_cell() {
    for limits in [
        SMALL,
        UNEVEN,
        set(40, 64, 1, 9),
        set(40, 65, 2, 9),
        Limits::LARGEST,
    ] {
        let last = limits.variables - 1;
        let terms = [
            let_(last, number(6)),
            let_(0, boxed(number(7))),
            let_(1, shared((last, 0))),
            let_(2, shared((0, 1))),
            below((1, 1), (2, 1)),
        ];
        assert_eq!(checks_under(limits, &terms), Ok(11));
        let (answer, store) = runs_unchecked_under(limits, &terms);
        assert_eq!(answer, ran(1, 1));
        assert!(is_tidy(limits, &store, 1));
        let mut faulty = terms.to_vec();
        faulty.push(copy((1, 2)));
        let left = [
            (0, [1, 2, 0]),
            (1, [1, 3, last]),
            (2, [1, 3, last + 1]),
            (last as usize, [1, 1, 6]),
            (last as usize + 1, [1, 1, 7]),
        ];
        let due = (fault(61, 11), store_under(limits, &left));
        assert_eq!(runs_unchecked_under(limits, &faulty), due);
    }
}

/// Every variable open, every cell taken.
#[test]
fn full_stores() {
    for limits in [set(17, 5, 5, 4), set(197, 65, 65, 4), Limits::LARGEST] {
        let count = limits.variables;
        let mut terms: Vec<Term> = (0..count)
            .map(|v| let_(v, boxed(number(v as i32))))
            .collect();
        terms.push(copy((count - 1, 2)));
        let term = 3 * count + 1;
        let left: Vec<(usize, StoreRow)> = (0..count)
            .flat_map(|v| {
                let cell = cell(limits, v as usize);
                [(v as usize, [1, 2, v]), (cell, [1, 1, v])]
            })
            .collect();
        let due = (fault(61, term), store_under(limits, &left));
        assert_eq!(runs_unchecked_under(limits, &terms), due, "{limits:?}");
        // The row before the fault is fine, and all is given back.
        terms[count as usize] = copy((count - 1, 1));
        assert_eq!(checks_under(limits, &terms), Ok(3 * count + 2));
        let (answer, store) = runs_unchecked_under(limits, &terms);
        assert_eq!(answer, ran(count as i32 - 1, count));
        assert!(is_tidy(limits, &store, count), "{limits:?}");
    }
}

/// All cells in one chain, which is dropped as a whole.
#[test]
fn the_longest_chain_of_cells() {
    for limits in [SMALL, UNEVEN, set(386, 1, 128, 4), Limits::LARGEST] {
        let mut terms = vec![let_(0, boxed(number(7)))];
        // Each box more takes three terms.
        let more = limits.boxes.min((limits.terms - 2) / 3) - 1;
        terms.extend(vec![assign((0, 0), boxed(mov((0, 0)))); more as usize]);
        terms.push(number(8));
        let (answer, store) = runs_unchecked_under(limits, &terms);
        assert_eq!(answer, ran(8, more + 1), "{limits:?}");
        assert!(is_tidy(limits, &store, more + 1), "{limits:?}");
    }
}

#[test]
fn a_store_without_cells() {
    let limits = set(9, 2, 0, 3);
    let terms = [let_(1, number(4)), let_(0, shared((1, 0))), copy((0, 1))];
    assert_eq!(checks_under(limits, &terms), Ok(6));
    assert_eq!(
        runs_unchecked_under(limits, &terms),
        (ran(4, 0), vec![0; 6])
    );
    let terms = [let_(1, number(4)), let_(0, shared((1, 0))), copy((0, 2))];
    let left = vec![1, 3, 1, 1, 1, 4];
    assert_eq!(runs_unchecked_under(limits, &terms), (fault(61, 5), left));
}
