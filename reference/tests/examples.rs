//! Scripts E1 to E11 (LANGUAGE 8.4), each under more than one set.

mod common;

use common::*;
use reference::{check, run, Limits};

/// That of the program, the largest, and one that the scripts just fit in.
const SETS: [Limits; 3] = [
    LIMITS,
    Limits::LARGEST,
    Limits {
        terms: 13,
        variables: 4,
        boxes: 9,
        levels: 12,
    },
];

/// Accepted with so many terms; both runs give the answer and the cells and
/// leave the store tidy.
fn accepted(terms: &[Term], count: u32, answer: i32, cells: u32) {
    for limits in SETS {
        assert_eq!(
            check(limits, &rows_under(limits, &script(terms))),
            Ok(count)
        );
        for run in RUNS {
            let (result, store) = run_over_junk(run, limits, terms);
            assert_eq!(result, ran(answer, cells));
            assert_eq!(store, tidy_under(limits, cells));
        }
    }
}

/// Refused by the check, and so by the run, which leaves the store.
fn refused_by_both(terms: &[Term], number: u32, term: u32) {
    for limits in SETS {
        let rows = rows_under(limits, &script(terms));
        assert_eq!(check(limits, &rows), refused(number, term));
        let (result, store) = run_over_junk(run, limits, terms);
        assert_eq!(result, refused(number, term));
        assert_eq!(store, junk(limits));
    }
}

fn e3() -> [Term; 3] {
    [
        let_(0, boxed(number(7))),
        let_(1, mov((0, 0))),
        copy((0, 1)),
    ]
}

#[test]
fn e1() {
    let terms = [
        let_(0, reading(0)),
        let_(1, reading(1)),
        let_(2, shared((0, 0))),
        below((2, 1), (1, 0)),
    ];
    let bytes = [
        0x52, 0x43, 0x53, 0x00, 0x01, 0x0B, 0x04, 0x08, 0x00, 0x02, 0x00, 0x08, 0x01, 0x02, 0x01,
        0x08, 0x02, 0x05, 0x00, 0x00, 0x0A, 0x02, 0x01, 0x01, 0x00,
    ];
    assert_eq!(script(&terms), bytes);
    accepted(&terms, 8, 1, 0);
}

#[test]
fn e2() {
    let terms = [let_(0, number(5)), let_(1, exclusive((0, 0))), copy((0, 0))];
    accepted(&terms, 6, 5, 0);
    // The borrow is used again after the copy of v0.
    refused_by_both(&[&terms[..], &[copy((1, 1))]].concat(), 34, 5);
}

#[test]
fn e3_and_e8() {
    refused_by_both(&e3(), 33, 6);
    let (result, store) = unchecked(&e3());
    assert_eq!(result, refused(60, 6));
    assert_eq!(variable_row(&store, 0), [1, 0, 0]);
    assert_eq!(variable_row(&store, 1), [1, 2, 0]);
    assert_eq!(cell_row(&store, 0), [1, 1, 7]);
    assert!(store[6..192].iter().all(|field| *field == 0));
    assert!(store[195..].iter().all(|field| *field == 0));
}

#[test]
fn e4() {
    let terms = [
        let_(0, boxed(number(7))),
        let_(1, mov((0, 1))),
        assign((0, 1), number(8)),
        copy((0, 1)),
    ];
    accepted(&terms, 9, 8, 1);
}

#[test]
fn e5() {
    let terms = [
        let_(0, number(1)),
        let_(1, block(&[let_(2, number(3)), shared((2, 0))])),
        copy((0, 0)),
    ];
    refused_by_both(&terms, 40, 4);
}

#[test]
fn e6() {
    let terms = [
        let_(0, number(1)),
        let_(1, number(2)),
        let_(2, shared((0, 0))),
        assign((2, 0), shared((1, 0))),
        assign((0, 0), number(9)),
        copy((2, 1)),
    ];
    accepted(&terms, 12, 2, 0);
}

#[test]
fn e7() {
    let terms = [
        let_(0, number(1)),
        let_(1, shared((0, 0))),
        let_(2, shared((1, 0))),
        assign((2, 2), number(4)),
        number(0),
    ];
    refused_by_both(&terms, 36, 7);
}

#[test]
fn e9() {
    let terms = [let_(0, boxed(number(1))), let_(1, copy((0, 0))), number(0)];
    refused_by_both(&terms, 37, 5);
    let (result, store) = unchecked(&terms);
    assert_eq!(result, refused(63, 0));
    assert_eq!(store, tidy(1));
}

#[test]
fn e10() {
    let terms = |count| [let_(0, boxes(count, number(1))), number(0)];
    refused_by_both(&terms(9), 42, 2);
    accepted(&terms(8), 12, 0, 8);
}

#[test]
fn e11() {
    let terms = [
        let_(0, number(1)),
        let_(1, number(2)),
        let_(2, shared((0, 0))),
        assign((2, 0), block(&[let_(3, shared((1, 0))), shared((3, 1))])),
        copy((2, 1)),
    ];
    accepted(&terms, 13, 2, 0);
}
