//! The scripts with choices that LANGUAGE 8.9 lists, but for those in
//! `listed_reborrows`, and those that tell the decisions on choices apart.

use crate::choosing::{by_reading, runs_either_way};
use crate::common::terms::*;
use crate::common::{ran, refused};
use crate::hand::*;

/// Accepted after `let v0=reading 0`, with these answers for a reading that is
/// not 0 and for 0, and so many cells with either.
#[track_caller]
pub fn gives(terms: &[Term], answers: [i32; 2], cells: u32) {
    let due = answers.map(|answer| ran(answer, cells));
    assert_eq!(runs_either_way(&by_reading(terms)), due);
}

/// Refused after `let v0=reading 0`, which is terms 1 and 2.
#[track_caller]
pub fn refuses(terms: &[Term], number: u32, term: u32) {
    assert_eq!(checks(&by_reading(terms)), refused(number, term));
}

/// A choice on v0.
pub fn choose(first: &[Term], second: &[Term]) -> Term {
    choice((0, 0), first, second)
}

pub fn one() -> Term {
    number(1)
}

/// `let v1=1; let v2=2`.
pub fn two_numbers() -> [Term; 2] {
    [let_(1, number(1)), let_(2, number(2))]
}

/// `let v1=box 1; let v2=box 2`.
pub fn two_boxes() -> [Term; 2] {
    [let_(1, boxed(number(1))), let_(2, boxed(number(2)))]
}

/// The first terms, and then others.
pub fn then(first: &[Term], more: &[Term]) -> Vec<Term> {
    [first, more].concat()
}

#[test]
fn listed_choices_by_themselves() {
    gives(&[choose(&[number(7)], &[number(8)])], [7, 8], 0);
    let outside = choice((9, 0), &[copy((8, 0))], &[copy((8, 0))]);
    refuses(&[outside], 31, 3);
    let differ = choose(&[boxed(one())], &[number(2)]);
    refuses(&[differ, number(0)], 39, 3);
    let later = choose(&[boxed(one())], &[copy((9, 0))]);
    refuses(&[later, number(0)], 31, 8);
    let local = |value| [let_(1, number(value)), number(0)];
    refuses(&[choose(&local(1), &local(2))], 30, 9);
    let none = choose(&[one()], &[let_(1, one())]);
    refuses(&[none, number(0)], 39, 3);
}

#[test]
fn listed_moves() {
    let moved = [
        let_(1, boxed(one())),
        choose(&[mov((1, 0)), number(0)], &[number(0)]),
        copy((1, 1)),
    ];
    refuses(&moved, 33, 12);
    let holder = [
        let_(1, one()),
        let_(2, one()),
        let_(3, exclusive((1, 0))),
        choose(&[mov((3, 0)), one()], &[one()]),
        mov((1, 0)),
        assign((3, 0), exclusive((2, 0))),
        one(),
    ];
    gives(&holder, [1, 1], 0);
    let elsewhere = [assign((3, 0), exclusive((2, 1))), mov((1, 0)), one()];
    let beyond = [
        let_(3, exclusive((1, 1))),
        choose(&elsewhere, &[one()]),
        assign((3, 1), number(5)),
        one(),
    ];
    refuses(&then(&two_boxes(), &beyond), 33, 19);
    let elsewhere = [assign((3, 0), exclusive((2, 0))), mov((1, 0)), one()];
    let filled = [
        let_(3, exclusive((1, 0))),
        choose(&elsewhere, &[one()]),
        assign((3, 1), boxed(number(3))),
        mov((3, 0)),
        copy((1, 1)),
    ];
    refuses(&then(&two_boxes(), &filled), 33, 22);
}

#[test]
fn listed_borrows() {
    let of_two = || let_(3, choose(&[shared((1, 0))], &[shared((2, 0))]));
    let with = |more: &[Term]| [&two_numbers()[..], &[of_two()], more].concat();
    gives(&with(&[copy((3, 1))]), [1, 2], 0);
    refuses(&with(&[assign((2, 0), number(3)), copy((3, 1))]), 35, 13);
    let replaced = [
        assign((3, 0), shared((1, 0))),
        assign((2, 0), number(5)),
        copy((3, 1)),
    ];
    gives(&with(&replaced), [1, 1], 0);
    let written = [
        let_(3, choose(&[exclusive((1, 1))], &[exclusive((2, 1))])),
        assign((3, 1), number(7)),
        copy((3, 1)),
    ];
    gives(&then(&two_boxes(), &written), [7, 7], 2);
    let references = || [let_(3, shared((1, 0))), let_(4, shared((2, 0)))];
    let copied = [
        let_(5, choose(&[shared((3, 0))], &[shared((4, 0))])),
        let_(6, copy((5, 1))),
        mov((5, 0)),
        mov((3, 0)),
        mov((4, 0)),
        assign((2, 0), number(7)),
        copy((6, 1)),
    ];
    let terms = [&two_numbers()[..], &references(), &copied].concat();
    refuses(&terms, 35, 22);
}

#[test]
fn listed_lives() {
    let inner = block(&[
        let_(3, number(2)),
        let_(4, shared((1, 0))),
        let_(5, choose(&[exclusive((2, 0))], &[exclusive((4, 0))])),
        assign((5, 1), shared((3, 0))),
        number(0),
    ]);
    let terms = [let_(1, one()), let_(2, shared((1, 0))), inner, number(0)];
    refuses(&terms, 40, 18);
}
