//! Scripts E1 to E11.

use super::terms::*;

pub fn e1() -> Vec<Term> {
    vec![
        let_(0, reading(0)),
        let_(1, reading(1)),
        let_(2, shared((0, 0))),
        below((2, 1), (1, 0)),
    ]
}

pub fn e2() -> Vec<Term> {
    vec![let_(0, number(5)), let_(1, exclusive((0, 0))), copy((0, 0))]
}

/// E2 with its borrow used again after the copy of v0.
pub fn e2_used_again() -> Vec<Term> {
    [e2(), vec![copy((1, 1))]].concat()
}

/// Also E8, where it runs unchecked.
pub fn e3() -> Vec<Term> {
    vec![
        let_(0, boxed(number(7))),
        let_(1, mov((0, 0))),
        copy((0, 1)),
    ]
}

pub fn e4() -> Vec<Term> {
    vec![
        let_(0, boxed(number(7))),
        let_(1, mov((0, 1))),
        assign((0, 1), number(8)),
        copy((0, 1)),
    ]
}

pub fn e5() -> Vec<Term> {
    vec![
        let_(0, number(1)),
        let_(1, block(&[let_(2, number(3)), shared((2, 0))])),
        copy((0, 0)),
    ]
}

pub fn e6() -> Vec<Term> {
    vec![
        let_(0, number(1)),
        let_(1, number(2)),
        let_(2, shared((0, 0))),
        assign((2, 0), shared((1, 0))),
        assign((0, 0), number(9)),
        copy((2, 1)),
    ]
}

pub fn e7() -> Vec<Term> {
    vec![
        let_(0, number(1)),
        let_(1, shared((0, 0))),
        let_(2, shared((1, 0))),
        assign((2, 2), number(4)),
        number(0),
    ]
}

pub fn e9() -> Vec<Term> {
    vec![let_(0, boxed(number(1))), let_(1, copy((0, 0))), number(0)]
}

/// With nine boxes, or with another number of them.
pub fn e10(count: usize) -> Vec<Term> {
    vec![let_(0, boxes(count, number(1))), number(0)]
}

pub fn e11() -> Vec<Term> {
    vec![
        let_(0, number(1)),
        let_(1, number(2)),
        let_(2, shared((0, 0))),
        assign((2, 0), block(&[let_(3, shared((1, 0))), shared((3, 1))])),
        copy((2, 1)),
    ]
}
