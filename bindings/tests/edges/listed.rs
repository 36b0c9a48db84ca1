//! The scripts under other sets that LANGUAGE 8.7 lists, and the example of
//! 5.8.

use crate::asked;
use crate::common::sets::set;
use crate::common::store::store_under;
use crate::common::terms::*;
use crate::common::{fault, refused};
use crate::hand::{runs_unchecked_under, READINGS};
use roomscript::{Called, Limits, Refusal, NEWEST};

/// A whole call of a script with these bytes after mark and version.
fn calls(limits: Limits, body: &[u8]) -> Result<Called, Refusal> {
    let script = [b"RCS\x00\x01", body].concat();
    let mut rows = vec![9; limits.row_numbers()];
    let mut store = vec![9; limits.store_numbers()];
    asked::call(limits, &script, &READINGS, &mut rows, &mut store)
}

/// The number of terms of an accepted script.
fn terms(called: Result<Called, Refusal>) -> Result<u32, Refusal> {
    called.map(|called| called.terms)
}

#[test]
fn called_under_other_sets() {
    let reading = [0x0B, 1, 0x02, 0];
    let boxed = [0x0B, 1, 0x07, 0x02, 0];
    let beyond = [0x0B, 2, 0x08, 0x40, 0x02, 0, 0x03, 0x40, 0];
    assert_eq!(calls(set(512, 64, 64, 33), &reading), refused(74, 0));
    assert_eq!(calls(set(1, 1, 0, 1), &reading), refused(16, 7));
    assert_eq!(calls(set(2, 1, 0, 1), &reading), refused(15, 7));
    assert_eq!(terms(calls(set(2, 1, 0, 2), &reading)), Ok(2));
    assert_eq!(calls(set(512, 64, 0, 16), &boxed), refused(17, 7));
    // A box as the second term is neither 15 nor 17.
    assert_eq!(calls(set(1, 1, 0, 1), &boxed), refused(16, 7));
    assert_eq!(calls(set(512, 64, 64, 16), &beyond), refused(14, 8));
    assert_eq!(terms(calls(set(512, 65, 64, 16), &beyond)), Ok(4));
}

#[test]
fn run_under_other_sets() {
    let terms = [
        let_(0, boxed(number(7))),
        let_(1, shared((0, 1))),
        copy((2, 0)),
    ];
    for (limits, row) in [(Limits::BASE, 64), (set(24, 5, 3, 5), 5)] {
        let left = [(0, [1, 2, 0]), (1, [1, 3, row]), (row as usize, [1, 1, 7])];
        let due = (fault(60, 6), store_under(limits, &left));
        assert_eq!(runs_unchecked_under(limits, &terms), due);
    }
}

#[test]
fn the_set_before_the_bytes() {
    let long = vec![0; 32_769];
    let answer = |limits| asked::read(limits, NEWEST, &long, &mut []);
    assert_eq!(answer(set(0, 64, 64, 16)), refused(74, 0));
    assert_eq!(answer(set(512, 64, 64, 16)), refused(1, 0));
}
