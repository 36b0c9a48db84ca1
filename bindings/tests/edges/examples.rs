//! Scripts E1 to E11 (LANGUAGE 8.4), checked and run, and E8 and E9 run
//! unchecked.

use crate::common::examples::*;
use crate::common::store::{cell, store_of};
use crate::common::terms::*;
use crate::common::{fault, ran, refused};
use crate::hand::*;

/// Accepted with so many terms; the run gives the answer and the cells and
/// leaves the store tidy.
#[track_caller]
fn accepted(terms: &[Term], count: u32, answer: i32, cells: u32) {
    assert_eq!(checks(terms), Ok(count));
    assert_eq!(runs(terms), ran(answer, cells));
}

/// Refused by the check and by a run, which leaves the store as it was.
#[track_caller]
fn refuses(terms: &[Term], number: u32, term: u32) {
    assert_eq!(checks(terms), refused(number, term));
    assert_eq!(runs(terms), refused(number, term));
}

#[test]
fn e1_is_accepted() {
    let bytes = [
        0x52, 0x43, 0x53, 0x00, 0x01, 0x0B, 0x04, 0x08, 0x00, 0x02, 0x00, 0x08, 0x01, 0x02, 0x01,
        0x08, 0x02, 0x05, 0x00, 0x00, 0x0A, 0x02, 0x01, 0x01, 0x00,
    ];
    assert_eq!(script_of(&e1()), bytes);
    assert_eq!(READINGS[..2], [185, 200]);
    accepted(&e1(), 8, 1, 0);
}

#[test]
fn e2_reads_what_was_held_exclusively() {
    accepted(&e2(), 6, 5, 0);
    refuses(&e2_used_again(), 34, 5);
}

#[test]
fn e3_follows_what_is_moved_away() {
    refuses(&e3(), 33, 6);
}

#[test]
fn e4_fills_a_box_again() {
    accepted(&e4(), 9, 8, 1);
}

#[test]
fn e5_borrows_out_of_a_block() {
    refuses(&e5(), 40, 4);
}

#[test]
fn e6_overwrites_a_borrow() {
    accepted(&e6(), 12, 2, 0);
}

#[test]
fn e7_writes_behind_shared_borrows() {
    refuses(&e7(), 36, 7);
}

#[test]
fn e8_is_e3_run_unchecked() {
    let left = [(0, [1, 0, 0]), (1, [1, 2, 0]), (cell(0), [1, 1, 7])];
    assert_eq!(runs_unchecked(&e3()), (fault(60, 6), store_of(&left)));
}

#[test]
fn e9_copies_a_box() {
    refuses(&e9(), 37, 5);
    // v1 is closed first and gives the cell back; v0, whose row is 0 by then,
    // gives it back again.
    let left = [(cell(0), [2, 0, 0])];
    assert_eq!(runs_unchecked(&e9()), (fault(63, 0), store_of(&left)));
}

#[test]
fn e10_has_a_link_too_many() {
    refuses(&e10(9), 42, 2);
    accepted(&e10(8), 12, 0, 8);
}

#[test]
fn e11_borrows_through_an_inner_borrow() {
    accepted(&e11(), 13, 2, 0);
}
