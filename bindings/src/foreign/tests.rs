//! The safe functions do not show every field of an answer, so these tests do.

use super::*;
use crate::{NEWEST, READINGS_LEN};
use std::mem::offset_of;

const BASE: Limits = Limits::BASE;
const ROWS: usize = BASE.row_numbers();
const STORE: usize = BASE.store_numbers();
/// Outside the ranges: no levels.
const FLAT: Limits = Limits { levels: 0, ..BASE };

/// `reading 7`.
const SHORT: [u8; 9] = [0x52, 0x43, 0x53, 0x00, 0x01, 0x0B, 0x01, 0x02, 0x07];
/// `box reading 7; reading 7`.
const BOXED: [u8; 12] = [
    0x52, 0x43, 0x53, 0x00, 0x01, 0x0B, 0x02, 0x07, 0x02, 0x07, 0x02, 0x07,
];
/// `let v0=reading 7; sum v0, v0`.
const ADDED: [u8; 16] = [
    0x52, 0x43, 0x53, 0x00, 0x02, 0x0B, 0x02, 0x08, 0x00, 0x02, 0x07, 0x0D, 0x00, 0x00, 0x00, 0x00,
];
/// `copy v5`.
const NOWHERE: [u8; 10] = [0x52, 0x43, 0x53, 0x00, 0x01, 0x0B, 0x01, 0x03, 0x05, 0x00];

const READINGS: [i32; READINGS_LEN] = [0, 0, 0, 0, 0, 0, 0, -40];

fn script(version: u32, terms: u64) -> ReadAnswer {
    ReadAnswer {
        number: 0,
        place: 0,
        version,
        terms,
    }
}

fn not_read(number: u32, place: u64) -> ReadAnswer {
    ReadAnswer {
        number,
        place,
        version: 0,
        terms: 0,
    }
}

fn terms(terms: u64) -> TermsAnswer {
    TermsAnswer {
        number: 0,
        place: 0,
        terms,
    }
}

fn refused(number: u32, place: u64) -> TermsAnswer {
    TermsAnswer {
        number,
        place,
        terms: 0,
    }
}

fn bytes(bytes: u64) -> BytesAnswer {
    BytesAnswer {
        number: 0,
        place: 0,
        bytes,
    }
}

fn not_written(number: u32, place: u64) -> BytesAnswer {
    BytesAnswer {
        number,
        place,
        bytes: 0,
    }
}

fn not_run(number: u32, place: u64) -> RunAnswer {
    RunAnswer {
        number,
        place,
        answer: 0,
        cells: 0,
    }
}

fn stopped(fault: u32, number: u32, place: u64) -> UncheckedAnswer {
    UncheckedAnswer {
        number,
        place,
        fault,
        answer: 0,
        cells: 0,
    }
}

fn called(terms: u64, answer: i32, cells: u64) -> CallAnswer {
    CallAnswer {
        number: 0,
        place: 0,
        terms,
        answer,
        cells,
    }
}

fn not_called(number: u32, place: u64) -> CallAnswer {
    CallAnswer {
        number,
        place,
        terms: 0,
        answer: 0,
        cells: 0,
    }
}

fn rows_of(script: &[u8]) -> [u32; ROWS] {
    let mut rows = [9; ROWS];
    assert_eq!(read(BASE, NEWEST, script, &mut rows).number, 0);
    rows
}

/// The fields are where the header has them: `number` and `place` first, and
/// every field of 8 bytes at a multiple of 8.
#[test]
fn offsets() {
    let read = [
        offset_of!(ReadAnswer, number),
        offset_of!(ReadAnswer, place),
        offset_of!(ReadAnswer, version),
        offset_of!(ReadAnswer, terms),
    ];
    assert_eq!(read, [0, 8, 16, 24]);
    let terms = [
        offset_of!(TermsAnswer, number),
        offset_of!(TermsAnswer, place),
        offset_of!(TermsAnswer, terms),
    ];
    assert_eq!(terms, [0, 8, 16]);
    let bytes = [
        offset_of!(BytesAnswer, number),
        offset_of!(BytesAnswer, place),
        offset_of!(BytesAnswer, bytes),
    ];
    assert_eq!(bytes, [0, 8, 16]);
}

#[test]
fn offsets_of_runs() {
    let ran = [
        offset_of!(RunAnswer, number),
        offset_of!(RunAnswer, place),
        offset_of!(RunAnswer, answer),
        offset_of!(RunAnswer, cells),
    ];
    assert_eq!(ran, [0, 8, 16, 24]);
    let unchecked = [
        offset_of!(UncheckedAnswer, number),
        offset_of!(UncheckedAnswer, place),
        offset_of!(UncheckedAnswer, fault),
        offset_of!(UncheckedAnswer, answer),
        offset_of!(UncheckedAnswer, cells),
    ];
    assert_eq!(unchecked, [0, 8, 16, 20, 24]);
    let called = [
        offset_of!(CallAnswer, number),
        offset_of!(CallAnswer, place),
        offset_of!(CallAnswer, terms),
        offset_of!(CallAnswer, answer),
        offset_of!(CallAnswer, cells),
    ];
    assert_eq!(called, [0, 8, 16, 24, 32]);
}

#[test]
fn every_field_of_a_script() {
    let mut rows = [9; ROWS];
    let mut reads = |newest, bytes: &[u8]| read(BASE, newest, bytes, &mut rows);
    assert_eq!(reads(NEWEST, &SHORT), script(1, 2));
    assert_eq!(reads(1, &SHORT), script(1, 2));
    assert_eq!(reads(NEWEST, &ADDED), script(2, 4));
    assert_eq!(reads(u32::MAX, &ADDED), script(2, 4));
    assert_eq!(reads(1, &ADDED), not_read(11, 3));
    assert_eq!(reads(0, &SHORT), not_read(11, 3));
    assert_eq!(reads(NEWEST, &ADDED[..12]), not_read(12, 12));
    assert_eq!(reads(NEWEST, &[0; 32_769]), not_read(1, 0));
    assert_eq!(read(BASE, NEWEST, &ADDED, &mut []), not_read(2, 0));
}

#[test]
fn every_field_of_a_count() {
    let rows = rows_of(&SHORT);
    let mut output = [9; 16];
    assert_eq!(judge_rows(BASE, &rows), terms(2));
    assert_eq!(length(BASE, 1, &rows), bytes(9));
    assert_eq!(length(BASE, 2, &rows), bytes(9));
    assert_eq!(write(BASE, 1, &rows, &mut output), bytes(9));
    assert_eq!(output[..9], SHORT);
    assert_eq!(check(BASE, &rows), terms(2));
    let rows = rows_of(&ADDED);
    assert_eq!(length(BASE, 2, &rows), bytes(16));
    assert_eq!(write(BASE, 2, &rows, &mut output), bytes(16));
    assert_eq!(output, ADDED);
}

#[test]
fn every_field_of_a_refusal() {
    let ended = [0; ROWS];
    assert_eq!(judge_rows(BASE, &[]), refused(2, 0));
    assert_eq!(judge_rows(BASE, &ended), refused(12, 0));
    assert_eq!(length(BASE, 1, &[]), not_written(2, 0));
    assert_eq!(length(BASE, 3, &ended), not_written(11, 0));
    assert_eq!(length(BASE, 1, &ended), not_written(12, 0));
    assert_eq!(write(BASE, 1, &[], &mut []), not_written(2, 0));
    assert_eq!(write(BASE, 3, &ended, &mut []), not_written(11, 0));
    assert_eq!(write(BASE, 1, &ended, &mut []), not_written(12, 0));
    let (short, added) = (rows_of(&SHORT), rows_of(&ADDED));
    assert_eq!(length(BASE, 1, &added), not_written(13, 3));
    assert_eq!(write(BASE, 1, &added, &mut [0; 16]), not_written(13, 3));
    assert_eq!(write(BASE, 1, &short, &mut [0; 8]), not_written(5, 0));
    assert_eq!(check(BASE, &[]), refused(2, 0));
    assert_eq!(check(BASE, &ended), refused(12, 0));
    assert_eq!(check(BASE, &rows_of(&NOWHERE)), refused(31, 1));
}

#[test]
fn every_field_of_a_refused_set() {
    let (mut rows, mut store) = ([9; ROWS], [9; STORE]);
    assert_eq!(read(FLAT, NEWEST, &SHORT, &mut rows), not_read(74, 0));
    assert_eq!(judge_rows(FLAT, &rows), refused(74, 0));
    assert_eq!(length(FLAT, 1, &rows), not_written(74, 0));
    assert_eq!(write(FLAT, 1, &rows, &mut [9; 16]), not_written(74, 0));
    assert_eq!(check(FLAT, &rows), refused(74, 0));
    let ran = run(FLAT, &rows, &READINGS, &mut store);
    assert_eq!(ran, not_run(74, 0));
    let ran = run_unchecked(FLAT, &rows, &READINGS, &mut store);
    assert_eq!(ran, stopped(0, 74, 0));
    let called = call(FLAT, &SHORT, &READINGS, &mut rows, &mut store);
    assert_eq!(called, not_called(74, 0));
    assert_eq!((rows, store), ([9; ROWS], [9; STORE]));
}

/// Each number of a set arrives where it is looked at.
#[test]
fn every_field_of_a_set() {
    let limits = |terms, variables, boxes, levels| Limits {
        terms,
        variables,
        boxes,
        levels,
    };
    let reads = |limits: Limits, script: &[u8]| {
        let mut rows = vec![9; limits.row_numbers()];
        read(limits, NEWEST, script, &mut rows)
    };
    assert_eq!(reads(limits(4, 1, 1, 3), &BOXED), script(1, 4));
    assert_eq!(reads(limits(3, 1, 1, 3), &BOXED), not_read(16, 10));
    assert_eq!(reads(limits(4, 1, 0, 3), &BOXED), not_read(17, 7));
    assert_eq!(reads(limits(4, 1, 1, 2), &BOXED), not_read(15, 8));
    assert_eq!(reads(limits(2, 6, 0, 2), &NOWHERE), script(1, 2));
    assert_eq!(reads(limits(2, 5, 0, 2), &NOWHERE), not_read(14, 8));
}

/// Rows of the script with a box, and the same with a field that is not 0 after
/// them, which is 19 at 4.
fn boxed_and_left_over() -> ([u32; ROWS], [u32; ROWS]) {
    let boxed = rows_of(&BOXED);
    let mut left = boxed;
    left[5 * 4 + 4] = 1;
    (boxed, left)
}

#[test]
fn every_field_of_a_run() {
    let mut store = [9; STORE];
    let (boxed, left) = boxed_and_left_over();
    let mut runs = |rows: &[u32], readings: &[i32]| run(BASE, rows, readings, &mut store);
    assert_eq!(runs(&rows_of(&NOWHERE), &READINGS), not_run(31, 1));
    assert_eq!(runs(&boxed[5..], &READINGS), not_run(2, 0));
    assert_eq!(runs(&boxed, &[]), not_run(4, 0));
    assert_eq!(runs(&left, &READINGS), not_run(19, 4));
    assert_eq!(run(BASE, &boxed, &READINGS, &mut []), not_run(3, 0));
    assert_eq!(store, [9; STORE]);
    let ran = RunAnswer {
        number: 0,
        place: 0,
        answer: -40,
        cells: 1,
    };
    assert_eq!(run(BASE, &boxed, &READINGS, &mut store), ran);
}

#[test]
fn every_field_of_an_unchecked_run() {
    let mut store = [9; STORE];
    let (boxed, left) = boxed_and_left_over();
    let mut runs = |rows: &[u32], readings: &[i32]| run_unchecked(BASE, rows, readings, &mut store);
    let ran = UncheckedAnswer {
        number: 0,
        place: 0,
        fault: 0,
        answer: -40,
        cells: 1,
    };
    assert_eq!(runs(&boxed, &READINGS), ran);
    assert_eq!(runs(&rows_of(&NOWHERE), &READINGS), stopped(1, 60, 1));
    assert_eq!(runs(&boxed[5..], &READINGS), stopped(0, 2, 0));
    assert_eq!(runs(&boxed, &[]), stopped(0, 4, 0));
    assert_eq!(runs(&left, &READINGS), stopped(0, 19, 4));
    let no_store = run_unchecked(BASE, &boxed, &READINGS, &mut []);
    assert_eq!(no_store, stopped(0, 3, 0));
}

#[test]
fn every_field_of_a_call() {
    let (mut rows, mut store) = ([9; ROWS], [9; STORE]);
    let mut calls = |script: &[u8]| call(BASE, script, &READINGS, &mut rows, &mut store);
    assert_eq!(calls(&BOXED), called(4, -40, 1));
    assert_eq!(calls(&ADDED), called(4, -80, 0));
    assert_eq!(calls(&[0; 32_769]), not_called(1, 0));
    assert_eq!(calls(&BOXED[..11]), not_called(12, 11));
    assert_eq!(calls(&NOWHERE), not_called(31, 1));
    let no_rows = call(BASE, &BOXED, &READINGS, &mut [], &mut store);
    assert_eq!(no_rows, not_called(2, 0));
    let no_store = call(BASE, &BOXED, &READINGS, &mut rows, &mut []);
    assert_eq!(no_store, not_called(3, 0));
    let no_readings = call(BASE, &BOXED, &[], &mut rows, &mut store);
    assert_eq!(no_readings, not_called(4, 0));
}
