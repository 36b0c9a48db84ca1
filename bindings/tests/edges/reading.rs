//! Reading (LANGUAGE 6.2): what rows come of the bytes, and each refusal by the
//! bytes (5.9 to 5.11). What differs from one version to the other is in
//! `versions`.

use crate::asked::read;
use crate::common::guarded::Guarded;
use crate::common::{read_as, refused};
use crate::given::*;
use roomscript::{Limits, NEWEST};

const BASE: Limits = Limits::BASE;

#[test]
fn e1_gives_its_rows() {
    let mut rows = Guarded::junk(BASE.row_numbers(), 5);
    assert_eq!(read(BASE, NEWEST, &E1, rows.lent_mut()), read_as(1, 8));
    assert_eq!(rows.lent(), rows_of(&E1_ROWS));
    assert_eq!(reads(&E1), Ok(8));
}

#[test]
fn each_kind_gives_its_row() {
    let body = [
        0x0B, 12, // block
        0x01, 0x80, 0x00, 0x00, 0x00, // numbers, the high byte first
        0x01, 0x12, 0x34, 0x56, 0x78, //
        0x02, 7, // reading
        0x03, 63, 8, // copy
        0x04, 0, 0, // move
        0x05, 1, 2, // shared borrow
        0x06, 3, 4, // exclusive borrow
        0x07, 0x02, 0, // box
        0x08, 63, 0x02, 1, // let
        0x09, 62, 8, 0x02, 2, // assign
        0x0A, 63, 7, 61, 8, // below
        0x0B, 1, 0x01, 0xFF, 0xFF, 0xFF, 0xFE, // block
    ];
    let expected = [
        [0x0B, 12, 0, 0, 0],
        [0x01, 0x8000_0000, 0, 0, 0],
        [0x01, 0x1234_5678, 0, 0, 0],
        [0x02, 7, 0, 0, 0],
        [0x03, 63, 8, 0, 0],
        [0x04, 0, 0, 0, 0],
        [0x05, 1, 2, 0, 0],
        [0x06, 3, 4, 0, 0],
        [0x07, 0, 0, 0, 0],
        [0x02, 0, 0, 0, 0],
        [0x08, 63, 0, 0, 0],
        [0x02, 1, 0, 0, 0],
        [0x09, 62, 8, 0, 0],
        [0x02, 2, 0, 0, 0],
        [0x0A, 63, 7, 61, 8],
        [0x0B, 1, 0, 0, 0],
        [0x01, 0xFFFF_FFFE, 0, 0, 0],
    ];
    let mut rows = Guarded::junk(BASE.row_numbers(), 6);
    for version in [1, 2] {
        let script = script_in(version, &body);
        let answer = read(BASE, NEWEST, &script, rows.lent_mut());
        assert_eq!(answer, read_as(version, 17));
        assert_eq!(rows.lent(), rows_of(&expected));
        rows.fill_again();
    }
    assert_eq!(reads_body(&body), Ok(17));
}

#[test]
fn mark_and_version() {
    assert_eq!(reads(b"r"), refused(10, 0));
    assert_eq!(reads(b"\x00CS\x00\x01"), refused(10, 0));
    assert_eq!(reads(b"Rc"), refused(10, 1));
    assert_eq!(reads(b"RCs\x00\x03"), refused(10, 2));
    assert_eq!(reads(b"XXX"), refused(10, 0));
    assert_eq!(reads(b"RCS\x00\x00"), refused(11, 3));
    assert_eq!(reads(b"RCS\x00\x03"), refused(11, 3));
    assert_eq!(reads(b"RCS\x01\x00"), refused(11, 3));
    assert_eq!(reads(b"RCS\x01\x01\x0B\x01"), refused(11, 3));
    // The version is judged once both its bytes are there.
    assert_eq!(reads(b"RCS\x01"), refused(12, 4));
}

#[test]
fn an_ended_script_is_refused_at_its_length() {
    assert_eq!(reads(b""), refused(12, 0));
    for length in 0..E1.len() {
        assert_eq!(reads(&E1[..length]), refused(12, length as u32));
    }
    // Every operand can be the one that is missing.
    let whole = [0x0B, 3, 0x01, 1, 2, 3, 4, 0x09, 5, 6, 0x0A, 1, 2, 3, 4];
    for length in 0..whole.len() {
        let place = 5 + length as u32;
        assert_eq!(reads_body(&whole[..length]), refused(12, place));
    }
}

#[test]
fn unknown_kinds() {
    for kind in (0x0E..=0xFF).chain([0x00]) {
        // Also before 18.
        assert_eq!(reads_body(&[kind]), refused(13, 5));
        assert_eq!(reads_body(&[0x0B, 2, 0x02, 0, kind]), refused(13, 9));
        assert_eq!(reads_body(&[0x0B, 1, 0x07, kind, 0]), refused(13, 8));
    }
}

#[test]
fn operands_out_of_range() {
    assert_eq!(reads_body(&[0x0B, 0]), refused(14, 6));
    assert_eq!(reads_body(&[0x0B, 1, 0x0B, 0, 0x02, 0]), refused(14, 8));
    assert_eq!(reads_body(&[0x0B, 1, 0x02, 8]), refused(14, 8));
    assert_eq!(reads_body(&[0x0B, 1, 0x02, 255]), refused(14, 8));
    assert_eq!(reads_body(&[0x0B, 1, 0x08, 64, 0x02, 0]), refused(14, 8));
    for kind in [0x03, 0x04, 0x05, 0x06, 0x09] {
        assert_eq!(reads_body(&[0x0B, 1, kind, 64, 8]), refused(14, 8));
        assert_eq!(reads_body(&[0x0B, 1, kind, 63, 9]), refused(14, 9));
        // The first one counts, and it is judged before the next is there.
        assert_eq!(reads_body(&[0x0B, 1, kind, 255, 255]), refused(14, 8));
        assert_eq!(reads_body(&[0x0B, 1, kind, 64]), refused(14, 8));
    }
    assert_eq!(reads_body(&[0x0B, 1, 0x0A, 64, 8, 63, 8]), refused(14, 8));
    assert_eq!(reads_body(&[0x0B, 1, 0x0A, 63, 9, 63, 8]), refused(14, 9));
    assert_eq!(reads_body(&[0x0B, 1, 0x0A, 63, 8, 64, 8]), refused(14, 10));
    assert_eq!(reads_body(&[0x0B, 1, 0x0A, 63, 8, 63, 9]), refused(14, 11));
    assert_eq!(reads_body(&[0x0B, 1, 0x0A, 63, 8, 63, 8]), Ok(2));
}

#[test]
fn the_outermost_term_is_a_block() {
    for kind in 0x01..=0x0A {
        assert_eq!(reads_body(&[kind]), refused(18, 5));
        assert_eq!(reads_body(&[kind, 255, 255, 255, 255]), refused(18, 5));
    }
}

#[test]
fn bytes_left() {
    assert_eq!(reads_body(&[0x0B, 1, 0x02, 0, 0]), refused(19, 9));
    assert_eq!(reads_body(&[0x0B, 1, 0x02, 0, 0x02, 0]), refused(19, 9));
    assert_eq!(reads(&[&E1[..], &E1[..]].concat()), refused(19, 25));
}

#[test]
fn refusals_by_the_caller() {
    let long = vec![0; 32_769];
    for length in [0, 1, 2559, 2561, 5120] {
        let mut rows = Guarded::junk(length, 7);
        for newest in [0, 1, 2, 3] {
            let mut reads = |script: &[u8]| read(BASE, newest, script, rows.lent_mut());
            assert_eq!(reads(&E1), refused(2, 0));
            // The lowest number first, and both before the bytes.
            assert_eq!(reads(&long), refused(1, 0));
            assert_eq!(reads(b"X"), refused(2, 0));
            assert!(rows.junk_from(0) && rows.guards_hold());
        }
    }
    assert_eq!(read(BASE, NEWEST, &[], &mut []), refused(2, 0));
    assert_eq!(reads(&long), refused(1, 0));
}
