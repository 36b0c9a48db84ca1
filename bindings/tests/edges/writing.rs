//! Writing (LANGUAGE 6.4): the bytes that come of rows, in every version, and
//! outputs of every length.

use crate::asked::write;
use crate::common::guarded::Guarded;
use crate::common::refused;
use crate::given::*;
use roomscript::Limits;

const BASE: Limits = Limits::BASE;

/// Writes to outputs around the length of a script with these bytes after mark
/// and version, in each version that has its kinds.
#[track_caller]
fn writes_to_each_length(rows: &[u32], versions: &[u32], body: &[u8]) {
    for version in versions {
        writes_in(*version, rows, &script_in(*version, body));
    }
}

#[track_caller]
fn writes_in(version: u32, rows: &[u32], script: &[u8]) {
    let length = script.len();
    for room in (0..20).chain([
        length - 1,
        length,
        length + 1,
        length + 9,
        4096,
        32_768,
        40_000,
    ]) {
        let mut output = Guarded::junk(room, 8);
        let answer = write(BASE, version, rows, output.lent_mut());
        assert!(output.guards_hold(), "output of {room}");
        if room < length {
            assert_eq!(answer, refused(5, 0), "output of {room}");
            assert!(output.junk_from(0), "output of {room}");
        } else {
            assert_eq!(answer, Ok(length as u32), "output of {room}");
            assert_eq!(&output.lent()[..length], script, "output of {room}");
            assert!(output.junk_from(length), "output of {room}");
        }
    }
}

#[test]
fn e1_to_outputs_of_each_length() {
    writes_to_each_length(&rows_of(&E1_ROWS), &[1, 2], &E1[5..]);
}

#[test]
fn a_sum_to_outputs_of_each_length() {
    let rows = rows_of(&[block(1), [0x0D, 63, 8, 62, 7]]);
    writes_to_each_length(&rows, &[2], &[0x0B, 1, 0x0D, 63, 8, 62, 7]);
}

#[test]
fn the_longest_script_to_outputs_of_each_length() {
    let number = [0x01, 0x89AB_CDEF, 0, 0, 0];
    let mut rows = vec![block(2), block(255)];
    rows.extend([number; 255]);
    rows.push(block(254));
    rows.extend([number; 254]);
    let mut body = vec![0x0B, 2, 0x0B, 255];
    body.extend([0x01, 0x89, 0xAB, 0xCD, 0xEF].repeat(255));
    body.extend([0x0B, 254]);
    body.extend([0x01, 0x89, 0xAB, 0xCD, 0xEF].repeat(254));
    assert_eq!(body.len(), 2551);
    writes_to_each_length(&rows_of(&rows), &[1, 2], &body);
    // Sums take as many bytes.
    rows[2..257].fill([0x0D, 1, 2, 3, 4]);
    body.splice(4..4 + 5 * 255, [0x0D, 1, 2, 3, 4].repeat(255));
    writes_to_each_length(&rows_of(&rows), &[2], &body);
}

#[test]
fn each_kind_gives_its_bytes() {
    let leaves: [(Row, &[u8]); 7] = [
        ([0x01, 0x0102_03FF, 0, 0, 0], &[0x01, 1, 2, 3, 255]),
        ([0x02, 7, 0, 0, 0], &[0x02, 7]),
        ([0x03, 63, 8, 0, 0], &[0x03, 63, 8]),
        ([0x04, 1, 2, 0, 0], &[0x04, 1, 2]),
        ([0x05, 0, 0, 0, 0], &[0x05, 0, 0]),
        ([0x06, 4, 5, 0, 0], &[0x06, 4, 5]),
        ([0x0A, 6, 7, 9, 8], &[0x0A, 6, 7, 9, 8]),
    ];
    for (row, bytes) in leaves {
        for version in [1, 2] {
            let whole = script_in(version, &[&[0x0B, 1], bytes].concat());
            assert_eq!(written(version, &[block(1), row]), whole);
        }
    }
    let added = written(2, &[block(1), [0x0D, 6, 7, 9, 8]]);
    assert_eq!(added, script_in(2, &[0x0B, 1, 0x0D, 6, 7, 9, 8]));
    let branches = [block(1), READING, block(1), READING];
    let chosen = [&[block(1), [0x0C, 6, 7, 0, 0]], &branches[..]].concat();
    let body = [0x0B, 1, 0x0C, 6, 7, 0x0B, 1, 0x02, 3, 0x0B, 1, 0x02, 3];
    assert_eq!(written(2, &chosen), script_in(2, &body));
    let around: [(Row, &[u8]); 4] = [
        ([0x07, 0, 0, 0, 0], &[0x07]),
        ([0x08, 63, 0, 0, 0], &[0x08, 63]),
        ([0x09, 62, 8, 0, 0], &[0x09, 62, 8]),
        ([0x0B, 1, 0, 0, 0], &[0x0B, 1]),
    ];
    for (row, bytes) in around {
        for version in [1, 2] {
            let whole = script_in(version, &[&[0x0B, 1], bytes, &[0x02, 3]].concat());
            assert_eq!(written(version, &[block(1), row, READING]), whole);
        }
    }
}

fn written(version: u32, first: &[Row]) -> Vec<u8> {
    let mut output = vec![0xA5; 64];
    let length = write(BASE, version, &rows_of(first), &mut output).expect("rows of a script");
    output.truncate(length as usize);
    output
}

#[test]
fn rows_are_judged_before_the_output() {
    let ended = rows_of(&[]);
    let left = rows_of(&[block(1), READING, READING]);
    for version in [1, 2] {
        for room in [0, 1, 4, 64] {
            let mut output = Guarded::junk(room, 9);
            let mut writes = |rows: &[u32]| write(BASE, version, rows, output.lent_mut());
            assert_eq!(writes(&ended), refused(12, 0));
            assert_eq!(writes(&left), refused(19, 2));
            for length in [0, 2559, 2561] {
                assert_eq!(writes(&vec![0; length]), refused(2, 0));
            }
            assert!(output.junk_from(0) && output.guards_hold());
        }
        assert_eq!(write(BASE, version, &[], &mut []), refused(2, 0));
        let e1 = rows_of(&E1_ROWS);
        assert_eq!(write(BASE, version, &e1, &mut []), refused(5, 0));
    }
}
