//! Versions of scripts: which a reader knows, which kinds each has, and which
//! a writer writes.

mod common;

use common::*;
use reference::form::{header, HEADER, MAX_BYTES};
use reference::{judge_rows, read, write, Limits, Refusal, Script, NEWEST};

/// Reads over rows that held something before, all of which must be 0 after a
/// refusal by the bytes.
fn read_with(newest: u32, script: &[u8]) -> Result<Script, Refusal> {
    let mut rows = vec![7; ROWS_LEN];
    let answer = read(LIMITS, newest, script, &mut rows);
    if answer.is_err() {
        assert_eq!(rows, vec![0; ROWS_LEN]);
    }
    answer
}

/// A header and what follows.
fn of(version: u32, body: &[u8]) -> Vec<u8> {
    [&header(version)[..], body].concat()
}

/// A block with so many terms that follow.
fn around(count: u8, inner: &[u8]) -> Vec<u8> {
    [&[0x0B, count], inner].concat()
}

fn a_sum() -> [Term; 2] {
    [let_(0, number(1)), sum((0, 0), (0, 0))]
}

#[test]
fn the_newest_version() {
    assert_eq!(NEWEST, 2);
    assert_eq!(HEADER, [0x52, 0x43, 0x53, 0, 1]);
    assert_eq!(header(2), [0x52, 0x43, 0x53, 0, 2]);
}

#[test]
fn reading_answers_the_version() {
    for version in [1, 2] {
        let script = script_of(version, &[number(1), reading(2)]);
        assert_eq!(script[3..5], [0, version as u8]);
        let read = Script { version, terms: 3 };
        assert_eq!(read_with(NEWEST, &script), Ok(read));
    }
    let read = Script {
        version: 2,
        terms: 4,
    };
    assert_eq!(read_with(NEWEST, &script_of(2, &a_sum())), Ok(read));
}

#[test]
fn a_reader_knows_the_versions_up_to_its_newest() {
    for newest in [0, 1, 2, 3, 255, 256, 257, 0x1_0000, u32::MAX] {
        for version in (0..600).chain([0x1FF, 0x200, 0x201, 0xFF01, 0xFF02, 0xFFFF]) {
            let script = script_of(version, &[reading(2)]);
            let known = version == 1 && newest >= 1 || version == 2 && newest >= 2;
            let due = if known {
                Ok(Script { version, terms: 2 })
            } else {
                refused(11, 3)
            };
            assert_eq!(read_with(newest, &script), due, "{version} by {newest}");
        }
    }
}

#[test]
fn the_version_is_judged_where_its_bytes_are() {
    for newest in [0, 1, 2, 3, u32::MAX] {
        assert_eq!(read_with(newest, b""), refused(12, 0));
        assert_eq!(read_with(newest, b"RCX\x00\x03"), refused(10, 2));
        assert_eq!(read_with(newest, b"RCS"), refused(12, 3));
        assert_eq!(read_with(newest, b"RCS\x00"), refused(12, 4));
        assert_eq!(read_with(newest, b"RCS\x03"), refused(12, 4));
        assert_eq!(read_with(newest, b"RCS\x00\x03"), refused(11, 3));
        assert_eq!(read_with(newest, b"RCS\x01\x00"), refused(11, 3));
        // Before whatever comes after it.
        for body in [&[0x0C][..], &[0x0D], &[0x01], &[0x0B, 0], &[0; 9]] {
            assert_eq!(read_with(newest, &of(3, body)), refused(11, 3));
            assert_eq!(read_with(newest, &of(0, body)), refused(11, 3));
            assert_eq!(read_with(newest, &of(258, body)), refused(11, 3));
        }
    }
    assert_eq!(read_with(1, b"RCS\x00\x02"), refused(11, 3));
    assert_eq!(read_with(2, b"RCS\x00\x02"), refused(12, 5));
    assert_eq!(read_with(0, b"RCS\x00\x01"), refused(11, 3));
    assert_eq!(read_with(1, b"RCS\x00\x01"), refused(12, 5));
    // A reader that knows version 1 alone does not look for kinds of version 2.
    assert_eq!(read_with(1, &script_of(2, &a_sum())), refused(11, 3));
    assert_eq!(read_with(1, &script_of(1, &a_sum())), refused(13, 14));
}

#[test]
fn the_callers_own_come_before_the_version() {
    let none = Limits {
        levels: 0,
        ..LIMITS
    };
    let long = [&header(3)[..], &[0; MAX_BYTES]].concat();
    for newest in [0, 1, 2, 3] {
        let mut rows = vec![7; ROWS_LEN];
        assert_eq!(read(none, newest, &long, &mut rows), refused(74, 0));
        assert_eq!(read(LIMITS, newest, &long, &mut rows[1..]), refused(1, 0));
        assert_eq!(read(LIMITS, newest, &long, &mut rows), refused(1, 0));
        let other = script_of(3, &[number(1)]);
        assert_eq!(read(LIMITS, newest, &other, &mut rows[1..]), refused(2, 0));
        assert_eq!(rows, vec![7; ROWS_LEN]);
        assert_eq!(read(LIMITS, newest, &other, &mut rows), refused(11, 3));
        assert_eq!(rows, vec![0; ROWS_LEN]);
    }
}

/// What both versions answer.
fn by_version(body: &[u8]) -> [Result<u32, Refusal>; 2] {
    [1, 2].map(|version| read_with(NEWEST, &of(version, body)).map(|read| read.terms))
}

#[test]
fn sums_are_of_version_2() {
    let wrong = |number, place| [refused(13, place), refused(number, place)];
    // As the outermost term it is known and no block, or unknown.
    assert_eq!(by_version(&[0x0D]), wrong(18, 5));
    assert_eq!(by_version(&[0x0D, 0, 0, 0, 0]), wrong(18, 5));
    assert_eq!(by_version(&[0x0E]), [refused(13, 5); 2]);
    let inner = |bytes: &[u8]| by_version(&around(1, bytes));
    assert_eq!(inner(&[0x0D, 63, 8, 63, 8]), [refused(13, 7), Ok(2)]);
    assert_eq!(inner(&[0x0E, 63, 8, 63, 8]), [refused(13, 7); 2]);
    let v2 = |bytes: &[u8], number, place| {
        assert_eq!(inner(bytes), [refused(13, 7), refused(number, place)]);
    };
    v2(&[0x0D], 12, 8);
    v2(&[0x0D, 63, 8, 63], 12, 11);
    v2(&[0x0D, 64], 14, 8);
    v2(&[0x0D, 64, 9, 64, 9], 14, 8);
    v2(&[0x0D, 63, 9, 64, 9], 14, 9);
    v2(&[0x0D, 63, 8, 64, 9], 14, 10);
    v2(&[0x0D, 63, 8, 63, 9], 14, 11);
    v2(&[0x0D, 0, 0, 0, 0, 0x0D], 19, 12);
    // No term is inside a sum.
    let two = around(2, &[0x0D, 0, 0, 1, 0, 0x02, 0]);
    assert_eq!(by_version(&two), [refused(13, 7), Ok(3)]);
}

#[test]
fn a_kind_byte_is_judged_as_unknown_first() {
    // On level 17 a sum is unknown in version 1, too deep in version 2.
    let deep = [[0x0B, 1].repeat(16), sum((0, 0), (0, 0))].concat();
    assert_eq!(by_version(&deep), [refused(13, 37), refused(15, 37)]);
    // As term 513 it is unknown, or one too many.
    let mut many = around(2, &around(255, &[0x02, 1].repeat(255)));
    many.extend(around(255, &[0x02, 1].repeat(254)));
    let place = 5 + many.len() as u32;
    assert_eq!(by_version(&many), [refused(12, place); 2]);
    many.extend(sum((0, 0), (0, 0)));
    assert_eq!(by_version(&many), [refused(13, place), refused(16, place)]);
}

/// Rows with the given ones first and 0 after them.
fn rows(first: &[[u32; 5]]) -> Vec<u32> {
    let mut rows = first.concat();
    rows.resize(ROWS_LEN, 0);
    rows
}

/// What writing answers, with the output as it was where it refuses.
fn write_with(version: u32, rows: &[u32], room: usize) -> Result<Vec<u8>, Refusal> {
    let mut output = vec![0xA5; room];
    let answer = write(LIMITS, version, rows, &mut output);
    let kept = answer.map_or(0, |length| length as usize);
    assert!(output[kept..].iter().all(|byte| *byte == 0xA5));
    answer.map(|_| output[..kept].to_vec())
}

#[test]
fn writing_after_reading_restores_every_byte() {
    let plain = [let_(0, boxed(reading(3))), below((0, 1), (0, 1))];
    for (version, terms) in [(1, &plain), (2, &plain), (2, &a_sum())] {
        let script = script_of(version, terms);
        let mut rows = vec![7; ROWS_LEN];
        let read = read(LIMITS, NEWEST, &script, &mut rows).expect("a script");
        assert_eq!(read.version, version);
        let room = script.len() + 3;
        assert_eq!(write_with(read.version, &rows, room), Ok(script));
    }
    // The same rows in another version differ in its byte alone.
    let same = rows_of(&script_of(1, &plain));
    assert_eq!(rows_of(&script_of(2, &plain)), same);
    assert_eq!(write_with(1, &same, 99), Ok(script_of(1, &plain)));
    assert_eq!(write_with(2, &same, 99), Ok(script_of(2, &plain)));
}

/// Numbers that are no version, low parts of which would be one.
const OTHERS: [u32; 10] = [
    0,
    3,
    256,
    257,
    258,
    513,
    0x1_0001,
    0x1_0002,
    0x8000_0002,
    u32::MAX,
];

#[test]
fn the_writers_order() {
    let good = rows_of(&script(&[number(1)]));
    let none = Limits {
        variables: 129,
        ..LIMITS
    };
    for version in OTHERS {
        let mut output = [0xA5; 64];
        for lent in [&good[..], &good[1..], &[]] {
            assert_eq!(write(none, version, lent, &mut output), refused(74, 0));
        }
        for lent in [&good[1..], &[], &[7; ROWS_LEN + 1]] {
            assert_eq!(write(LIMITS, version, lent, &mut output), refused(2, 0));
            assert_eq!(write(LIMITS, version, lent, &mut []), refused(2, 0));
        }
        assert_eq!(output, [0xA5; 64]);
        // Before anything about the rows or the output.
        for lent in [
            good.clone(),
            rows(&[]),
            vec![7; ROWS_LEN],
            rows(&[[13, 0, 0, 0, 0]]),
        ] {
            assert_eq!(write_with(version, &lent, 64), refused(11, 0));
            assert_eq!(write_with(version, &lent, 0), refused(11, 0));
        }
    }
    for version in [1, 2] {
        let bad = rows(&[[11, 1, 0, 0, 0], [14, 0, 0, 0, 0]]);
        assert_eq!(write_with(version, &bad, 0), refused(13, 1));
        assert_eq!(write_with(version, &good, 11), refused(5, 0));
        assert!(write_with(version, &good, 12).is_ok());
    }
    // The rows come before an output that is too short.
    let added = rows_of(&script_of(2, &a_sum()));
    assert_eq!(write_with(1, &added, 0), refused(13, 3));
    assert_eq!(write_with(2, &added, 18), refused(5, 0));
    assert_eq!(write_with(2, &added, 19), Ok(script_of(2, &a_sum())));
}

#[test]
fn the_writer_judges_rows_by_its_version() {
    let block = |count| [11, count, 0, 0, 0];
    let plain = [1, 5, 0, 0, 0];
    let added = [13, 0, 0, 0, 0];
    let both = |first: &[[u32; 5]]| {
        let rows = rows(first);
        let [one, two] = [1, 2].map(|version| write_with(version, &rows, 4_096));
        // What else takes rows takes those of every version.
        assert_eq!(
            judge_rows(LIMITS, &rows).map(|_| ()),
            two.clone().map(|_| ())
        );
        [one, two].map(|answer| answer.map(|bytes| bytes.len()))
    };
    assert_eq!(both(&[block(1), plain]), [Ok(12); 2]);
    assert_eq!(both(&[block(1), added]), [refused(13, 1), Ok(12)]);
    assert_eq!(
        both(&[block(2), plain, added]),
        [refused(13, 2), Ok(12 + 5)]
    );
    assert_eq!(both(&[added]), [refused(13, 0), refused(18, 0)]);
    for unknown in [14, 0x10C, 0x10D, 0xD00, 0xC00_0000] {
        let row = [unknown, 0, 0, 0, 0];
        assert_eq!(both(&[block(1), row]), [refused(13, 1); 2]);
    }
    // The kind comes before the operands of its row, not of an earlier one.
    for field in 1..5 {
        let mut over = added;
        over[field] = 64;
        assert_eq!(both(&[block(1), over]), [refused(13, 1), refused(14, 1)]);
        assert_eq!(both(&[[11, 0, 0, 0, 0], over]), [refused(14, 0); 2]);
    }
    // The rows end or go on after it.
    assert_eq!(both(&[block(2), added]), [refused(13, 1), refused(12, 2)]);
    assert_eq!(
        both(&[block(1), added, plain]),
        [refused(13, 1), refused(19, 2)]
    );
    // Left over, a row is not asked for its kind.
    assert_eq!(both(&[block(1), plain, added]), [refused(19, 2); 2]);
    // On level 17.
    let deep = [vec![block(1); 16], vec![added]].concat();
    assert_eq!(both(&deep), [refused(13, 16), refused(15, 16)]);
}
