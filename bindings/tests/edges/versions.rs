//! Versions of scripts: which of them a reader knows (11), which kinds each of
//! them has (13), and reading with either.

use crate::asked::read;
use crate::common::guarded::Guarded;
use crate::common::sets::set;
use crate::common::terms::header;
use crate::common::{read_as, refused, Answer};
use crate::given::*;
use roomscript::{Limits, NEWEST};

const BASE: Limits = Limits::BASE;

/// What the newest version known may be.
const KNOWN: [u32; 12] = [
    0,
    1,
    2,
    3,
    4,
    255,
    256,
    257,
    0x1_0000,
    0x1_0001,
    0x8000_0000,
    u32::MAX,
];

/// Versions, low parts of some of which would be one that there is.
const VERSIONS: [u32; 14] = [
    0, 1, 2, 3, 11, 255, 0x100, 0x101, 0x102, 0x200, 0x201, 0x202, 0xFF02, 0xFFFF,
];

fn is_known(newest: u32, version: u32) -> bool {
    version == 1 && newest >= 1 || version == 2 && newest >= 2
}

#[test]
fn the_newest_version() {
    assert_eq!(NEWEST, 2);
}

#[test]
fn those_up_to_the_newest_known_are_read() {
    for newest in KNOWN {
        for version in VERSIONS {
            let script = script_in(version, &[0x0B, 1, 0x02, 3]);
            let due = match is_known(newest, version) {
                true => read_as(version, 2),
                false => refused(11, 3),
            };
            let answer = reads_with(newest, BASE, &script);
            assert_eq!(answer, due, "{version} by {newest}");
        }
    }
}

/// Each of 65,536 versions.
#[test]
fn every_version() {
    let limits = set(2, 1, 0, 2);
    let mut rows = [9; 10];
    for version in 0..=0xFFFF {
        let script = script_in(version, &[0x0B, 1, 0x02, 3]);
        for newest in [1, NEWEST, u32::MAX] {
            let answer = read(limits, newest, &script, &mut rows);
            if is_known(newest, version) {
                assert_eq!(answer, read_as(version, 2), "{version} by {newest}");
                assert_eq!(rows, [0x0B, 1, 0, 0, 0, 0x02, 3, 0, 0, 0]);
            } else {
                assert_eq!(answer, refused(11, 3), "{version} by {newest}");
                assert_eq!(rows, [0; 10]);
            }
            rows.fill(9);
        }
    }
}

#[test]
fn once_both_bytes_are_there() {
    for newest in KNOWN {
        let reads = |script: &[u8]| reads_with(newest, BASE, script);
        assert_eq!(reads(b""), refused(12, 0));
        assert_eq!(reads(b"RCS"), refused(12, 3));
        for high in [0, 1, 2, 3, 0xFF] {
            assert_eq!(reads(&[b"RCS", &[high][..]].concat()), refused(12, 4));
        }
        // The mark comes before.
        assert_eq!(reads(b"RCX\x00\x03"), refused(10, 2));
        assert_eq!(reads(b"XCS\x00\x00"), refused(10, 0));
    }
    assert_eq!(reads_with(0, BASE, &header(1)), refused(11, 3));
    assert_eq!(reads_with(1, BASE, &header(1)), refused(12, 5));
    assert_eq!(reads_with(1, BASE, &header(2)), refused(11, 3));
    assert_eq!(reads_with(2, BASE, &header(2)), refused(12, 5));
    assert_eq!(reads_with(u32::MAX, BASE, &header(3)), refused(11, 3));
}

/// What would be refused all the same, at its own place.
#[test]
fn before_whatever_comes_after() {
    let mut long = vec![0x0B, 1];
    long.resize(32_763, 0);
    let bodies: [&[u8]; 8] = [
        &[0x0C],
        &[0x0D],
        &[0x01],
        &[0x0B, 0],
        &[0x0B, 1],
        &[0x0B, 1, 0x0D],
        &[0x0B, 1, 0x02, 3, 0],
        &long,
    ];
    for body in bodies {
        for newest in KNOWN {
            for version in VERSIONS {
                if !is_known(newest, version) {
                    let script = script_in(version, body);
                    let answer = reads_with(newest, BASE, &script);
                    assert_eq!(answer, refused(11, 3), "{version} by {newest}");
                }
            }
        }
    }
}

#[test]
fn after_the_caller_s_own() {
    let long = [&header(3)[..], &[0; 32_764]].concat();
    let other = script_in(3, &[0x0B, 1, 0x02, 3]);
    for newest in KNOWN {
        let outside = set(512, 64, 64, 33);
        let mut rows = Guarded::junk(2560, 7);
        let answer = read(outside, newest, &long, rows.lent_mut());
        assert_eq!(answer, refused(74, 0));
        let answer = read(BASE, newest, &long, &mut rows.lent_mut()[1..]);
        assert_eq!(answer, refused(1, 0));
        let answer = read(BASE, newest, &long, rows.lent_mut());
        assert_eq!(answer, refused(1, 0));
        let answer = read(BASE, newest, &other, &mut rows.lent_mut()[1..]);
        assert_eq!(answer, refused(2, 0));
        assert!(rows.junk_from(0) && rows.guards_hold());
        let answer = read(BASE, newest, &other, rows.lent_mut());
        assert_eq!(answer, refused(11, 3));
        assert_eq!(rows.lent(), [0; 2560]);
        assert!(rows.guards_hold());
    }
}

/// The byte of a sum is an unknown kind in version 1; this in version 2.
#[track_caller]
fn unknown_or(body: &[u8], place: u32, second: Answer) {
    assert_eq!(reads_in_each(body), [refused(13, place), second]);
}

#[test]
fn a_sum_gives_its_row() {
    let body = [0x0B, 3, 0x0D, 63, 8, 0, 7, 0x02, 3, 0x0D, 1, 2, 3, 4];
    let expected = [
        block(3),
        [0x0D, 63, 8, 0, 7],
        [0x02, 3, 0, 0, 0],
        [0x0D, 1, 2, 3, 4],
    ];
    let mut rows = Guarded::junk(BASE.row_numbers(), 6);
    let answer = read(BASE, NEWEST, &script_in(2, &body), rows.lent_mut());
    assert_eq!(answer, read_as(2, 4));
    assert_eq!(rows.lent(), rows_of(&expected));
    unknown_or(&body, 7, Ok(4));
}

#[test]
fn sums_at_each_place() {
    let sum = [0x0D, 0, 0, 63, 8];
    let around: [&[u8]; 6] = [
        &[0x0B, 1],
        &[0x0B, 2, 0x02, 3],
        &[0x0B, 1, 0x07],
        &[0x0B, 1, 0x08, 5],
        &[0x0B, 1, 0x09, 5, 0],
        &[0x0B, 2, 0x0A, 0, 0, 0, 0, 0x0B, 1],
    ];
    for before in around {
        let place = 5 + before.len() as u32;
        let terms = match before.len() {
            2 => 2,
            9 => 4,
            _ => 3,
        };
        unknown_or(&[before, &sum].concat(), place, Ok(terms));
        // Cut short it has ended, at each of its operands.
        for length in 1..5 {
            let ended = refused(12, place + length as u32);
            unknown_or(&[before, &sum[..length]].concat(), place, ended);
        }
        // Neither version has this.
        let other = [before, &[0x0E, 0, 0, 63, 8]].concat();
        assert_eq!(reads_in_each(&other), [refused(13, place); 2]);
        // Nothing is inside a sum, and nothing comes after the block.
        for more in [0x00, 0x02, 0x0D] {
            let left = refused(19, place + 5);
            unknown_or(&[before, &sum, &[more]].concat(), place, left);
        }
    }
}

#[test]
fn operands_of_a_sum() {
    let body = |operands: &[u8]| [&[0x0B, 1, 0x0D], operands].concat();
    unknown_or(&body(&[64, 9, 64, 9]), 7, refused(14, 8));
    unknown_or(&body(&[63, 9, 64, 9]), 7, refused(14, 9));
    unknown_or(&body(&[63, 8, 64, 9]), 7, refused(14, 10));
    unknown_or(&body(&[63, 8, 63, 9]), 7, refused(14, 11));
    unknown_or(&body(&[63, 8, 63, 8]), 7, Ok(2));
    unknown_or(&body(&[255; 4]), 7, refused(14, 8));
    // The first one is judged before the next is there.
    unknown_or(&body(&[64]), 7, refused(14, 8));
    unknown_or(&body(&[63, 8, 64]), 7, refused(14, 10));
}

#[test]
fn a_sum_as_the_outermost_term() {
    unknown_or(&[0x0D], 5, refused(18, 5));
    unknown_or(&[0x0D, 0, 0, 0, 0], 5, refused(18, 5));
    unknown_or(&[0x0D, 255, 255, 255, 255], 5, refused(18, 5));
    for kind in [0x0E, 0xFF] {
        assert_eq!(reads_in_each(&[kind, 0, 0, 0, 0]), [refused(13, 5); 2]);
    }
}

#[test]
fn unknown_comes_before_the_limits() {
    let sum = [0x0D, 0, 0, 0, 0];
    // On level 17.
    let deep = [&[0x0B, 1].repeat(16)[..], &sum].concat();
    unknown_or(&deep, 37, refused(15, 37));
    // As term 513.
    let mut many = vec![0x0B, 2];
    for count in [255, 254] {
        many.extend([0x0B, 255]);
        many.extend([0x02, 1].repeat(count));
    }
    let place = 5 + many.len() as u32;
    assert_eq!(reads_in_each(&many), [refused(12, place); 2]);
    many.extend(sum);
    unknown_or(&many, place, refused(16, place));
    // Both: too many terms comes before too deep.
    let limits = set(3, 1, 0, 3);
    let body = [&[0x0B, 1].repeat(3)[..], &sum].concat();
    let reads = |version| reads_under(limits, &script_in(version, &body));
    assert_eq!([reads(1), reads(2)], [refused(13, 11), refused(16, 11)]);
}

/// As many sums as there can be terms, and as long as a script can be.
#[test]
fn full_of_sums() {
    let sums = |count: usize| {
        let sums = [0x0D, 63, 8, 62, 8].repeat(count);
        [&[0x0B, count as u8], &sums[..]].concat()
    };
    let body = [&[0x0B, 2], &sums(255)[..], &sums(254)].concat();
    unknown_or(&body, 9, Ok(512));
    let beyond = [&[0x0B, 2], &sums(255)[..], &sums(255)].concat();
    unknown_or(&beyond, 9, refused(16, 5 + 6 + 5 * 509));
}
