//! Writing in a version: the order of its refusals, a version that there is not
//! (11) and kinds of a later one (13), and round trips from bytes and from rows.

use crate::asked::{judge_rows, read, write};
use crate::common::guarded::Guarded;
use crate::common::sets::{LEAST, SMALL, UNEVEN};
use crate::common::terms::{self, below, boxed, choice, let_, number, reading, sum, Term};
use crate::common::{read_as, refused, Answer};
use crate::given::*;
use roomscript::{Limits, NEWEST};

const BASE: Limits = Limits::BASE;

/// Numbers that are no version, low parts of some of which would be one.
pub const NONE: [u32; 14] = [
    0,
    3,
    4,
    255,
    256,
    257,
    258,
    513,
    0xFFFF,
    0x1_0000,
    0x1_0001,
    0x1_0002,
    0x8000_0002,
    u32::MAX,
];

const SUM: Row = [0x0D, 0, 0, 0, 0];

/// Five things, each right or wrong, in every combination: the first one that
/// is wrong is told, and the output stays as it was.
#[test]
fn the_order_of_refusals() {
    for limits in [BASE, SMALL, UNEVEN, Limits::LARGEST] {
        for version in [1, 2] {
            let last = limits.terms - 1;
            let numbers = [(74, 0), (2, 0), (11, 0), (19, last), (5, 0)];
            for wrong in 0..1usize << numbers.len() {
                let is_wrong = |at: usize| wrong >> at & 1;
                let mut handed = limits;
                handed.levels += 32 * is_wrong(0) as u32;
                let mut rows = rows_under(limits, &[block(1), READING]);
                rows[5 * last as usize] = is_wrong(3) as u32;
                rows.truncate(limits.row_numbers() - is_wrong(1));
                let version = version + 2 * is_wrong(2) as u32;
                let mut output = Guarded::junk(9 - is_wrong(4), 81);
                let answer = write(handed, version, &rows, output.lent_mut());
                let due = match numbers.get(wrong.trailing_zeros() as usize) {
                    Some((number, place)) => refused(*number, *place),
                    None => Ok(9),
                };
                assert_eq!(answer, due, "{handed:?}, {wrong:b}");
                assert_eq!(output.junk_from(0), wrong != 0, "{handed:?}, {wrong:b}");
                assert!(output.guards_hold(), "{handed:?}, {wrong:b}");
            }
        }
    }
}

/// Whatever the rows hold, and however long the output is.
#[test]
fn no_such_version_11() {
    let all = [
        rows_of(&E1_ROWS),
        rows_of(&[block(1), SUM]),
        rows_of(&[]),
        rows_of(&[SUM]),
        rows_of(&[block(1), [0x0C; 5]]),
        rows_of(&[block(1), READING, READING]),
        vec![u32::MAX; BASE.row_numbers()],
    ];
    for version in NONE {
        for rows in &all {
            for room in [0, 9, 25, 64] {
                let mut output = Guarded::junk(room, 82);
                let answer = write(BASE, version, rows, output.lent_mut());
                assert_eq!(answer, refused(11, 0), "{version}");
                assert!(output.junk_from(0) && output.guards_hold(), "{version}");
            }
        }
        for limits in [LEAST, SMALL, Limits::LARGEST] {
            let rows = vec![0; limits.row_numbers()];
            let answer = write(limits, version, &rows, &mut []);
            assert_eq!(answer, refused(11, 0), "{version}, {limits:?}");
        }
    }
}

/// What writing in version 1 and in version 2 answers. All that takes rows
/// without a version takes those of version 2.
#[track_caller]
fn in_each(first: &[Row]) -> [Answer; 2] {
    let rows = rows_of(first);
    let judged = judges(&rows);
    [1, 2].map(|version| {
        let mut output = Guarded::junk(4096, 83);
        let answer = write(BASE, version, &rows, output.lent_mut());
        let end = answer.map_or(0, |length| length as usize);
        assert!(output.junk_from(end) && output.guards_hold());
        if version == NEWEST {
            assert_eq!(answer.map(|_| ()), judged.map(|_| ()));
        }
        answer
    })
}

#[test]
fn kinds_of_a_later_version_13() {
    assert_eq!(in_each(&[block(1), READING]), [Ok(9); 2]);
    assert_eq!(in_each(&[block(1), SUM]), [refused(13, 1), Ok(12)]);
    let second = [block(2), READING, SUM];
    assert_eq!(in_each(&second), [refused(13, 2), Ok(14)]);
    let boxed = [block(1), BOX, SUM];
    assert_eq!(in_each(&boxed), [refused(13, 2), Ok(13)]);
    let nested = [block(1), block(1), [0x08, 5, 0, 0, 0], SUM];
    assert_eq!(in_each(&nested), [refused(13, 3), Ok(16)]);
    assert_eq!(in_each(&[SUM]), [refused(13, 0), refused(18, 0)]);
    for kind in [0x0E, 0x10C, 0x10D, 0x0D00, 0x0D00_0000, 0x8000_000D] {
        let unknown = [block(1), [kind, 0, 0, 0, 0]];
        assert_eq!(in_each(&unknown), [refused(13, 1); 2]);
        assert_eq!(in_each(&unknown[1..]), [refused(13, 0); 2]);
    }
}

#[test]
fn in_the_order_of_the_rows() {
    // The kind comes before the operands of its row, and after earlier rows.
    for (field, most) in [(1, 63), (2, 8), (3, 63), (4, 8)] {
        let mut beyond = SUM;
        beyond[field] = most;
        assert_eq!(in_each(&[block(1), beyond]), [refused(13, 1), Ok(12)]);
        beyond[field] = most + 1;
        let due = [refused(13, 1), refused(14, 1)];
        assert_eq!(in_each(&[block(1), beyond]), due);
        assert_eq!(in_each(&[block(0), beyond]), [refused(14, 0); 2]);
        let earlier = [block(2), [0x02, 8, 0, 0, 0], SUM];
        assert_eq!(in_each(&earlier), [refused(14, 1); 2]);
    }
    // Before the end is missing, or something left over.
    let ended = [block(2), SUM];
    assert_eq!(in_each(&ended), [refused(13, 1), refused(12, 2)]);
    let left = [block(1), SUM, READING];
    assert_eq!(in_each(&left), [refused(13, 1), refused(19, 2)]);
    // Left over, a row is not asked for its kind.
    for row in [SUM, [0x0C, 0, 0, 0, 0], [0, 0, 0, 0, 1]] {
        assert_eq!(in_each(&[block(1), READING, row]), [refused(19, 2); 2]);
    }
    // On level 17.
    let deep = [vec![block(1); 16], vec![SUM]].concat();
    assert_eq!(in_each(&deep), [refused(13, 16), refused(15, 16)]);
    // After a box too many, and before it.
    let boxes = |first: Row| {
        let boxed = vec![[BOX, READING]; 65].concat();
        [&[block(66), first], &boxed[..]].concat()
    };
    assert_eq!(in_each(&boxes(READING)), [refused(17, 130); 2]);
    assert_eq!(in_each(&boxes(SUM)), [refused(13, 1), refused(17, 130)]);
}

/// The rows before the output.
#[test]
fn a_short_output_5() {
    let rows = rows_of(&[block(1), SUM]);
    for room in 0..12 {
        let mut output = Guarded::junk(room, 84);
        let answer = write(BASE, 1, &rows, output.lent_mut());
        assert_eq!(answer, refused(13, 1));
        let answer = write(BASE, 2, &rows, output.lent_mut());
        assert_eq!(answer, refused(5, 0));
        assert!(output.junk_from(0) && output.guards_hold());
    }
    let mut output = Guarded::junk(12, 85);
    assert_eq!(write(BASE, 2, &rows, output.lent_mut()), Ok(12));
    assert_eq!(output.lent(), b"RCS\x00\x02\x0B\x01\x0D\x00\x00\x00\x00");
}

/// Scripts with the versions that have their kinds.
fn scripts() -> Vec<(Vec<Term>, &'static [u32])> {
    let one = || let_(0, boxed(reading(3)));
    vec![
        (vec![reading(3)], &[1, 2]),
        (vec![one(), below((0, 1), (0, 1))], &[1, 2]),
        (vec![number(-1), number(i32::MIN)], &[1, 2]),
        (vec![one(), sum((0, 1), (0, 1))], &[2]),
        (vec![one(), let_(63, boxed(sum((0, 1), (0, 1))))], &[2]),
        (vec![one(), choice((0, 1), &[number(1)], &[one()])], &[2]),
    ]
}

#[test]
fn from_bytes_to_rows_and_back() {
    for (terms, versions) in scripts() {
        for version in versions {
            let script = terms::bytes_in(*version, &terms::block(&terms));
            let mut rows = Guarded::junk(BASE.row_numbers(), 86);
            let count = terms::block(&terms).len() as u32;
            let answer = read(BASE, NEWEST, &script, rows.lent_mut());
            assert_eq!(answer, read_as(*version, count));
            let mut output = Guarded::junk(script.len() + 3, 87);
            let answer = write(BASE, *version, rows.lent(), output.lent_mut());
            assert_eq!(answer, Ok(script.len() as u32));
            assert_eq!(output.lent()[..script.len()], script);
            assert!(output.junk_from(script.len()) && output.guards_hold());
        }
    }
}

#[test]
fn from_rows_to_bytes_and_back() {
    for (terms, versions) in scripts() {
        let rows = terms::rows_of(&terms);
        let count = judge_rows(BASE, &rows).expect("rows of a script");
        let mut bodies = Vec::new();
        for version in versions {
            let mut output = [0; 64];
            let length = write(BASE, *version, &rows, &mut output).expect("room for it");
            let script = &output[..length as usize];
            let mut again = Guarded::junk(BASE.row_numbers(), 88);
            let answer = read(BASE, *version, script, again.lent_mut());
            assert_eq!(answer, read_as(*version, count));
            assert_eq!(again.lent(), rows);
            assert_eq!(script[..5], terms::header(*version));
            bodies.push(script[5..].to_vec());
        }
        // The version's bytes alone differ.
        bodies.dedup();
        assert_eq!(bodies.len(), 1);
    }
}
