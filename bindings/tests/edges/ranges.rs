//! Sets outside the ranges (LANGUAGE 2.8): 74 from every function, before every
//! other number, with nothing lent changed.

use crate::asked;
use crate::common::examples::e1;
use crate::common::guarded::Guarded;
use crate::common::refused;
use crate::common::sets::{fields, LEAST, NAMED};
use crate::common::terms::{rows_of, script_of};
use crate::hand::{both_refuse, READINGS};
use roomscript::{Limits, NEWEST};

/// Least and most of terms, variables, boxes and levels.
const RANGES: [(u32, u32); 4] = [(1, 4096), (1, 128), (0, 128), (1, 32)];

/// Numbers beyond a range, some with low bits that are in it.
fn beyond((least, most): (u32, u32)) -> Vec<u32> {
    let mut beyond = vec![most + 1, most + 2, 2 * most, 0x1_0000 + most, 0x8000_0001];
    beyond.extend([0x100_0000 + most, u32::MAX - 1, u32::MAX]);
    beyond.extend((least > 0).then_some(0));
    beyond
}

/// A set with one of its numbers changed.
fn with(mut limits: Limits, field: usize, value: u32) -> Limits {
    *fields(&mut limits)[field] = value;
    limits
}

/// Sets with one number outside its range, the others those of a named set, and
/// some with several.
fn outside() -> Vec<Limits> {
    let mut sets = Vec::new();
    for (field, range) in RANGES.into_iter().enumerate() {
        for value in beyond(range) {
            sets.extend(NAMED.map(|limits| with(limits, field, value)));
        }
    }
    for value in [u32::MAX, 0x8000_0000, 4097] {
        let all = (0..4).fold(LEAST, |limits, field| with(limits, field, value));
        sets.extend((0..4).map(|field| with(all, field, 1)));
        sets.push(all);
    }
    sets
}

/// Lengths of a buffer for a set outside the ranges: what the set asks for, if
/// it is not too long, what the language's own asks for, and others.
fn lengths(asked: usize, base: usize) -> Vec<usize> {
    let mut lengths = vec![base, 0, base - 1];
    lengths.extend((asked <= 25_000).then_some(asked));
    lengths
}

/// Scripts that are read, that are not, and that are too long.
fn scripts() -> [Vec<u8>; 3] {
    [script_of(&e1()), b"X".to_vec(), vec![0; 32_769]]
}

/// Rows of a script, cut short or with rows of 0 after them.
fn rows(length: usize) -> Vec<u32> {
    let mut rows = rows_of(&e1());
    rows.resize(length, 0);
    rows
}

#[test]
fn form_74() {
    for limits in outside() {
        for length in lengths(limits.row_numbers(), 2560) {
            let mut lent = Guarded::junk(length, 31);
            for script in scripts() {
                // Also where 11 would come.
                for newest in [0, NEWEST] {
                    let answer = asked::read(limits, newest, &script, lent.lent_mut());
                    assert_eq!(answer, refused(74, 0), "{limits:?}");
                    assert!(lent.junk_from(0) && lent.guards_hold(), "{limits:?}");
                }
            }
            for rows in [rows(length), vec![0; length], lent.lent().to_vec()] {
                assert_eq!(asked::judge_rows(limits, &rows), refused(74, 0));
                for (room, version) in [(0, 1), (24, 2), (25, 0), (25, 1), (40, 3)] {
                    let answer = asked::length(limits, version, &rows);
                    assert_eq!(answer, refused(74, 0), "{limits:?}");
                    let mut output = Guarded::junk(room, 32);
                    let answer = asked::write(limits, version, &rows, output.lent_mut());
                    assert_eq!(answer, refused(74, 0), "{limits:?}");
                    assert!(output.junk_from(0) && output.guards_hold());
                }
            }
        }
    }
}

#[test]
fn check_and_run_74() {
    for limits in outside() {
        for length in lengths(limits.row_numbers(), 2560) {
            for rows in [rows(length), vec![0; length]] {
                assert_eq!(asked::check(limits, &rows), refused(74, 0), "{limits:?}");
                for store in lengths(limits.store_numbers(), 384) {
                    for readings in [&READINGS[..], &READINGS[1..], &[]] {
                        let answer = both_refuse(limits, &rows, readings, store);
                        assert_eq!(answer, refused(74, 0), "{limits:?}");
                    }
                }
            }
        }
    }
}

#[test]
fn call_74() {
    for limits in outside() {
        for length in lengths(limits.row_numbers(), 2560) {
            let mut rows = Guarded::junk(length, 34);
            for length in lengths(limits.store_numbers(), 384) {
                let mut store = Guarded::junk(length, 35);
                for readings in [&READINGS[..], &READINGS[1..], &[]] {
                    for script in scripts() {
                        let (lent, on) = (rows.lent_mut(), store.lent_mut());
                        let answer = asked::call(limits, &script, readings, lent, on);
                        assert_eq!(answer, refused(74, 0), "{limits:?}");
                    }
                }
                assert!(store.junk_from(0) && store.guards_hold(), "{limits:?}");
            }
            assert!(rows.junk_from(0) && rows.guards_hold(), "{limits:?}");
        }
    }
}

/// Each range from its one end to the other, the other numbers being those of
/// each named set: rows of 0 are then 12 at 0.
#[test]
fn all_of_each_range() {
    for (field, (least, most)) in RANGES.into_iter().enumerate() {
        for value in least..=most {
            for limits in NAMED.map(|limits| with(limits, field, value)) {
                assert!(limits.in_ranges(), "{limits:?}");
                let rows = vec![0; limits.row_numbers()];
                let answer = asked::judge_rows(limits, &rows);
                assert_eq!(answer, refused(12, 0), "{limits:?}");
            }
        }
    }
}

/// Every combination of numbers at the ends of the ranges and beyond them.
#[test]
fn every_combination_of_ends() {
    let values = RANGES.map(|(least, most)| [0, least, least + 1, most, most + 1, u32::MAX]);
    for number in 0..6usize.pow(4) {
        let value = |field: u32| values[field as usize][number / 6usize.pow(field) % 6];
        let limits = (0..4).fold(LEAST, |limits, field| {
            with(limits, field, value(field as u32))
        });
        let within = RANGES
            .iter()
            .zip([0, 1, 2, 3])
            .all(|((least, most), field)| (*least..=*most).contains(&value(field)));
        assert_eq!(limits.in_ranges(), within, "{limits:?}");
        // No rows are 2 where the set is right.
        let number = if within { 2 } else { 74 };
        assert_eq!(asked::judge_rows(limits, &[]), refused(number, 0));
        let answer = asked::read(limits, NEWEST, &[], &mut []);
        assert_eq!(answer, refused(number, 0));
        assert_eq!(asked::length(limits, 3, &[]), refused(number, 0));
        let answer = asked::write(limits, 3, &[], &mut []);
        assert_eq!(answer, refused(number, 0));
        assert_eq!(asked::check(limits, &[]), refused(number, 0));
    }
}

#[test]
fn lengths_of_any_set() {
    let any = u32::MAX as usize;
    let all = Limits {
        terms: u32::MAX,
        variables: u32::MAX,
        boxes: u32::MAX,
        levels: u32::MAX,
    };
    assert_eq!((all.row_numbers(), all.store_numbers()), (5 * any, 6 * any));
    let base = Limits::BASE;
    assert_eq!((base.row_numbers(), base.store_numbers()), (2560, 384));
    let largest = Limits::LARGEST;
    assert_eq!(
        (largest.row_numbers(), largest.store_numbers()),
        (20_480, 768)
    );
    assert_eq!((LEAST.row_numbers(), LEAST.store_numbers()), (5, 3));
}
