//! The length of the script that rows describe (LANGUAGE 6.4) on generated rows
//! and scripts: what it has to do with writing, reading and the versions.

mod common;

use common::*;
use reference::form::header;
use reference::{judge_rows, length, read, Generator, Limits, Script, NEWEST};
use std::collections::BTreeSet;

/// Version 1 refuses the first term of a kind that it does not have, and tells
/// the same of all other rows as version 2, which refuses what judging does. A
/// term takes 1 to 5 bytes.
fn versions_agree(limits: Limits, rows: &[u32]) {
    let [one, two] = [1, 2].map(|version| length(limits, version, rows));
    let terms = judge_rows(limits, rows);
    assert_eq!(two.map(|_| ()), terms.map(|_| ()));
    if let (Ok(bytes), Ok(terms)) = (two, terms) {
        assert!((5 + terms..=5 + 5 * terms).contains(&bytes));
    }
    let later = rows.chunks(5).position(|row| [12, 13].contains(&row[0]));
    match one {
        Ok(_) => assert_eq!(later, None),
        Err(refusal) if one != two => {
            assert_eq!((refusal.number, Some(refusal.place as usize)), (13, later));
        }
        Err(_) => (),
    }
    if later.is_none() {
        assert_eq!(one, two);
    }
}

/// Whatever the rows: writing, the other version, and reading what is written
/// agree with the length. Collects the numbers that are answered, 0 for a length.
fn rows_agree(seed: u64, limits: Limits, count: usize, met: &mut BTreeSet<u32>) {
    let mut generator = Generator::with_limits(seed, limits);
    let mut rows = Vec::new();
    let mut again = vec![7; limits.row_numbers()];
    for _ in 0..count {
        generator.rows_any_length(&mut rows);
        let version = generator.version();
        versions_agree(limits, &rows);
        match measured(limits, version, &rows) {
            Err(refusal) => met.insert(refusal.number),
            Ok(bytes) => {
                let script = written(limits, version, &rows, bytes as usize).expect("room");
                assert_eq!(script[..5], header(version));
                let read = read(limits, NEWEST, &script, &mut again);
                assert_eq!(read.map(|read| read.version), Ok(version));
                assert_eq!(again, rows);
                met.insert(0)
            }
        };
    }
}

/// Scripts that are read: the length of their rows is theirs. Answers how many
/// there were.
fn scripts_agree(seed: u64, limits: Limits, count: usize) -> usize {
    let mut generator = Generator::with_limits(seed, limits);
    let (mut script, mut rows) = (Vec::new(), vec![7; limits.row_numbers()]);
    let mut scripts = 0;
    for number in 0..count {
        match number % 4 {
            0 => generator.script(&mut script),
            _ => generator.valid_script(&mut script),
        }
        let Ok(Script { version, .. }) = read(limits, NEWEST, &script, &mut rows) else {
            continue;
        };
        scripts += 1;
        assert_eq!(length(limits, version, &rows), Ok(script.len() as u32));
        assert_eq!(length(limits, NEWEST, &rows), Ok(script.len() as u32));
        versions_agree(limits, &rows);
        let again = written(limits, version, &rows, script.len());
        assert_eq!(again.as_ref(), Ok(&script));
    }
    scripts
}

const SETS: [(Limits, usize); 5] = [
    (LIMITS, 40_000),
    (Limits::LARGEST, 6_000),
    (set(12, 4, 2, 4), 20_000),
    (set(34, 1, 30, 32), 20_000),
    (set(200, 70, 65, 17), 20_000),
];

#[test]
fn writing_agrees_on_generated_rows() {
    for (limits, count) in SETS {
        let mut met = BTreeSet::new();
        rows_agree(61, limits, count, &mut met);
        let due = [0, 2, 11, 12, 13, 14, 15, 17, 18, 19];
        assert_eq!(met, BTreeSet::from(due), "{limits:?}");
    }
}

#[test]
fn reading_agrees_on_generated_scripts() {
    for (limits, count) in SETS {
        let scripts = scripts_agree(62, limits, count);
        assert!(scripts > count / 2, "{scripts} under {limits:?}");
    }
}

#[test]
fn both_agree_under_any_set() {
    let mut sets = Generator::new(63);
    for seed in 0..200 {
        let limits = sets.limits_within();
        rows_agree(seed, limits, 50, &mut BTreeSet::new());
        scripts_agree(seed, limits, 50);
        let outside = sets.limits_outside();
        assert_eq!(length(outside, 0, &[]), refused(74, 0));
    }
}
