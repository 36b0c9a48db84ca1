//! What the check accepts runs without a fault and leaves the store tidy
//! (LANGUAGE 7.4), and the generators of scripts for check and machine reach
//! every number.

mod common;

use common::{chosen, tidy, LIMITS, ROWS_LEN, STORE_LEN};
use reference::random::Random;
use reference::{check, read, roomcheck, run_unchecked, small_choices, Generator, Ran, NEWEST};
use std::collections::BTreeMap;

const SAMPLE: usize = 20_000;

fn terms_of(kind: u32, rows: &[u32]) -> u32 {
    rows.chunks(5).filter(|row| row[0] == kind).count() as u32
}

/// Runs accepted rows: every cell is given back, and without a choice every
/// box takes one.
fn assert_tidy_run(rows: &[u32], readings: &[i32]) -> Ran {
    let mut store = vec![9; STORE_LEN];
    let ran = run_unchecked(LIMITS, rows, readings, &mut store).expect("an accepted script runs");
    assert_eq!(store, tidy(ran.cells));
    let boxes = terms_of(7, rows);
    match terms_of(12, rows) {
        0 => assert_eq!(ran.cells, boxes),
        _ => assert!(ran.cells <= boxes),
    }
    ran
}

/// Runs accepted rows by all ways through their choices, or by many if there
/// are very many, whatever the numbers are that would choose: every way is
/// safe by itself. By the readings one of them is run.
fn assert_tidy_ways(rows: &[u32], readings: &[i32]) {
    let choices = terms_of(12, rows);
    let all = choices <= 5;
    let mut random = Random::new(choices as u64);
    let ran = assert_tidy_run(rows, readings);
    let mut met = false;
    for way in 0..1 << choices.min(5) {
        let mut left: u64 = if all { way } else { random.bits() };
        let mut first = || {
            left = left.rotate_right(1);
            left >> 63 == 1
        };
        met |= assert_tidy_run(&chosen(rows, &mut first), readings) == ran;
    }
    assert!(met || !all, "{ran:?}");
}

#[test]
fn accepted_rows_are_accepted_and_run() {
    let mut generator = Generator::new(31);
    let mut rows = Vec::new();
    for _ in 0..SAMPLE {
        generator.accepted_rows(&mut rows);
        assert!(check(LIMITS, &rows).is_ok());
        let readings = generator.readings();
        assert_tidy_run(&rows, &readings);
        assert_tidy_ways(&rows, &readings);
    }
}

/// With all readings 0, all other than 0, and any.
#[test]
fn joined_rows_are_accepted_and_run_by_all_ways() {
    let mut generator = Generator::new(35);
    let mut rows = Vec::new();
    for _ in 0..SAMPLE / 4 {
        generator.joined_rows(&mut rows);
        assert!(check(LIMITS, &rows).is_ok());
        for readings in [[0; 8], [1; 8], generator.readings()] {
            assert_tidy_ways(&rows, &readings);
        }
    }
}

#[test]
fn near_joined_rows_run_by_all_ways_if_accepted() {
    let mut generator = Generator::new(36);
    let mut rows = Vec::new();
    let mut accepted = 0;
    for _ in 0..SAMPLE {
        generator.near_joined_rows(&mut rows);
        if check(LIMITS, &rows).is_ok() {
            accepted += 1;
            assert_tidy_ways(&rows, &generator.readings());
        }
    }
    assert!(accepted > SAMPLE / 10, "{accepted}");
}

/// With all readings 0, all other than 0, and any.
#[test]
fn through_shared_rows_are_accepted_and_run_by_all_ways() {
    let mut generator = Generator::new(37);
    let mut rows = Vec::new();
    for _ in 0..SAMPLE / 4 {
        generator.through_shared_rows(&mut rows);
        assert!(check(LIMITS, &rows).is_ok());
        for readings in [[0; 8], [1; 8], generator.readings()] {
            assert_tidy_ways(&rows, &readings);
        }
    }
}

#[test]
fn near_through_shared_rows_run_by_all_ways_if_accepted() {
    let mut generator = Generator::new(38);
    let mut rows = Vec::new();
    let mut accepted = 0;
    for _ in 0..SAMPLE {
        generator.near_through_shared_rows(&mut rows);
        if check(LIMITS, &rows).is_ok() {
            accepted += 1;
            assert_tidy_ways(&rows, &generator.readings());
        }
    }
    assert!(accepted > SAMPLE / 10, "{accepted}");
}

/// With all readings 0, all other than 0, and any.
#[test]
fn last_uses_rows_are_accepted_and_run_by_all_ways() {
    let mut generator = Generator::new(39);
    let mut rows = Vec::new();
    for _ in 0..SAMPLE {
        generator.last_uses_rows(&mut rows);
        assert!(check(LIMITS, &rows).is_ok());
        for readings in [[0; 8], [1; 8], generator.readings()] {
            assert_tidy_ways(&rows, &readings);
        }
    }
}

#[test]
fn near_last_uses_rows_run_by_all_ways_if_accepted() {
    let mut generator = Generator::new(40);
    let mut rows = Vec::new();
    let mut accepted = 0;
    for _ in 0..3 * SAMPLE {
        generator.near_last_uses_rows(&mut rows);
        if check(LIMITS, &rows).is_ok() {
            accepted += 1;
            assert_tidy_ways(&rows, &generator.readings());
        }
    }
    assert!(accepted > SAMPLE, "{accepted}");
}

#[test]
fn small_choices_run_by_both_ways_if_accepted() {
    let mut rows = vec![0; ROWS_LEN];
    let mut accepted = 0;
    small_choices(&mut |terms| {
        rows.fill(0);
        rows[..5 * terms.len()].copy_from_slice(terms.as_flattened());
        if check(LIMITS, &rows).is_ok() {
            accepted += 1;
            assert_tidy_ways(&rows, &[0; 8]);
            assert_tidy_ways(&rows, &[1; 8]);
        }
    });
    assert_eq!(accepted, 234_018);
}

#[test]
fn whatever_is_accepted_runs() {
    let mut generator = Generator::new(32);
    let mut rows = Vec::new();
    for _ in 0..SAMPLE {
        generator.mixed_rows(&mut rows);
        let readings = generator.readings();
        if check(LIMITS, &rows).is_ok() {
            assert_tidy_ways(&rows, &readings);
        }
    }
}

#[test]
fn every_refusal_and_every_fault_occurs() {
    let mut generator = Generator::new(33);
    let mut rows = Vec::new();
    let mut store = vec![0; STORE_LEN];
    let (mut checked, mut ran) = (BTreeMap::new(), BTreeMap::new());
    for _ in 0..SAMPLE {
        generator.mixed_rows(&mut rows);
        let number = check(LIMITS, &rows).map_or_else(|refusal| refusal.number, |_| 0);
        *checked.entry(number).or_insert(0) += 1;
        let readings = generator.readings();
        let answer = run_unchecked(LIMITS, &rows, &readings, &mut store);
        let number = answer.map_or_else(|refusal| refusal.number, |_| 0);
        *ran.entry(number).or_insert(0) += 1;
    }
    let often = |counts: &BTreeMap<u32, u32>, number| counts.get(&number) > Some(&10);
    for number in [0].into_iter().chain(30..=43) {
        assert!(often(&checked, number), "{number} in {checked:?}");
    }
    for number in [0].into_iter().chain(60..=63) {
        assert!(often(&ran, number), "{number} in {ran:?}");
    }
}

#[test]
fn lines_say_what_the_layers_answer() {
    let mut generator = Generator::new(34);
    let mut input = Vec::new();
    let mut rows = vec![0; ROWS_LEN];
    for _ in 0..SAMPLE / 4 {
        generator.input(&mut input);
        let line = roomcheck(&input);
        let Some((readings, script)) = input.split_at_checked(32) else {
            assert_eq!(line, "readings short");
            continue;
        };
        let number = |bytes: &[u8]| i32::from_be_bytes(bytes.try_into().unwrap());
        let readings: Vec<i32> = readings.chunks(4).map(number).collect();
        let read = read(LIMITS, NEWEST, script, &mut rows);
        let expected = match read.and_then(|_| check(LIMITS, &rows)) {
            Ok(terms) => {
                let ran = assert_tidy_run(&rows, &readings);
                format!("accepted {terms} call {} cells {}", ran.answer, ran.cells)
            }
            Err(refusal) => format!("refused {} at {}", refusal.number, refusal.place),
        };
        assert_eq!(line, expected);
    }
}
