//! On generated rows, the run that checks first equals the check followed by
//! the unchecked run, in the answer and in the store, and no input leads it to
//! a fault (LANGUAGE 6.6, 7.4).

mod common;

use common::{junk, tidy_under};
use reference::{check, run, run_unchecked, Generator, Limits, Ran, Refusal};
use std::collections::BTreeMap;

/// How often each number was answered, 0 for success.
type Counts = BTreeMap<u32, u32>;

type Make = fn(&mut Generator, &mut Vec<u32>);

const KINDS: [Make; 8] = [
    Generator::accepted_rows,
    Generator::near_miss_rows,
    Generator::wild_rows,
    Generator::mixed_rows,
    Generator::valid_rows,
    Generator::rows,
    Generator::rows_beyond,
    Generator::rows_any_length,
];

/// What `run` has to answer and to leave in a store of the right length.
fn check_then_run(
    limits: Limits,
    rows: &[u32],
    readings: &[i32],
    store: &mut [u32],
) -> Result<Ran, Refusal> {
    check(limits, rows)?;
    run_unchecked(limits, rows, readings, store)
}

/// Runs both ways over the same store and answers the number.
fn compared(limits: Limits, rows: &[u32], readings: &[i32], before: &[u32]) -> u32 {
    let (mut store, mut due) = (before.to_vec(), before.to_vec());
    let answer = run(limits, rows, readings, &mut store);
    assert_eq!(answer, check_then_run(limits, rows, readings, &mut due));
    assert_eq!(store, due);
    match answer {
        Ok(ran) => assert_eq!(store, tidy_under(limits, ran.cells)),
        Err(_) => assert_eq!(store, before),
    }
    answer.map_or_else(|refusal| refusal.number, |_| 0)
}

fn sample(limits: Limits, seed: u64, count: usize, make: Make) -> Counts {
    let mut generator = Generator::with_limits(seed, limits);
    let mut rows = Vec::new();
    let mut counts = Counts::new();
    let before = junk(limits);
    for _ in 0..count {
        make(&mut generator, &mut rows);
        let number = compared(limits, &rows, &generator.readings(), &before);
        *counts.entry(number).or_insert(0) += 1;
    }
    assert!(counts.keys().all(|number| !(60..=63).contains(number)));
    counts
}

/// Success and these numbers occurred, and no others.
fn assert_met(counts: &Counts, numbers: impl IntoIterator<Item = u32>) {
    let due = [0].into_iter().chain(numbers);
    assert!(counts.keys().copied().eq(due), "{counts:?}");
}

#[test]
fn under_the_set_of_the_program() {
    let of = |kind: usize| sample(Limits::BASE, 61, 20_000, KINDS[kind]);
    assert_met(&of(0), []);
    assert_met(&of(1), 30..=43);
    assert_met(&of(2), 30..=43);
    // Rows of any form among them; there is no room for a term too many.
    let form = [12, 13, 14, 15, 17, 18, 19];
    assert_met(&of(3), form.into_iter().chain(30..=43));
}

#[test]
fn on_rows_of_any_form() {
    for kind in [4, 5, 6, 7] {
        let counts = sample(Limits::BASE, 62, 20_000, KINDS[kind]);
        let others = counts.keys().filter(|number| **number >= 30).count();
        assert!(others > 2, "{counts:?}");
        assert_eq!(counts.contains_key(&2), kind == 7);
    }
}

#[test]
fn under_the_largest_set() {
    for make in KINDS {
        sample(Limits::LARGEST, 63, 1_000, make);
    }
}

#[test]
fn under_any_set() {
    let mut sets = Generator::new(64);
    let mut all = Counts::new();
    for seed in 0..400 {
        let limits = sets.limits_within();
        for make in KINDS {
            for (number, count) in sample(limits, seed, 5, make) {
                *all.entry(number).or_insert(0) += count;
            }
        }
    }
    let form = [2, 12, 13, 14, 15, 17, 18, 19];
    assert_met(&all, form.into_iter().chain(30..=43));
}

/// What the caller did wrong, if anything, as the first in the order.
fn by_the_caller(limits: Limits, rows: &[u32], readings: &[i32], store: &[u32]) -> Option<u32> {
    let wrong = [
        (74, !limits.in_ranges()),
        (2, rows.len() != limits.row_numbers()),
        (3, store.len() != limits.store_numbers()),
        (4, readings.len() != 8),
    ];
    let first = wrong.into_iter().find(|(_, wrong)| *wrong);
    first.map(|(number, _)| number)
}

#[test]
fn with_lengths_and_sets_that_are_wrong() {
    let mut generator = Generator::new(65);
    let mut rows = Vec::new();
    let mut counts = Counts::new();
    for round in 0..20_000_usize {
        generator.rows_any_length(&mut rows);
        let readings = generator.readings();
        let readings = &readings[usize::from(round % 5 == 0)..];
        let mut before = junk(Limits::BASE);
        before.truncate(Limits::BASE.store_numbers() - usize::from(round % 7 == 0));
        let limits = match round % 11 {
            0 => generator.limits_outside(),
            1 => generator.limits_within(),
            _ => Limits::BASE,
        };
        let number = match by_the_caller(limits, &rows, readings, &before) {
            None => compared(limits, &rows, readings, &before),
            Some(number) => {
                let mut store = before.clone();
                let answer = run(limits, &rows, readings, &mut store);
                assert_eq!(answer, Err(Refusal { number, place: 0 }));
                assert_eq!(store, before);
                number
            }
        };
        *counts.entry(number).or_insert(0) += 1;
    }
    assert!([74, 2, 3, 4].iter().all(|number| counts[number] > 100));
}
