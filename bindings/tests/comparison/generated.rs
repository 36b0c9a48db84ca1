//! Generated rows, checked, run and run unchecked by both programs.

use crate::common::case::{Case, Input};
use crate::common::settings::Settings;
use crate::common::tally::Tally;
use crate::layers::{Layers, Room, FAULTS};
use crate::sets::{author_under, length, near_misses_under, Sets};
use reference::random::Random;
use reference::Generator;
use roomscript::{Limits, READINGS_LEN};

const EXTREMES: [i32; 7] = [i32::MIN, i32::MIN + 1, -1, 0, 1, i32::MAX - 1, i32::MAX];

/// The numbers that rows of any form and length add.
const FORM: [u32; 8] = [2, 12, 13, 14, 15, 17, 18, 19];

fn ordinary(random: &mut Random) -> Vec<i32> {
    (0..READINGS_LEN)
        .map(|_| random.below(400) as i32)
        .collect()
}

fn extreme(random: &mut Random) -> Vec<i32> {
    (0..READINGS_LEN).map(|_| random.pick(&EXTREMES)).collect()
}

/// How the cases of a comparison are made: rows, the readings that they are
/// run with, one after the other, and the length of the store.
struct Kind {
    name: &'static str,
    rows: fn(&mut Generator, u64, &mut Vec<u32>),
    readings: fn(&mut Random) -> Vec<Vec<i32>>,
    store: fn(&mut Random, Limits) -> usize,
}

/// Both programs check and run the rows that are made, with all readings that
/// are given for them. The random numbers are a sequence of their own, so that
/// the rows depend on nothing else.
fn compare(kind: &Kind, sets: Sets) -> (Settings, Layers) {
    let settings = sets.settings();
    let mut layers = Layers::new(&format!("{}, {}", kind.name, sets.name()));
    let mut generator = Generator::new(settings.seed);
    let mut random = Random::new(!settings.seed);
    let mut rows = Vec::new();
    for number in 0..settings.cases {
        let limits = sets.next(&mut generator);
        (kind.rows)(&mut generator, number, &mut rows);
        if sets == Sets::Outside {
            rows.resize(length(&mut random, limits.row_numbers(), rows.len()), 0);
        }
        for given in (kind.readings)(&mut random) {
            let case = Case {
                seed: Some(settings.seed),
                number,
                limits,
                input: Input::Run(&rows, &given),
            };
            let made_for = generator.limits().store_numbers();
            let room = Room {
                length: match sets {
                    Sets::Outside => length(&mut random, limits.store_numbers(), made_for),
                    _ => (kind.store)(&mut random, limits),
                },
                junk: random.bits() as u32,
            };
            layers.check_and_run(&case, &rows, &given, room);
        }
    }
    (settings, layers)
}

fn whole(_: &mut Random, limits: Limits) -> usize {
    limits.store_numbers()
}

fn steered(sets: Sets) {
    let kind = Kind {
        name: "steered",
        rows: |generator, _, rows| generator.accepted_rows(rows),
        readings: |random| vec![ordinary(random), extreme(random)],
        store: whole,
    };
    let (settings, layers) = compare(&kind, sets);
    // All of them are accepted, and no fault is met.
    let expected = sets.expected(&[0], &[12]);
    let rare = without_room(sets);
    for tally in [&layers.checked, &layers.ran, &layers.ran_unchecked] {
        tally.report_with(&settings, &expected, rare);
    }
    if sets.have_room() {
        layers.reached.report(&settings);
    }
}

/// Under a set without room for any script the second term finds no row, or is
/// too deep.
fn without_room(sets: Sets) -> &'static [u32] {
    match sets {
        Sets::Within => &[12, 15],
        _ => &[],
    }
}

/// Rows of the right form, with the numbers of check and run that must occur
/// and those that may.
fn formed(
    name: &'static str,
    rows: fn(&mut Generator, u64, &mut Vec<u32>),
    sets: Sets,
    (author, rare): (Vec<u32>, &[u32]),
) {
    let kind = Kind {
        name,
        rows,
        readings: |random| vec![any_value(random)],
        store: whole,
    };
    let (settings, layers) = compare(&kind, sets);
    let author = sets.expected(&author, &[12]);
    let rare = [rare, without_room(sets)].concat();
    layers.checked.report_with(&settings, &author, &rare);
    layers.ran.report_with(&settings, &author, &rare);
    let faults = sets.expected(&FAULTS, &[12]);
    layers
        .ran_unchecked
        .report_with(&settings, &faults, without_room(sets));
}

fn any_value(random: &mut Random) -> Vec<i32> {
    let any = |random: &mut Random| match random.below(6) {
        0 => random.bits() as i32,
        1 => random.pick(&EXTREMES),
        _ => random.below(400) as i32,
    };
    (0..READINGS_LEN).map(|_| any(random)).collect()
}

fn near_misses(sets: Sets) {
    let rows = |generator: &mut Generator, _, rows: &mut Vec<u32>| generator.near_miss_rows(rows);
    formed("near misses", rows, sets, near_misses_under(sets));
}

fn wild(sets: Sets) {
    let rows = |generator: &mut Generator, _, rows: &mut Vec<u32>| generator.wild_rows(rows);
    formed("wild rows", rows, sets, (author_under(sets), &[]));
}

/// Seldom a length that is refused.
fn any_store(random: &mut Random, limits: Limits) -> usize {
    let right = limits.store_numbers();
    length(random, right, right)
}

/// Seldom too many or too few.
fn any_readings(random: &mut Random) -> Vec<Vec<i32>> {
    let mut given = extreme(random);
    if random.percent(3) {
        given.resize(random.pick(&[0, 1, 7, 9, 16]), 5);
    }
    vec![given]
}

fn any_rows(sets: Sets) {
    let kind = Kind {
        name: "any rows",
        rows: |generator, number, rows| match number % 2 {
            0 => generator.rows_any_length(rows),
            _ => generator.mixed_rows(rows),
        },
        readings: any_readings,
        store: any_store,
    };
    let (settings, layers) = compare(&kind, sets);
    let in_least = [2, 12, 13, 14, 18];
    let checked = [&author_under(sets)[..], &FORM].concat();
    let report = |tally: &Tally, with_room: &[u32], more: &[u32]| {
        let with_room = [with_room, more].concat();
        let in_least = [&in_least[..], more].concat();
        tally.report(&settings, &sets.expected(&with_room, &in_least));
    };
    report(&layers.checked, &checked, &[]);
    report(&layers.ran, &checked, &[3, 4]);
    let unchecked = [&FAULTS[..], &FORM].concat();
    report(&layers.ran_unchecked, &unchecked, &[3, 4]);
}

mod accepted_scripts_are_checked_and_run_alike {
    crate::under_each_set!(super::steered);
}

mod near_misses_are_checked_and_run_alike {
    crate::under_each_set!(super::near_misses);
}

mod wild_rows_are_checked_and_run_alike {
    crate::under_each_set!(super::wild);
}

mod any_rows_are_checked_and_run_alike {
    crate::under_each_set!(super::any_rows);
}
