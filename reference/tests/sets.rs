//! The generators under other sets of limits than that of the program: they
//! reach every answer that there is under a set, and its limits.

mod common;

use common::{levels, set};
use reference::{check, judge_rows, read, run_unchecked, Generator, Limits, Refusal, NEWEST};
use std::collections::{BTreeMap, BTreeSet};

/// How often each number was answered, 0 for success.
#[derive(Default)]
struct Counts(BTreeMap<u32, u32>);

impl Counts {
    fn count<T>(&mut self, answer: Result<T, Refusal>) {
        let number = answer.map_or_else(|refusal| refusal.number, |_| 0);
        *self.0.entry(number).or_insert(0) += 1;
    }

    /// These numbers occurred, and no others.
    fn assert_exactly(&self, numbers: impl IntoIterator<Item = u32>, limits: Limits) {
        let met: BTreeSet<u32> = self.0.keys().copied().collect();
        assert_eq!(met, numbers.into_iter().collect(), "{limits:?}");
    }
}

/// What the reader and the judge of rows answer in a sample.
fn form(limits: Limits, sample: usize) -> [Counts; 2] {
    let mut generator = Generator::with_limits(51, limits);
    let (mut script, mut rows) = (Vec::new(), Vec::new());
    let mut counts = [Counts::default(), Counts::default()];
    let mut lent = vec![0; limits.row_numbers()];
    for _ in 0..sample {
        generator.script(&mut script);
        counts[0].count(read(limits, NEWEST, &script, &mut lent));
        generator.rows_any_length(&mut rows);
        counts[1].count(judge_rows(limits, &rows));
    }
    counts
}

#[test]
fn every_number_of_the_form_occurs() {
    let samples = [
        (set(12, 4, 2, 4), 20_000),
        (set(24, 5, 3, 5), 20_000),
        (set(24, 1, 0, 3), 20_000),
        (set(34, 1, 30, 32), 20_000),
        (set(200, 70, 65, 17), 20_000),
        (Limits::LARGEST, 6_000),
    ];
    for (limits, sample) in samples {
        let [reading, judging] = form(limits, sample);
        reading.assert_exactly([0, 1].into_iter().chain(10..=19), limits);
        // Rows have no room for a term too many.
        judging.assert_exactly([0, 2, 12, 13, 14, 15, 17, 18, 19], limits);
    }
}

#[test]
fn the_smallest_sets_meet_what_they_can() {
    // A second term is one too many before it is too deep or a box.
    let limits = set(1, 1, 0, 1);
    let [reading, judging] = form(limits, 20_000);
    reading.assert_exactly([1, 10, 11, 12, 13, 14, 16, 18], limits);
    judging.assert_exactly([2, 12, 13, 14, 18], limits);
    // It is too deep.
    let limits = set(9, 3, 0, 1);
    let [reading, judging] = form(limits, 20_000);
    reading.assert_exactly([1, 10, 11, 12, 13, 14, 15, 18], limits);
    judging.assert_exactly([2, 12, 13, 14, 15, 18], limits);
    // There is room for one term in the block, which may be a box too many.
    let limits = set(2, 1, 0, 2);
    let [reading, judging] = form(limits, 20_000);
    reading.assert_exactly([0, 1, 10, 11, 12, 13, 14, 16, 17, 18, 19], limits);
    judging.assert_exactly([0, 2, 12, 13, 14, 17, 18], limits);
}

/// What check and unchecked run answer on rows of the right form.
fn layers(limits: Limits, sample: usize) -> [Counts; 2] {
    let mut generator = Generator::with_limits(52, limits);
    let mut rows = Vec::new();
    let mut store = vec![0; limits.store_numbers()];
    let mut counts = [Counts::default(), Counts::default()];
    for number in 0..sample {
        match number % 2 {
            0 => generator.near_miss_rows(&mut rows),
            _ => generator.wild_rows(&mut rows),
        }
        let readings = generator.readings();
        counts[0].count(check(limits, &rows));
        counts[1].count(run_unchecked(limits, &rows, &readings, &mut store));
    }
    counts
}

#[test]
fn every_number_of_check_and_machine_occurs() {
    for (limits, sample) in [(set(200, 70, 65, 17), 20_000), (Limits::LARGEST, 6_000)] {
        let [checked, ran] = layers(limits, sample);
        checked.assert_exactly([0].into_iter().chain(30..=43), limits);
        ran.assert_exactly([0, 60, 61, 62, 63], limits);
    }
    // Five variables and three boxes make no nine links.
    let limits = set(24, 5, 3, 5);
    let [checked, ran] = layers(limits, 20_000);
    checked.assert_exactly([0, 43].into_iter().chain(30..=41), limits);
    ran.assert_exactly([0, 60, 61, 62, 63], limits);
}

/// The terms, variables, boxes and levels that rows use, as far as they are
/// the most of a sample.
fn most_used(limits: Limits, sample: usize, make: fn(&mut Generator, &mut Vec<u32>)) -> Limits {
    let mut generator = Generator::with_limits(53, limits);
    let mut rows = Vec::new();
    let mut most = set(0, 0, 0, 0);
    for _ in 0..sample {
        make(&mut generator, &mut rows);
        let terms = judge_rows(limits, &rows).expect("rows of a script");
        let used: Vec<&[u32]> = rows.chunks(5).take(terms as usize).collect();
        let lets = used.iter().filter(|row| row[0] == 8);
        let boxes = used.iter().filter(|row| row[0] == 7).count();
        most.terms = most.terms.max(terms);
        most.variables = lets.fold(most.variables, |most, row| most.max(row[1] + 1));
        most.boxes = most.boxes.max(boxes as u32);
        most.levels = most.levels.max(levels(&used, &mut 0) as u32);
    }
    most
}

#[test]
fn the_limits_are_reached() {
    let samples = [
        (set(2, 1, 0, 2), 100),
        (set(12, 4, 2, 4), 2_000),
        (set(24, 5, 3, 5), 2_000),
        (set(200, 70, 50, 17), 20_000),
        (Limits::BASE, 20_000),
        (Limits::LARGEST, 6_000),
    ];
    for (limits, sample) in samples {
        // There is no room for a let in two terms.
        let variables = if limits.terms == 2 {
            0
        } else {
            limits.variables
        };
        let due = Limits {
            variables,
            ..limits
        };
        assert_eq!(most_used(limits, sample, Generator::valid_rows), due);
        assert_eq!(most_used(limits, sample, Generator::accepted_rows), due);
    }
}

#[test]
fn accepted_rows_are_accepted_under_any_set() {
    let mut generator = Generator::new(54);
    let mut rows = Vec::new();
    for _ in 0..2_000 {
        let limits = generator.limits_within();
        generator.set_limits(limits);
        generator.accepted_rows(&mut rows);
        assert_eq!(rows.len(), limits.row_numbers());
        let possible = limits.terms > 1 && limits.levels > 1;
        assert_eq!(check(limits, &rows).is_ok(), possible, "{limits:?}");
    }
}

#[test]
fn sets_inside_above_and_outside() {
    let mut generator = Generator::new(55);
    let mut outside = [const { BTreeSet::new() }; 4];
    for _ in 0..5_000 {
        let limits = generator.limits_within();
        assert!(limits.in_ranges());
        generator.set_limits(limits);
        let above = generator.limits_above();
        assert!(above.in_ranges());
        assert!(above.terms >= limits.terms && above.variables >= limits.variables);
        assert!(above.boxes >= limits.boxes && above.levels >= limits.levels);
        let set = generator.limits_outside();
        assert!(!set.in_ranges());
        let all = [set.terms, set.variables, set.boxes, set.levels];
        for (met, number) in outside.iter_mut().zip(all) {
            met.insert(number);
        }
    }
    for (met, end) in outside.iter().zip([4096, 128, 128, 32]) {
        assert!([0, end + 1, u32::MAX]
            .iter()
            .all(|number| met.contains(number)));
    }
}
