//! Scripts of which each has a sum: read, judged, written, checked, run and
//! called by both programs, and beside the same scripts with belows in place of
//! the sums, whose places are judged and read alike.

use crate::common::case::{Case, Input};
use crate::common::store::StoreRow;
use crate::common::{Answer, UncheckedAnswer};
use crate::layers::{Layers, Room, FAULTS};
use crate::sets::{author_under, near_misses_under, Sets};
use crate::whole::Whole;
use reference::random::Random;
use reference::Generator;
use roomscript::{Limits, FIELDS, READINGS_LEN, STORE_FIELDS};

const BELOW: u32 = 0x0A;
const CHOICE: u32 = 0x0C;
const SUM: u32 = 0x0D;
/// The value kind of a number.
const NUMBER: u32 = 1;

const EXTREMES: [i32; 7] = [i32::MIN, i32::MIN + 1, -1, 0, 1, i32::MAX - 1, i32::MAX];

type Make = fn(&mut Generator, &mut Vec<u32>);

/// The rows with each kind replaced.
fn with_kinds(rows: &[u32], mut kind: impl FnMut(u32) -> u32) -> Vec<u32> {
    let mut rows = rows.to_vec();
    for row in rows.chunks_mut(FIELDS) {
        row[0] = kind(row[0]);
    }
    rows
}

/// Rows that have a sum: some of the belows become sums, which changes nothing
/// for the check, and rows with neither are made anew.
fn make_with_sums(make: Make, generator: &mut Generator, random: &mut Random) -> Vec<u32> {
    let mut rows = Vec::new();
    loop {
        make(generator, &mut rows);
        let rows = with_kinds(&rows, |kind| match kind {
            BELOW if random.percent(70) => SUM,
            kind => kind,
        });
        if rows.chunks(FIELDS).any(|row| row[0] == SUM) {
            return rows;
        }
    }
}

/// Readings at the ends of their range or near them, or ordinary ones.
fn readings(random: &mut Random) -> Vec<i32> {
    let each = |random: &mut Random| match random.below(3) {
        0 => random.below(400) as i32,
        1 => random.bits() as i32,
        _ => random.pick(&EXTREMES),
    };
    (0..READINGS_LEN).map(|_| each(random)).collect()
}

/// What the library answers rows: the check and an unchecked run with the store
/// that it leaves.
fn answers(limits: Limits, rows: &[u32], given: &[i32]) -> (Answer, UncheckedAnswer, Vec<u32>) {
    let mut store = vec![9; limits.store_numbers()];
    let ran = roomscript::run_unchecked(limits, rows, given, &mut store);
    (roomscript::check(limits, rows), ran, store)
}

/// The same store but for the numbers in it.
fn without_numbers(store: &[u32]) -> Vec<StoreRow> {
    let row = |row: &[u32]| match *row {
        [state, NUMBER, _] => [state, NUMBER, 0],
        _ => row.try_into().expect("a whole row"),
    };
    store.chunks(STORE_FIELDS).map(row).collect()
}

/// With belows in place of the sums the check answers the same, and an unchecked
/// run does the same but for the numbers, where it does not choose by them.
fn as_with_belows(case: &Case, rows: &[u32], given: &[i32]) {
    let compared = with_kinds(rows, |kind| if kind == SUM { BELOW } else { kind });
    let (checked, ran, store) = answers(case.limits, rows, given);
    let (due, other, other_store) = answers(case.limits, &compared, given);
    case.equal(checked, due, "answer of check beside belows");
    if rows.chunks(FIELDS).any(|row| row[0] == CHOICE) {
        return;
    }
    let cells = |answer: UncheckedAnswer| answer.map(|ran| ran.cells);
    case.equal(cells(ran), cells(other), "unchecked run beside belows");
    case.equal(
        without_numbers(&store),
        without_numbers(&other_store),
        "store of an unchecked run beside belows",
    );
}

fn compare(name: &str, make: Make, sets: Sets, expected: &[u32], rare: &[u32], faults: &[u32]) {
    let settings = sets.settings();
    let name = format!("{name} with sums, {}", sets.name());
    let mut layers = Layers::new(&name);
    let mut whole = Whole::new();
    let mut generator = Generator::new(settings.seed);
    let mut random = Random::new(!settings.seed);
    for number in 0..settings.cases {
        let limits = sets.next(&mut generator);
        let rows = make_with_sums(make, &mut generator, &mut random);
        let given = readings(&mut random);
        let case = Case {
            seed: Some(settings.seed),
            number,
            limits,
            input: Input::Run(&rows, &given),
        };
        let room = Room {
            length: limits.store_numbers(),
            junk: random.bits() as u32,
        };
        layers.check_and_run(&case, &rows, &given, room);
        let called = whole.call(&case, &rows, &given, room.junk);
        let checked = roomscript::check(limits, &rows);
        case.equal(
            called.map(|called| called.terms),
            checked,
            "answer of call beside check",
        );
        as_with_belows(&case, &rows, &given);
    }
    for tally in [&layers.checked, &layers.ran] {
        tally.report_with(&settings, expected, rare);
    }
    layers.ran_unchecked.report(&settings, faults);
}

fn accepted(sets: Sets) {
    let make: Make = Generator::accepted_rows;
    compare("accepted", make, sets, &[0], &[], &[0]);
}

fn near_misses(sets: Sets) {
    let (author, rare) = near_misses_under(sets);
    let make: Make = Generator::near_miss_rows;
    compare("near misses", make, sets, &author, rare, &FAULTS);
}

fn wild(sets: Sets) {
    let author = author_under(sets);
    let make: Make = Generator::wild_rows;
    compare("wild rows", make, sets, &author, &[], &FAULTS);
}

mod accepted_scripts_with_sums_are_treated_alike {
    crate::under_each_roomy_set!(super::accepted);
}

mod near_misses_with_sums_are_treated_alike {
    crate::under_each_roomy_set!(super::near_misses);
}

mod wild_rows_with_sums_are_treated_alike {
    crate::under_each_roomy_set!(super::wild);
}
