//! Scripts of which each has a choice, most of them made so that its branches
//! leave variables differently: read, judged, written, checked, run and called
//! by both programs, with readings of which many are 0 and with others.

use crate::branches::{directly_in, nested, swapped};
use crate::common::case::{Case, Input};
use crate::common::settings::Settings;
use crate::common::Answer;
use crate::last_uses::decide;
use crate::layers::{Layers, Room, FAULTS};
use crate::sets::{author_under, Sets};
use crate::whole::Whole;
use reference::random::Random;
use reference::Generator;
use roomscript::{FIELDS, READINGS_LEN};
use std::io::{self, Write};

const CHOICE: u32 = 0x0C;

type Make = fn(&mut Generator, &mut Vec<u32>);

/// Makes rows anew until they have a choice.
fn make_with_choices(make: Make, generator: &mut Generator) -> Vec<u32> {
    let mut rows = Vec::new();
    loop {
        make(generator, &mut rows);
        if rows.chunks(FIELDS).any(|row| row[0] == CHOICE) {
            return rows;
        }
    }
}

/// Half of them 0, and then the others, so that a choice on a reading takes
/// either branch.
pub fn two_readings(random: &mut Random) -> [Vec<i32>; 2] {
    let value = |random: &mut Random| match random.below(3) {
        0 => random.pick(&[i32::MIN, -1, 1, i32::MAX]),
        _ => random.between(1, 400) as i32,
    };
    let of_zero: Vec<bool> = (0..READINGS_LEN).map(|_| random.percent(50)).collect();
    [true, false].map(|zero| {
        let each = of_zero.iter().map(|of| match *of == zero {
            true => 0,
            false => value(random),
        });
        each.collect()
    })
}

/// How many scripts have choices at each place.
#[derive(Default)]
struct Places {
    in_let: u64,
    in_box: u64,
    in_assign: u64,
    nested: u64,
}

impl Places {
    fn count(&mut self, rows: &[u32]) {
        self.in_let += u64::from(directly_in(0x08, rows));
        self.in_box += u64::from(directly_in(0x07, rows));
        self.in_assign += u64::from(directly_in(0x09, rows));
        self.nested += u64::from(nested(rows) > 1);
    }

    /// Shows the counts, and fails where one of them never occurs in a run that
    /// is long enough, under a set with levels for it.
    fn report(&self, settings: &Settings, name: &str, all: bool) {
        let Places {
            in_let,
            in_box,
            in_assign,
            nested,
        } = self;
        let _ = writeln!(
            io::stdout(),
            "occurred in {name} (seed {}): choices in lets: {in_let}, in boxes: {in_box}, in \
             assigns: {in_assign}, in choices: {nested}",
            settings.seed
        );
        let counts = [in_let, in_box, in_assign, nested];
        let each = counts.iter().all(|count| **count > 0);
        assert!(
            each || !all || !settings.whole,
            "{name}: a place never occurs"
        );
    }
}

/// Half of the cases that others have, or fewer: each is made at more cost, and
/// compared as two scripts.
fn settings(sets: Sets) -> Settings {
    let percent = match sets {
        Sets::BASE => 50,
        Sets::LARGEST => 5,
        _ => 15,
    };
    Settings::from_environment().share(percent)
}

/// The buffers of a comparison, and what was answered.
struct Compared {
    layers: Layers,
    whole: Whole,
    places: Places,
}

impl Compared {
    /// A script with each of the readings, and as bytes with the last.
    fn script(&mut self, case: &Case, rows: &[u32], readings: &[Vec<i32>], junk: u32) -> Answer {
        let room = Room {
            length: case.limits.store_numbers(),
            junk,
        };
        self.places.count(rows);
        for given in readings {
            self.layers.check_and_run(case, rows, given, room);
        }
        let last = readings.last().expect("readings");
        let called = self.whole.call(case, rows, last, junk);
        let called = called.map(|called| called.terms);
        let checked = roomscript::check(case.limits, rows);
        case.equal(called, checked, "answer of call beside check");
        checked
    }
}

fn compare(name: &str, make: Make, sets: Sets, (expected, rare): (&[u32], &[u32])) -> Layers {
    let settings = settings(sets);
    let name = format!("{name} with choices, {}", sets.name());
    let mut compared = Compared {
        layers: Layers::new(&name),
        whole: Whole::new(),
        places: Places::default(),
    };
    let mut generator = Generator::new(settings.seed);
    let mut random = Random::new(!settings.seed);
    for number in 0..settings.cases {
        let limits = sets.next(&mut generator);
        let rows = make_with_choices(make, &mut generator);
        let readings = two_readings(&mut random);
        let case = |rows| Case {
            seed: Some(settings.seed),
            number,
            limits,
            input: Input::Run(rows, &readings[1]),
        };
        let junk = random.bits() as u32;
        let checked = compared.script(&case(&rows), &rows, &readings, junk);
        // Only last uses tell which branch comes before the other: where they
        // do not decide, a script is accepted in the other order where it was.
        let other = swapped(&rows);
        let answer = compared.script(&case(&other), &other, &readings[..1], !junk);
        if !decide(limits, &rows) && !decide(limits, &other) {
            case(&other).equal(
                answer.is_ok(),
                checked.is_ok(),
                "check with the branches in the other order",
            );
        }
    }
    let Compared { layers, places, .. } = compared;
    for tally in [&layers.checked, &layers.ran] {
        tally.report_with(&settings, expected, rare);
    }
    places.report(&settings, &name, sets != Sets::SMALL);
    layers
}

fn joined(sets: Sets) {
    let make: Make = Generator::joined_rows;
    let layers = compare("joined", make, sets, (&[0], &[]));
    layers.ran_unchecked.report(&settings(sets), &[0]);
}

fn near_joined(sets: Sets) {
    let make: Make = Generator::near_joined_rows;
    let mut author = author_under(sets);
    let mut rare = Vec::new();
    if sets != Sets::BASE {
        // Too few cases for these.
        author.retain(|number| *number != 41 && *number != 42);
        rare = vec![41, 42];
    }
    let layers = compare("nearly joined", make, sets, (&author, &rare));
    layers.ran_unchecked.report(&settings(sets), &FAULTS);
}

mod joined_scripts_are_treated_alike {
    crate::under_each_roomy_set!(super::joined);
}

mod nearly_joined_scripts_are_treated_alike {
    crate::under_each_roomy_set!(super::near_joined);
}
