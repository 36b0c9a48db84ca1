//! Scripts of one kind read, judged, written, checked, run and called by both
//! programs, with readings of which many are 0 and with others.

use crate::choices::two_readings;
use crate::common::case::{Case, Input};
use crate::common::settings::Settings;
use crate::layers::{Layers, Room};
use crate::sets::Sets;
use crate::whole::Whole;
use reference::random::Random;
use reference::Generator;
use roomscript::Limits;

pub type Make = fn(&mut Generator, &mut Vec<u32>);

/// The scripts of a comparison: what they are called, what makes them, under
/// which sets, and how many there are.
pub struct Scripts<'a> {
    pub name: &'a str,
    pub make: Make,
    pub sets: Sets,
    pub settings: Settings,
}

/// Both programs are given each script with either readings, and its bytes with
/// the last. The numbers that must occur are expected, those that may are rare.
pub fn compare(
    scripts: Scripts,
    (expected, rare): (&[u32], &[u32]),
    mut each: impl FnMut(Limits, &[u32]),
) -> Layers {
    let Scripts { sets, settings, .. } = scripts;
    let mut layers = Layers::new(&format!("{}, {}", scripts.name, sets.name()));
    let mut whole = Whole::new();
    let mut generator = Generator::new(settings.seed);
    let mut random = Random::new(!settings.seed);
    let mut rows = Vec::new();
    for number in 0..settings.cases {
        let limits = sets.next(&mut generator);
        (scripts.make)(&mut generator, &mut rows);
        let readings = two_readings(&mut random);
        let case = Case {
            seed: Some(settings.seed),
            number,
            limits,
            input: Input::Run(&rows, &readings[1]),
        };
        let room = Room {
            length: limits.store_numbers(),
            junk: random.bits() as u32,
        };
        for given in &readings {
            layers.check_and_run(&case, &rows, given, room);
        }
        let called = whole.call(&case, &rows, &readings[1], room.junk);
        let called = called.map(|called| called.terms);
        let checked = roomscript::check(limits, &rows);
        case.equal(called, checked, "answer of call beside check");
        each(limits, &rows);
    }
    for tally in [&layers.checked, &layers.ran] {
        tally.report_with(&settings, expected, rare);
    }
    layers
}
