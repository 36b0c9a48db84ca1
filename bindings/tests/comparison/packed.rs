//! Scripts of as many terms as there can be, packed from smaller ones: each of
//! those is a block with variables of its own.

use crate::common::case::{Case, Input};
use crate::common::settings::Settings;
use crate::common::tally::Tally;
use crate::common::terms::{block, boxed, number, reading, Row, Term};
use crate::layers::{Layers, Room, FAULTS};
use crate::whole::Whole;
use reference::random::Random;
use reference::{Generator, Limits as Set};
use roomscript::{Limits, FIELDS};

const LIMITS: Limits = Limits::LARGEST;

/// Parts of a script, and the set that each is made for: their share of the
/// variables, boxes and terms, and all levels but the outermost one.
const PARTS: u32 = 16;
const PART: Set = Set {
    terms: LIMITS.terms / PARTS - 1,
    variables: LIMITS.variables / PARTS,
    boxes: LIMITS.boxes / PARTS,
    levels: LIMITS.levels - 1,
};

/// The term of a part, its variables moved behind those of the parts before.
fn part(generator: &mut Generator, first: u32, damaged: bool) -> Term {
    let mut rows = Vec::new();
    match damaged {
        true => generator.wild_rows(&mut rows),
        false => generator.accepted_rows(&mut rows),
    }
    let rows = rows.chunks(FIELDS).map(|row| {
        let mut row: Row = row.try_into().expect("a whole row");
        match row[0] {
            0x03..=0x06 | 0x08 | 0x09 | 0x0C => row[1] += first,
            0x0A | 0x0D => {
                row[1] += first;
                row[3] += first;
            }
            _ => (),
        }
        row
    });
    rows.take_while(|row| row[0] != 0).collect()
}

/// The rows of a script of all terms. What the parts leave is filled with
/// boxes, so that each may be taken, and with blocks of numbers and readings.
fn script(generator: &mut Generator, random: &mut Random) -> Vec<u32> {
    // In half of the scripts a part that the check refuses most often.
    let damaged = random.below(2 * PARTS);
    let mut terms: Vec<Term> = (0..PARTS)
        .map(|at| part(generator, at * PART.variables, at == damaged))
        .collect();
    let boxes = terms.iter().flatten().filter(|row| row[0] == 0x07).count();
    let spare = (LIMITS.boxes as usize - boxes).saturating_sub(random.index(2));
    if spare > 0 {
        terms.push(block(&vec![boxed(reading(3)); spare]));
    }
    let used: usize = terms.iter().map(Vec::len).sum();
    // The outermost block, and the answer.
    let mut left = LIMITS.terms as usize - 2 - used;
    while left > 0 {
        let size = left.min(random.between(21, 256) as usize);
        terms.insert(random.index(terms.len()), filler(size));
        left -= size;
    }
    terms.push(number(7));
    block(&terms).concat()
}

/// A term of so many terms.
fn filler(size: usize) -> Term {
    let leaf = |at: usize| match at % 2 {
        0 => number(at as i32),
        _ => reading(at as u32 % 8),
    };
    match size {
        1 => leaf(0),
        _ => block(&(1..size).map(leaf).collect::<Vec<Term>>()),
    }
}

#[test]
fn full_scripts_are_checked_and_run_alike() {
    let settings = Settings::from_environment().share(2);
    let mut layers = Layers::new("4096 terms, 4096/128/128/32");
    let mut whole = Whole::new();
    let mut called_all = Tally::new("call, 4096 terms, 4096/128/128/32");
    let mut generator = Generator::with_limits(settings.seed, PART);
    let mut random = Random::new(!settings.seed);
    for number in 0..settings.cases {
        let rows = script(&mut generator, &mut random);
        let given = generator.readings();
        let case = Case {
            seed: Some(settings.seed),
            number,
            limits: LIMITS,
            input: Input::Run(&rows, &given),
        };
        let room = Room {
            length: LIMITS.store_numbers(),
            junk: random.bits() as u32,
        };
        layers.check_and_run(&case, &rows, &given, room);
        let called = whole.call(&case, &rows, &given, room.junk);
        called_all.count(called);
    }
    let often: Vec<u32> = [0].into_iter().chain(30..=35).chain([37, 39, 40]).collect();
    for tally in [&layers.checked, &layers.ran, &called_all] {
        tally.report_with(&settings, &often, &[36, 38, 41, 42, 43]);
    }
    layers.ran_unchecked.report(&settings, &FAULTS);
    layers.reached.report(&settings);
}
