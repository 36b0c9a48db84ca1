//! Inputs by hand and generated ones, with the reference program's line.

use crate::common::inputs;
use crate::common::settings::Settings;
use crate::executable::{printed, printed_in_pieces, prints, shown};
use reference::random::Random;
use reference::{roomcheck, Generator};
use std::collections::BTreeMap;
use std::io::{self, Write};
use std::time::Duration;

/// A program is started for each input, so that there are fewer of them.
const FEWER: u64 = 80;

/// The hand's lines and the reference program's, without the program itself.
#[test]
fn the_table_and_the_reference_program_agree() {
    for example in inputs::all() {
        assert_eq!(roomcheck(&example.input), example.line, "{}", example.name);
    }
}

#[test]
fn listed_examples_and_edges() {
    for example in inputs::all() {
        prints(&example.input, example.line);
    }
}

#[test]
fn inputs_of_every_length_around_the_readings() {
    let whole = &inputs::listed()[0].input;
    for length in 0..=whole.len() {
        let input = &whole[..length];
        if length < 32 {
            assert_eq!(roomcheck(input), "readings short");
        } else if length < whole.len() {
            assert_eq!(roomcheck(input), format!("refused 12 at {}", length - 32));
        }
        prints(input, &roomcheck(input));
    }
}

#[test]
fn very_long_inputs() {
    let whole = &inputs::listed()[0].input;
    for length in [
        32 + 4096,
        32 + 4097,
        32 + 32_767,
        32 + 32_768,
        32 + 32_769,
        65_536,
        65_537,
        100_000,
    ] {
        for fill in [0, 0x52, 0xFF] {
            let mut input = whole.clone();
            input.resize(length, fill);
            prints(&input, &roomcheck(&input));
            // Nothing of a script in it.
            let input = vec![fill; length];
            prints(&input, &roomcheck(&input));
        }
    }
    let mut input = whole.clone();
    input.resize(5_000_000, 0);
    prints(&input, "refused 1 at 0");
}

#[test]
fn an_input_that_comes_in_pieces() {
    let pause = Duration::from_millis(2);
    for example in inputs::all() {
        let sizes = match example.input.len() {
            0..=200 => [1, 7, 32],
            _ => [500, 1000, 4096],
        };
        for size in sizes {
            let printed = printed_in_pieces(&example.input, size, pause);
            assert_eq!(printed, format!("{}\n", example.line), "{}", example.name);
        }
    }
}

/// A line without what differs from one script to the next: `accepted`, a
/// refusal's number, or `readings`.
fn kind(line: &str) -> String {
    let words: Vec<&str> = line.split(' ').collect();
    match words[..] {
        ["refused", number, ..] => number.to_string(),
        _ => words[0].to_string(),
    }
}

/// Generated inputs, some of them longer than any script.
#[test]
fn generated_inputs_print_alike() {
    let settings = Settings::from_environment();
    let seed = settings.seed;
    let mut generator = Generator::new(seed);
    let mut random = Random::new(!seed);
    let mut counts: BTreeMap<String, u64> = BTreeMap::new();
    let mut input = Vec::new();
    for number in 0..settings.cases.div_ceil(FEWER) {
        generator.input(&mut input);
        if random.percent(2) {
            input.resize(random.index(100_000), 0);
        }
        let line = roomcheck(&input);
        *counts.entry(kind(&line)).or_default() += 1;
        let case = format!("seed {seed}, case {number}, {}", shown(&input));
        assert_eq!(printed(&input), format!("{line}\n"), "{case}");
    }
    let _ = writeln!(
        io::stdout(),
        "occurred in roomcheck (seed {seed}): {counts:?}"
    );
    for kind in [
        "accepted", "readings", "1", "11", "12", "13", "19", "31", "33", "39",
    ] {
        let occurred = counts.contains_key(kind) || !settings.whole;
        assert!(occurred, "{kind} did not occur");
    }
}
