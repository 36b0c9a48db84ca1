//! How often scripts of each version occur, and the kinds of version 2 among
//! their terms.

use crate::common::settings::Settings;
use crate::common::terms::version_of;
use roomscript::FIELDS;
use std::io::{self, Write};

/// Counts of scripts of version 1, of version 2 without its own kinds, and with
/// a sum and with a choice.
#[derive(Default)]
pub struct Versions {
    first: u64,
    second: u64,
    with_sums: u64,
    with_choices: u64,
}

impl Versions {
    /// Counts a script that is read or written in a version, by its rows.
    pub fn count(&mut self, version: u32, rows: &[u32]) {
        let has = |kind| u64::from(rows.chunks(FIELDS).any(|row| row[0] == kind));
        match (version, version_of(rows)) {
            (1, _) => self.first += 1,
            (_, 1) => self.second += 1,
            _ => {
                self.with_sums += has(0x0D);
                self.with_choices += has(0x0C);
            }
        }
    }

    /// Shows the counts, and fails where one of them never occurs in a run
    /// that is long enough.
    pub fn report(&self, settings: &Settings, name: &str) {
        let Versions {
            first,
            second,
            with_sums,
            with_choices,
        } = self;
        let _ = writeln!(
            io::stdout(),
            "occurred in {name}, by version (seed {}): 1: {first}, 2 without its own kinds: \
             {second}, with sums: {with_sums}, with choices: {with_choices}",
            settings.seed
        );
        let counts = [first, second, with_sums, with_choices];
        let each = counts.iter().all(|count| **count > 0);
        assert!(each || !settings.whole, "{name}: a version never occurs");
    }
}
