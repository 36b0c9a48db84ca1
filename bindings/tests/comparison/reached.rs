//! How often scripts within a set reach its limits.

use crate::common::sets::fitting_rows;
use crate::common::settings::Settings;
use crate::common::terms::Row;
use roomscript::{Limits, FIELDS};
use std::io::{self, Write};

/// Counts of scripts with as many terms, variables, boxes and levels as there
/// may be.
pub struct Reached {
    name: String,
    counts: [u64; 4],
}

impl Reached {
    pub fn new(name: String) -> Self {
        let counts = [0; 4];
        Reached { name, counts }
    }

    /// Counts a script by its rows.
    pub fn count(&mut self, limits: Limits, rows: &[u32], terms: u32) {
        let used: Vec<Row> = rows[..terms as usize * FIELDS]
            .chunks(FIELDS)
            .map(|row| row.try_into().expect("a whole row"))
            .collect();
        let fitting = fitting_rows(&used);
        let reached = [
            fitting.terms == limits.terms,
            fitting.variables == limits.variables,
            fitting.boxes == limits.boxes,
            fitting.levels == limits.levels,
        ];
        for (count, reached) in self.counts.iter_mut().zip(reached) {
            *count += u64::from(reached);
        }
    }

    /// Shows the counts, and fails where a limit is never reached in a run
    /// that is long enough.
    pub fn report(&self, settings: &Settings) {
        let Reached { name, counts } = self;
        let [terms, variables, boxes, levels] = counts;
        let _ = writeln!(
            io::stdout(),
            "occurred in {name}, at the limit (seed {}): terms: {terms}, variables: {variables}, \
             boxes: {boxes}, levels: {levels}",
            settings.seed
        );
        let each = counts.iter().all(|count| *count > 0);
        assert!(each || !settings.whole, "{name}: a limit is never reached");
    }
}
