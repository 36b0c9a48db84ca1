//! How often each refusal number was answered.

use super::settings::Settings;
use super::UncheckedAnswer;
use roomscript::{Refusal, Stop};
use std::collections::BTreeMap;
use std::io::{self, Write};

/// Number 0 stands for success.
pub struct Tally {
    operation: String,
    counts: BTreeMap<u32, u64>,
}

impl Tally {
    pub fn new(operation: impl Into<String>) -> Self {
        Tally {
            operation: operation.into(),
            counts: BTreeMap::new(),
        }
    }

    pub fn count<T>(&mut self, answer: Result<T, Refusal>) {
        self.count_number(answer.map_or_else(|refusal| refusal.number, |_| 0));
    }

    pub fn count_unchecked(&mut self, answer: UncheckedAnswer) {
        self.count_number(match answer {
            Ok(_) => 0,
            Err(Stop::Refused(refusal)) => refusal.number,
            Err(Stop::Fault(fault)) => fault.number,
        });
    }

    fn count_number(&mut self, number: u32) {
        *self.counts.entry(number).or_default() += 1;
    }

    /// Shows the counts, and fails unless exactly the expected numbers
    /// occurred. A short run may miss some of them.
    pub fn report(&self, settings: &Settings, expected: &[u32]) {
        self.report_with(settings, expected, &[]);
    }

    /// The same where some more numbers may occur, but are rare.
    pub fn report_with(&self, settings: &Settings, expected: &[u32], rare: &[u32]) {
        let name = format!("{} (seed {})", self.operation, settings.seed);
        let must: &[u32] = if settings.whole { expected } else { &[] };
        self.show(&name, must, &[expected, rare].concat());
    }

    /// The same for cases that are all that there are.
    pub fn report_all(&self, expected: &[u32]) {
        self.show(&self.operation, expected, expected);
    }

    /// Fails unless each number occurred so often, in a run that is long enough.
    pub fn often(&self, settings: &Settings, numbers: &[u32], least: u64) {
        for number in numbers {
            let count = self.counts.get(number).copied().unwrap_or(0);
            let name = &self.operation;
            let enough = count >= least || !settings.whole;
            assert!(enough, "{name}: {number} occurred {count} times");
        }
    }

    fn show(&self, name: &str, must: &[u32], may: &[u32]) {
        let shown: Vec<String> = self
            .counts
            .iter()
            .map(|(number, count)| match number {
                0 => format!("accepted: {count}"),
                _ => format!("{number}: {count}"),
            })
            .collect();
        // Written to the handle itself, since what is printed by a test that
        // passes is not shown.
        let _ = writeln!(io::stdout(), "occurred in {name}: {}", shown.join(", "));
        for number in self.counts.keys() {
            assert!(may.contains(number), "{name}: {number} occurred");
        }
        for number in must {
            let occurred = self.counts.contains_key(number);
            assert!(occurred, "{name}: {number} did not occur");
        }
    }
}
