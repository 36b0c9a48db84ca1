//! Seeded generators. One seed and one set of limits give one sequence of
//! scripts, rows and readings on every machine; the buffers lent to them are
//! reused.

mod author;
mod bytes;
mod choices;
mod edits;
mod last_uses;
mod limits;
mod operands;
mod ownership;
mod plan;
mod rows;
mod scripts;
mod shape;
mod small;
mod statements;
mod through_shared;
mod used_again;
mod versions;

use crate::form::Row;
use crate::limits::Limits;
use crate::random::Random;

pub use small::small_choices;

pub struct Generator {
    random: Random,
    /// What is made is made for calls with this set.
    limits: Limits,
    /// The terms of the script that is being made.
    terms: Vec<Row>,
}

impl Generator {
    /// Under the set of the program.
    pub fn new(seed: u64) -> Self {
        Self::with_limits(seed, Limits::BASE)
    }

    /// Under any set in the ranges. A script has two terms and two levels at
    /// least, so that with a set of one term or one level those that are
    /// called valid or accepted here are the smallest ones, beyond that set.
    pub fn with_limits(seed: u64, limits: Limits) -> Self {
        let mut generator = Generator {
            random: Random::new(seed),
            limits,
            terms: Vec::new(),
        };
        generator.set_limits(limits);
        generator
    }

    /// Goes on under another set in the ranges.
    pub fn set_limits(&mut self, limits: Limits) {
        assert!(limits.in_ranges(), "{limits:?}");
        self.limits = limits;
    }

    pub fn limits(&self) -> Limits {
        self.limits
    }
}
