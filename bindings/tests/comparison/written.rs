//! Buffers that both programs write, one each.

use crate::common::case::Case;
use crate::common::guarded::Guarded;
use std::fmt::Display;

pub struct Written {
    pub ours: Guarded<u32>,
    pub other: Guarded<u32>,
}

impl Written {
    pub fn new() -> Self {
        Written {
            ours: Guarded::new(),
            other: Guarded::new(),
        }
    }

    /// Makes both buffers of the same length, with the same junk.
    pub fn fill(&mut self, length: usize, junk: u32) {
        self.ours.fill(length, junk);
        self.other.fill(length, junk);
    }

    /// Both programs left the same, and ours wrote nothing around it.
    pub fn compare(&self, case: &Case, what: impl Display) {
        case.same(self.ours.lent(), self.other.lent(), &what);
        case.guarded(&self.ours, &what);
    }
}
