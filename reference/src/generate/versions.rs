//! Versions: of the terms that are made, of the scripts that they become, and
//! for the callers of reader and writer.

use super::Generator;
use crate::form::*;
use crate::random::Random;

/// Numbers that are no version. One byte alone of some would be one.
const NONE: [u32; 10] = [0, 3, 4, 255, 256, 257, 258, 512, 513, 0xFFFF];

/// Numbers that are no version and do not fit into a script.
const TOO_LARGE: [u32; 5] = [0x1_0000, 0x1_0001, 0x1_0002, 0x8000_0002, u32::MAX];

/// The version whose kinds are used for terms.
pub(super) fn of_terms(random: &mut Random) -> u32 {
    random.pick(&[1, 2, 2])
}

impl Generator {
    /// A version for the writer: mostly one that there is.
    pub fn version(&mut self) -> u32 {
        let random = &mut self.random;
        match random.below(20) {
            0 | 1 => random.pick(&NONE),
            2 => random.pick(&TOO_LARGE),
            3..=8 => 1,
            _ => 2,
        }
    }

    /// The newest version that a reader is to know: mostly one that there is,
    /// else none, or more than there are.
    pub fn newest(&mut self) -> u32 {
        let random = &mut self.random;
        match random.below(20) {
            0 => 0,
            1 | 2 => 3,
            3 => random.pick(&NONE),
            4 => random.pick(&TOO_LARGE),
            5..=9 => 1,
            _ => 2,
        }
    }

    /// A version that has all kinds of the terms.
    pub(super) fn version_of_terms(&mut self) -> u32 {
        if self.terms.iter().any(|row| matches!(row[0], CHOICE | SUM)) {
            2
        } else {
            self.random.pick(&[1, 2])
        }
    }

    /// Mostly such a version, now and then version 1 all the same, seldom a
    /// number that is no version.
    pub(super) fn any_version(&mut self) -> u32 {
        match self.random.below(50) {
            0 | 1 => self.random.pick(&NONE),
            2..=4 => 1,
            _ => self.version_of_terms(),
        }
    }
}
