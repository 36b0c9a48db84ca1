//! What every function answers where it does not accept its input.

use std::error::Error;
use std::fmt::{self, Display, Formatter};

/// A refusal: its number (LANGUAGE 5.3 to 5.5) and its place (5.2).
///
/// Refusals 1 to 5 and 74 are the caller's, with place 0 and no lent memory
/// changed: 74 is given before every other number, of 1 to 4 the lowest, and 5,
/// which writing alone gives, after the rows. Refusals 10 to 19 are about the
/// form of the script; their place is a byte offset from reading and a row from
/// rows; but 11 from `length` and `write` is the caller's, with place 0, after
/// 74 and 2 and before the rows. Refusals 30 to 43 are the author's; their
/// place is the term.
#[derive(Clone, Copy, Debug, PartialEq, Eq)]
pub struct Refusal {
    /// The number of the refusal.
    pub number: u32,
    /// Where it was met.
    pub place: u32,
}

impl Display for Refusal {
    fn fmt(&self, to: &mut Formatter<'_>) -> fmt::Result {
        write!(to, "refused {} at {}", self.number, self.place)
    }
}

impl Error for Refusal {}
