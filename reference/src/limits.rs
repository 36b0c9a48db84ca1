//! The set of limits that is handed in with each call (LANGUAGE 2.8). What the
//! lent memory measures follows from it (2.9, 4.1).

use crate::refusal::{Refusal, LIMITS};

/// How large a script may be: its terms, the numbers of its variables, its
/// box terms, and the levels on which its terms are.
#[derive(Clone, Copy, Debug, PartialEq, Eq)]
pub struct Limits {
    pub terms: u32,
    /// Variables are numbered from 0 to one below this.
    pub variables: u32,
    pub boxes: u32,
    /// The outermost block is on level 1.
    pub levels: u32,
}

impl Limits {
    /// The set that `roomcheck` hands in.
    pub const BASE: Limits = Limits {
        terms: 512,
        variables: 64,
        boxes: 64,
        levels: 16,
    };

    /// The end of each range.
    pub const LARGEST: Limits = Limits {
        terms: 4096,
        variables: 128,
        boxes: 128,
        levels: 32,
    };

    /// Whether each of the four is in its range. Only boxes may be 0.
    #[inline]
    pub fn in_ranges(self) -> bool {
        (1..=Self::LARGEST.terms).contains(&self.terms)
            && (1..=Self::LARGEST.variables).contains(&self.variables)
            && self.boxes <= Self::LARGEST.boxes
            && (1..=Self::LARGEST.levels).contains(&self.levels)
    }

    /// The length of the term rows: five numbers for each term. Of a set
    /// outside the ranges it may be more than there can be, which is then the
    /// largest number instead.
    #[inline]
    pub const fn row_numbers(self) -> usize {
        (self.terms as usize).saturating_mul(5)
    }

    /// The length of the store: three numbers for each variable and each
    /// cell; else as `row_numbers`.
    #[inline]
    pub const fn store_numbers(self) -> usize {
        let rows = (self.variables as usize).saturating_add(self.boxes as usize);
        rows.saturating_mul(3)
    }

    /// A set outside the ranges is refused before everything else.
    #[inline]
    pub(crate) fn judge(self) -> Result<(), Refusal> {
        if self.in_ranges() {
            Ok(())
        } else {
            Err(Refusal::by_caller(LIMITS))
        }
    }
}
