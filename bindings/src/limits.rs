//! The set of limits that every function takes first (LANGUAGE 2.8).

use crate::{FIELDS, STORE_FIELDS};

/// A set of limits. It says how large a script may be, and the lengths of the
/// term rows and of the store follow from it.
///
/// A set with one of the four outside its range is refused with 74 at place 0,
/// before every other number, and nothing lent is changed. A script accepted
/// under a set is accepted under each in the ranges that is nowhere smaller,
/// with the same terms, answer and cells (LANGUAGE 7.7).
///
/// ```
/// use roomscript::Limits;
///
/// const UNIT: Limits = Limits { terms: 200, variables: 70, boxes: 65, levels: 17 };
/// let rows = [0u32; UNIT.row_numbers()];
/// let store = [0u32; UNIT.store_numbers()];
/// assert_eq!((rows.len(), store.len()), (1000, 405));
/// ```
#[repr(C)]
#[derive(Clone, Copy, Debug, PartialEq, Eq)]
pub struct Limits {
    /// The most terms, 1 to 4,096.
    pub terms: u32,
    /// The variables, 1 to 128, numbered from 0. Their rows begin the store.
    pub variables: u32,
    /// The most box terms, 0 to 128, each of which takes a cell. The rows of
    /// the cells come after those of the variables.
    pub boxes: u32,
    /// The deepest level of a term, 1 to 32; the outermost block is on level 1.
    pub levels: u32,
}

impl Limits {
    /// The language's own set, which the program `roomcheck` hands in.
    pub const BASE: Limits = Limits {
        terms: 512,
        variables: 64,
        boxes: 64,
        levels: 16,
    };

    /// The end of each range.
    pub const LARGEST: Limits = Limits {
        terms: 4096,
        variables: 128,
        boxes: 128,
        levels: 32,
    };

    /// Whether each of the four is in its range. Only boxes may be 0.
    pub const fn in_ranges(self) -> bool {
        let least = self.terms >= 1 && self.variables >= 1 && self.levels >= 1;
        least
            && self.terms <= Self::LARGEST.terms
            && self.variables <= Self::LARGEST.variables
            && self.boxes <= Self::LARGEST.boxes
            && self.levels <= Self::LARGEST.levels
    }

    /// The length of the term rows, 5 numbers for each term. Every other
    /// length is refused with 2.
    pub const fn row_numbers(self) -> usize {
        self.terms as usize * FIELDS
    }

    /// The length of the store, 3 numbers for each variable and each cell.
    /// Every other length is refused with 3.
    pub const fn store_numbers(self) -> usize {
        (self.variables as usize + self.boxes as usize) * STORE_FIELDS
    }
}
