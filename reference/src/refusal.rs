//! What every layer answers when it does not accept its input.

/// The number of a refusal or fault (LANGUAGE 5.3 to 5.6) together with its
/// place (5.2): a byte offset while reading, a row or term number otherwise, 0
/// for the caller's own mistakes.
#[derive(Clone, Copy, Debug, PartialEq, Eq)]
pub struct Refusal {
    pub number: u32,
    pub place: u32,
}

impl Refusal {
    #[inline]
    pub(crate) fn new(number: u32, place: usize) -> Self {
        Refusal {
            number,
            place: place as u32,
        }
    }

    /// Refusals 1 to 5 and 74 always carry place 0, and so does 11 from `length`
    /// and `write`.
    #[inline]
    pub(crate) fn by_caller(number: u32) -> Self {
        Refusal { number, place: 0 }
    }
}

pub const SCRIPT_TOO_LONG: u32 = 1;
pub const ROWS_LENGTH: u32 = 2;
pub const STORE_LENGTH: u32 = 3;
pub const READINGS_LENGTH: u32 = 4;
pub const OUTPUT_SHORT: u32 = 5;
/// A set of limits outside the ranges. It comes before every other number.
pub const LIMITS: u32 = 74;

pub const MARK: u32 = 10;
pub const VERSION: u32 = 11;
pub const ENDED: u32 = 12;
pub const UNKNOWN_KIND: u32 = 13;
pub const OPERAND: u32 = 14;
pub const TOO_DEEP: u32 = 15;
pub const TOO_MANY_TERMS: u32 = 16;
pub const TOO_MANY_BOXES: u32 = 17;
pub const NO_BLOCK: u32 = 18;
pub const LEFT_OVER: u32 = 19;

pub const NUMBER_TAKEN: u32 = 30;
pub const OUT_OF_SCOPE: u32 = 31;
pub const CHAIN_SHORT: u32 = 32;
pub const MOVED_AWAY: u32 = 33;
pub const READING_BARRED: u32 = 34;
pub const WRITING_BARRED: u32 = 35;
pub const BEHIND_SHARED: u32 = 36;
pub const NOT_COPIED: u32 = 37;
pub const MOVE_BEHIND_BORROW: u32 = 38;
pub const OTHER_TYPE: u32 = 39;
pub const LIVES_TOO_SHORT: u32 = 40;
pub const NO_VALUE: u32 = 41;
pub const TOO_MANY_LINKS: u32 = 42;
pub const ANSWER_NO_NUMBER: u32 = 43;

pub const NOT_OPEN: u32 = 60;
pub const WRONG_KIND: u32 = 61;
pub const LET_ON_OPEN: u32 = 62;
pub const GIVEN_BACK_TWICE: u32 = 63;
