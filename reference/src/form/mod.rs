//! The form of scripts (LANGUAGE 2): bytes to term rows, term rows judged, term
//! rows back to bytes.

mod kind;
mod outline;
mod reader;
mod rows;
mod version;
mod writer;

use crate::limits::Limits;
use crate::refusal::{Refusal, ROWS_LENGTH};

pub use kind::*;
pub use reader::{read, Script};
pub(crate) use rows::judge_all;
pub use rows::judge_rows;
pub use version::NEWEST;
pub use writer::{length, write};

/// The longest script that is read, whatever the set of limits.
pub const MAX_BYTES: usize = 32_768;
/// Fields of one term row: the kind and four operands.
pub const FIELDS: usize = 5;

/// The mark and the version that begin every script of a version. The version
/// has 16 bits there.
#[inline]
pub const fn header(version: u32) -> [u8; 5] {
    [b'R', b'C', b'S', (version >> 8) as u8, version as u8]
}

/// What scripts of version 1 begin with.
pub const HEADER: [u8; 5] = header(1);

/// One term: its kind, then its operands, unused fields 0.
pub type Row = [u32; FIELDS];

/// The lent fields as whole rows, once the set and their length are right (74,
/// then 2).
#[inline]
pub(crate) fn lent_rows(limits: Limits, rows: &[u32]) -> Result<&[Row], Refusal> {
    limits.judge()?;
    if rows.len() != limits.row_numbers() {
        return Err(Refusal::by_caller(ROWS_LENGTH));
    }
    Ok(rows.as_chunks().0)
}
