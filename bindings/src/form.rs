//! The form of scripts (LANGUAGE 2): read, judged as rows, measured, and
//! written.

use crate::foreign;
use crate::{Limits, Refusal};

/// The newest version of scripts that there is; the oldest is 1.
pub const NEWEST: u32 = 2;

/// What reading tells of a script beside its rows.
#[derive(Clone, Copy, Debug, PartialEq, Eq)]
pub struct Script {
    /// The version of the script.
    pub version: u32,
    /// How many terms the script has.
    pub terms: u32,
}

/// Reads a script into term rows and answers its version and the number of
/// terms (LANGUAGE 6.2).
///
/// A script is the mark `RCS`, a 16-bit version, high byte first, and one term,
/// a block: at most 32,768 bytes, and within the limits of the set. After
/// success all of `rows` is written: the rows of the terms in byte order, then
/// rows of 0.
///
/// `newest` is the newest version that the caller knows: scripts of the
/// versions 1 to `newest` are read, as far as there are any. More than
/// [`NEWEST`] counts as that, and with 0 no script is read.
///
/// The sum of a reading and itself, held to the upper end when it runs. A
/// caller who knows version 1 alone does not read it:
///
/// ```
/// use roomscript::{read, run, Limits, Refusal, Script, NEWEST};
///
/// // let v0=reading 0; sum v0, v0
/// let script = b"RCS\x00\x02\x0B\x02\x08\x00\x02\x00\x0D\x00\x00\x00\x00";
/// let mut rows = [0; Limits::BASE.row_numbers()];
/// let early = read(Limits::BASE, 1, script, &mut rows);
/// assert_eq!(early, Err(Refusal { number: 11, place: 3 }));
/// let whole = read(Limits::BASE, NEWEST, script, &mut rows)?;
/// assert_eq!(whole, Script { version: 2, terms: 4 });
///
/// let mut store = [0; Limits::BASE.store_numbers()];
/// let ran = run(Limits::BASE, &rows, &[i32::MAX; 8], &mut store)?;
/// assert_eq!(ran.answer, i32::MAX);
/// # Ok::<(), Refusal>(())
/// ```
///
/// # Refusals
///
/// By the caller, at place 0, with `rows` unchanged, in this order:
/// - 74: the set is outside the ranges; 1: the script is over 32,768 bytes; 2:
///   `rows` is not [`Limits::row_numbers`] long.
///
/// By the bytes, with a byte offset, leaving all of `rows` 0:
/// - 10: the mark differs, at the first such byte; 11: a version that is not
///   known, at 3;
/// - 12: the script ended, at its length;
/// - 13: an unknown kind, one of a later version than the script's among them;
///   14: an operand out of range, a variable from the set's number on; 15: too
///   deep; 16: too many terms; 17: too many boxes; 18: the outermost term or a
///   branch of a choice is no block; all at the byte judged;
/// - 19: bytes are left, at the first of them.
///
/// They are met as the bytes come, the version once both its bytes are there;
/// at a kind byte the order is 12, 13, 18, 16, 15, 17.
pub fn read(
    limits: Limits,
    newest: u32,
    script: &[u8],
    rows: &mut [u32],
) -> Result<Script, Refusal> {
    foreign::read(limits, newest, script, rows).outcome()
}

/// Judges term rows and answers the number of terms (LANGUAGE 6.3).
///
/// Rows are accepted exactly where [`read`] could have made them, of a script
/// of whatever version. Nothing lent is changed.
///
/// # Refusals
///
/// By the caller, at place 0, in this order:
/// - 74: the set is outside the ranges; 2: `rows` is not
///   [`Limits::row_numbers`] long.
///
/// By the rows, with the row as the place:
/// - 12: kind 0 where a term is due, or the rows are used up (the place is
///   then the set's number of terms);
/// - 13: an unknown kind; 14: an operand out of range, a variable from the
///   set's number on, or an unused field that is not 0; 15: too deep; 17: too
///   many boxes; 18: the outermost term or a branch of a choice is no block;
/// - 19: a row after the end is not all 0, at the first such row.
///
/// The order is that of reading. 16 is never met: the rows are used up first.
pub fn judge_rows(limits: Limits, rows: &[u32]) -> Result<u32, Refusal> {
    foreign::judge_rows(limits, rows).outcome()
}

/// Answers the length in bytes of the script of a version that term rows
/// describe (LANGUAGE 6.4).
///
/// [`write()`] fills so many bytes: it takes an output of this length or a
/// greater one, and refuses a shorter one with 5. There are at most 32,768 of
/// them, and as many in each version that has the kinds of the rows. Nothing
/// lent is changed.
///
/// A script written to an output of its own length:
///
/// ```
/// use roomscript::{length, write, Limits, Refusal};
///
/// // A block of one term, `reading 7`.
/// let mut rows = [0; Limits::BASE.row_numbers()];
/// rows[..7].copy_from_slice(&[0x0B, 1, 0, 0, 0, 0x02, 7]);
/// let bytes = length(Limits::BASE, 1, &rows)?;
/// let mut script = vec![0; bytes as usize];
/// assert_eq!(write(Limits::BASE, 1, &rows, &mut script)?, bytes);
/// assert_eq!(script, b"RCS\x00\x01\x0B\x01\x02\x07");
///
/// // Version 1 has no sum.
/// rows[5] = 0x0D;
/// let sum = length(Limits::BASE, 1, &rows);
/// assert_eq!(sum, Err(Refusal { number: 13, place: 1 }));
/// # Ok::<(), Refusal>(())
/// ```
///
/// # Refusals
///
/// Those of [`write()`] without 5, in this order:
/// - 74: the set is outside the ranges, at place 0;
/// - 2: `rows` is not [`Limits::row_numbers`] long, at place 0;
/// - 11: there is no such version, at place 0;
/// - 12 to 15 and 17 to 19, with the row, as from [`judge_rows`], but that a
///   kind of a later version is 13.
pub fn length(limits: Limits, version: u32, rows: &[u32]) -> Result<u32, Refusal> {
    foreign::length(limits, version, rows).outcome()
}

/// Writes the script of a version that term rows describe and answers its
/// length in bytes (LANGUAGE 6.4).
///
/// After success the first bytes of `output` are the script, and reading them
/// gives `version` and `rows` back; bytes past the script stay unchanged. The
/// same rows in two versions differ in the bytes of the version alone. The
/// length can be asked for first, with [`length`].
///
/// # Refusals
///
/// Every refusal leaves `output` unchanged. In this order:
/// - 74: the set is outside the ranges, at place 0;
/// - 2: `rows` is not [`Limits::row_numbers`] long, at place 0;
/// - 11: there is no such version, at place 0;
/// - 12 to 15 and 17 to 19, with the row, as from [`judge_rows`], but that a
///   kind of a later version is 13;
/// - 5: `output` is shorter than the script, at place 0.
pub fn write(
    limits: Limits,
    version: u32,
    rows: &[u32],
    output: &mut [u8],
) -> Result<u32, Refusal> {
    foreign::write(limits, version, rows, output).outcome()
}
