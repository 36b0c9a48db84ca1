//! Runs that check first: of term rows, and of a script, which is read before.

use crate::foreign;
use crate::{Limits, Ran, Refusal};

/// Checks term rows, runs them on `store` and answers the number that they give
/// and how many cells they took (LANGUAGE 6.6).
///
/// The store is rows of state, value kind and payload, first those of the
/// set's variables and then those of its cells, as many as boxes: the row of
/// cell c is the number of variables plus c (LANGUAGE 4.1). States: 0 closed,
/// 1 open, 2 given back (4.2). Value kinds: 0 empty, 1 a number, 2 the owner
/// of a cell, 3 a reference to a row (4.3). A run first sets all of it to 0,
/// whatever it held.
///
/// Only rows that [`check`](crate::check) accepts run. They meet no fault,
/// whichever branches they take, take a cell for every box term that runs and
/// give each back: afterwards `store` is all 0 but the cells taken, which are 2,
/// 0, 0 (LANGUAGE 7.4).
///
/// # Refusals
///
/// Every refusal leaves `store` unchanged. By the caller, at place 0, in this
/// order:
/// - 74: the set is outside the ranges; 2: `rows` is not
///   [`Limits::row_numbers`] long; 3: `store` is not [`Limits::store_numbers`]
///   long; 4: `readings` is not 8 long.
///
/// Then by the rows, with the row:
/// - 12 to 15 and 17 to 19, as from [`judge_rows`](crate::judge_rows).
///
/// Then by the author, with the term:
/// - 30 to 43, as from [`check`](crate::check).
pub fn run(
    limits: Limits,
    rows: &[u32],
    readings: &[i32],
    store: &mut [u32],
) -> Result<Ran, Refusal> {
    foreign::run(limits, rows, readings, store).outcome()
}

/// What an accepted script gives.
#[derive(Clone, Copy, Debug, PartialEq, Eq)]
pub struct Called {
    /// The number that the script gives.
    pub answer: i32,
    /// How many terms the script has.
    pub terms: u32,
    /// How many cells the run took.
    pub cells: u32,
}

/// Reads a script into `rows` and then runs it on `store` (LANGUAGE 6.8).
///
/// It reads every version that there is. Where all lengths are right it answers
/// as [`read`](crate::read) and then [`run`] do, and leaves `rows` and `store`
/// as they do; the lengths of `store` and `readings` are judged before the
/// bytes. So it checks before it runs, and meets no fault. After success `rows`
/// holds the script, and `store` is all 0 but the cells taken, which are 2, 0,
/// 0.
///
/// # Refusals
///
/// By the caller, at place 0, with nothing lent changed, in this order:
/// - 74: the set is outside the ranges; 1: the script is over 32,768 bytes; 2:
///   `rows` is not [`Limits::row_numbers`] long; 3: `store` is not
///   [`Limits::store_numbers`] long; 4: `readings` is not 8 long.
///
/// By the bytes, with a byte offset, leaving all of `rows` 0 and `store`
/// unchanged:
/// - 10 to 19, as from [`read`](crate::read) with [`NEWEST`](crate::NEWEST).
///
/// By the author, with the term, where `rows` holds the script and `store` is
/// unchanged:
/// - 30 to 43, as from [`check`](crate::check).
pub fn call(
    limits: Limits,
    script: &[u8],
    readings: &[i32],
    rows: &mut [u32],
    store: &mut [u32],
) -> Result<Called, Refusal> {
    foreign::call(limits, script, readings, rows, store).outcome()
}
