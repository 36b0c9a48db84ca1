//! The store machine (LANGUAGE 4): term rows run on a store, unchecked.

use crate::foreign;
use crate::{Limits, Refusal};
use std::error::Error;
use std::fmt::{self, Display, Formatter};

/// What a run without a fault gives.
#[derive(Clone, Copy, Debug, PartialEq, Eq)]
pub struct Ran {
    /// The number that the outermost block gives.
    pub answer: i32,
    /// How many cells the run took.
    pub cells: u32,
}

/// A fault (LANGUAGE 5.6): its number and the term that was acting.
///
/// - 60: a location that is closed, given back or empty;
/// - 61: a value of the wrong kind, or an answer that is no number (term 0,
///   after closing);
/// - 62: a let on a row already open;
/// - 63: a cell given back twice.
#[derive(Clone, Copy, Debug, PartialEq, Eq)]
pub struct Fault {
    /// The number of the fault.
    pub number: u32,
    /// The term; for a block's drops and closings it is the block.
    pub term: u32,
}

/// Why an unchecked run gives no answer.
#[derive(Clone, Copy, Debug, PartialEq, Eq)]
pub enum Stop {
    /// Nothing ran, and the store is unchanged.
    Refused(Refusal),
    /// The run rules had no next step, and the store is as they left it.
    Fault(Fault),
}

impl Display for Stop {
    fn fmt(&self, to: &mut Formatter<'_>) -> fmt::Result {
        match self {
            Stop::Refused(refusal) => refusal.fmt(to),
            Stop::Fault(fault) => write!(to, "fault {} at {}", fault.number, fault.term),
        }
    }
}

impl Error for Stop {}

/// Runs term rows on `store` without a check (LANGUAGE 6.7).
///
/// It is for lessons and tests that show what goes wrong where a script runs
/// that [`check`](crate::check) refuses: the fault that it meets, and the store
/// that the fault leaves. It takes less time, since it checks nothing, and it
/// may meet a fault, so it is not for scripts that come from elsewhere. For
/// every other use there is [`run`](crate::run).
///
/// The store is that of [`run`](crate::run), and is first set to 0 here too.
/// Where the check accepts the rows, answer, cells and store are those of
/// [`run`](crate::run).
///
/// E3 and E8 (LANGUAGE 8.4), the same rows with the check and without:
///
/// ```
/// use roomscript::{read, run, run_unchecked, Fault, Limits, Refusal, Stop, NEWEST};
///
/// // let v0=box 7; let v1=move v0; copy *v0
/// let script = b"RCS\x00\x01\x0B\x03\x08\x00\x07\x01\x00\x00\x00\x07\x08\x01\x04\x00\x00\x03\x00\x01";
/// let mut rows = [0; Limits::BASE.row_numbers()];
/// let mut store = [0; Limits::BASE.store_numbers()];
/// read(Limits::BASE, NEWEST, script, &mut rows)?;
///
/// let checked = run(Limits::BASE, &rows, &[0; 8], &mut store);
/// assert_eq!(checked, Err(Refusal { number: 33, place: 6 }));
/// let unchecked = run_unchecked(Limits::BASE, &rows, &[0; 8], &mut store);
/// assert_eq!(unchecked, Err(Stop::Fault(Fault { number: 60, term: 6 })));
/// # Ok::<(), Refusal>(())
/// ```
///
/// # Stops
///
/// Refusals leave `store` unchanged. In this order:
/// - 74, 2, 3 and 4, at place 0, and 12 to 15 and 17 to 19, with the row, as
///   from [`run`](crate::run).
///
/// Faults 60 to 63 are met only by rows that the check does not accept; they
/// leave `store` as the run rules had it.
pub fn run_unchecked(
    limits: Limits,
    rows: &[u32],
    readings: &[i32],
    store: &mut [u32],
) -> Result<Ran, Stop> {
    foreign::run_unchecked(limits, rows, readings, store).outcome()
}
