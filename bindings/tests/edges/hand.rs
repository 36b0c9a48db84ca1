//! Scripts by hand, checked, run and called with a look at all lent memory.
//! The functions asked are those of the test program around: the library's or,
//! as a second opinion on what is written by hand, the reference program's.
//!
//! A script is asked about under the language's own set, under the smallest
//! set that it is within and under the largest. The rules know no limits, so
//! that the answers are the same.

use crate::asked;
use crate::common::case::hex_rows;
use crate::common::guarded::Guarded;
use crate::common::sets::fitting;
use crate::common::store::{is_tidy, laid_out_again, tidy_or_unchanged};
use crate::common::terms::{rows_under, script_of, Term};
use crate::common::{Answer, Run, RunAnswer, UncheckedAnswer};
use roomscript::{Called, Limits, Ran, Refusal, Stop, READINGS_LEN};

pub type Readings = [i32; READINGS_LEN];

pub const READINGS: Readings = [185, 200, 0, -1, i32::MIN, i32::MAX, 7, 1];
/// The same with 0 for the first, by which a choice takes its other branch.
pub const FIRST_0: Readings = [0, 200, 0, -1, i32::MIN, i32::MAX, 7, 1];

/// Checks a script with these terms in its outermost block. The rows stay as
/// they are, and a run and a whole call answer alike, with either readings.
#[track_caller]
pub fn checks_under(limits: Limits, terms: &[Term]) -> Answer {
    let rows = rows_under(limits, terms);
    let shown = format!("{limits:?}, {}", hex_rows(&rows));
    let mut lent = Guarded::new();
    lent.hold(&rows, 11);
    let answer = asked::check(limits, lent.lent());
    assert_eq!(lent.lent(), rows, "{shown}");
    assert!(lent.guards_hold(), "{shown}");
    for readings in [READINGS, FIRST_0] {
        let due = runs_alike(limits, terms, &readings, answer);
        calls_alike(limits, terms, &readings, due);
    }
    answer
}

/// The answer under the three sets.
#[track_caller]
pub fn checks(terms: &[Term]) -> Answer {
    let answer = checks_under(Limits::BASE, terms);
    for limits in [fitting(terms), Limits::LARGEST] {
        assert_eq!(checks_under(limits, terms), answer, "{limits:?}");
    }
    answer
}

/// Whether the check accepts, without the number of terms.
#[track_caller]
pub fn accepts(terms: &[Term]) -> Result<(), Refusal> {
    checks(terms).map(|_| ())
}

/// A run of a script that the check answered: what is refused does not run, and
/// what is accepted gives the answer and leaves the store that it does
/// unchecked. Answers what a whole call must.
#[track_caller]
fn runs_alike(
    limits: Limits,
    terms: &[Term],
    readings: &Readings,
    checked: Answer,
) -> Result<Called, Refusal> {
    let ran = runs_with(limits, terms, readings);
    assert_eq!(ran.map(|_| ()), checked.map(|_| ()), "{limits:?}");
    let Ran { answer, cells } = ran?;
    let (unchecked, store) = runs_unchecked_with(limits, terms, readings);
    assert_eq!(unchecked, Ok(Ran { answer, cells }), "{limits:?}");
    assert!(is_tidy(limits, &store, cells), "{limits:?}");
    checked.map(|terms| Called {
        answer,
        terms,
        cells,
    })
}

/// A whole call on the bytes of a script gives what is due. The rows hold the
/// script also where it is refused.
#[track_caller]
fn calls_alike(limits: Limits, terms: &[Term], readings: &Readings, due: Result<Called, Refusal>) {
    let script = script_of(terms);
    let mut rows = Guarded::junk(limits.row_numbers(), 12);
    let mut store = Guarded::junk(limits.store_numbers(), 13);
    let called = asked::call(limits, &script, readings, rows.lent_mut(), store.lent_mut());
    let shown = format!("{limits:?}, {}", hex_rows(rows.lent()));
    assert!(rows.guards_hold() && store.guards_hold(), "{shown}");
    assert_eq!(rows.lent(), rows_under(limits, terms));
    assert_eq!(called, due, "{shown}");
    let cells = called.map(|called| called.cells);
    assert!(tidy_or_unchanged(limits, cells, &store), "{shown}");
}

/// Runs a script with these terms in its outermost block over junk, by one of
/// the two functions, and shows the store that it leaves.
#[track_caller]
fn runs_by<E>(
    run: Run<E>,
    limits: Limits,
    terms: &[Term],
    given: &Readings,
) -> (Result<Ran, E>, Guarded<u32>) {
    let rows = rows_under(limits, terms);
    let shown = format!("{limits:?}, {}", hex_rows(&rows));
    let mut lent = Guarded::new();
    lent.hold(&rows, 14);
    let mut readings = Guarded::new();
    readings.hold(given, 15);
    let mut store = Guarded::junk(limits.store_numbers(), 16);
    let answer = run(limits, lent.lent(), readings.lent(), store.lent_mut());
    assert_eq!(lent.lent(), rows, "{shown}");
    assert_eq!(readings.lent(), given, "{shown}");
    let guards = lent.guards_hold() && readings.guards_hold() && store.guards_hold();
    assert!(guards, "{shown}");
    (answer, store)
}

/// Runs a script. The store is tidy afterwards, or unchanged where the script
/// is refused.
#[track_caller]
pub fn runs_under(limits: Limits, terms: &[Term]) -> RunAnswer {
    runs_with(limits, terms, &READINGS)
}

/// The same with any readings.
#[track_caller]
pub fn runs_with(limits: Limits, terms: &[Term], readings: &Readings) -> RunAnswer {
    let (answer, store) = runs_by(asked::run, limits, terms, readings);
    let cells = answer.map(|ran| ran.cells);
    assert!(tidy_or_unchanged(limits, cells, &store), "{limits:?}");
    answer
}

/// The answer under the three sets.
#[track_caller]
pub fn runs(terms: &[Term]) -> RunAnswer {
    runs_given(terms, &READINGS)
}

/// The same with any readings.
#[track_caller]
pub fn runs_given(terms: &[Term], readings: &Readings) -> RunAnswer {
    let answer = runs_with(Limits::BASE, terms, readings);
    for limits in [fitting(terms), Limits::LARGEST] {
        let again = runs_with(limits, terms, readings);
        assert_eq!(again, answer, "{limits:?}");
    }
    answer
}

/// What an unchecked run answers, and the store that it leaves.
pub type Left = (UncheckedAnswer, Vec<u32>);

/// Runs a script unchecked, and shows the store that it leaves.
#[track_caller]
pub fn runs_unchecked_under(limits: Limits, terms: &[Term]) -> Left {
    runs_unchecked_with(limits, terms, &READINGS)
}

/// The same with any readings.
#[track_caller]
pub fn runs_unchecked_with(limits: Limits, terms: &[Term], readings: &Readings) -> Left {
    let (answer, store) = runs_by(asked::run_unchecked, limits, terms, readings);
    (answer, store.lent().to_vec())
}

/// The answer under the three sets, and the store under the language's own.
#[track_caller]
pub fn runs_unchecked(terms: &[Term]) -> Left {
    unchecked_given(terms, &READINGS)
}

/// The same with any readings.
#[track_caller]
pub fn unchecked_given(terms: &[Term], readings: &Readings) -> Left {
    let (answer, store) = runs_unchecked_with(Limits::BASE, terms, readings);
    for limits in [fitting(terms), Limits::LARGEST] {
        let again = laid_out_again(&store, Limits::BASE, limits);
        let left = runs_unchecked_with(limits, terms, readings);
        assert_eq!(left, (answer, again), "{limits:?}");
    }
    (answer, store)
}

/// An unchecked run's answer alone.
#[track_caller]
pub fn gives_unchecked(terms: &[Term]) -> UncheckedAnswer {
    runs_unchecked(terms).0
}

/// What both runs answer where neither begins, on a store of so many numbers,
/// which stay as they were.
#[track_caller]
pub fn both_refuse(limits: Limits, rows: &[u32], readings: &[i32], length: usize) -> RunAnswer {
    let mut store = Guarded::junk(length, 17);
    let answer = asked::run(limits, rows, readings, store.lent_mut());
    let unchecked = asked::run_unchecked(limits, rows, readings, store.lent_mut());
    assert_eq!(unchecked, answer.map_err(Stop::Refused), "{limits:?}");
    assert!(store.junk_from(0) && store.guards_hold(), "{limits:?}");
    answer
}
