//! The ownership check (LANGUAGE 3) of term rows.

use crate::foreign;
use crate::{Limits, Refusal};

/// Judges term rows by the ownership rules and answers the number of terms
/// (LANGUAGE 6.5).
///
/// A script is accepted where its rows are of the right form and the rules
/// refuse no term of it. It then runs without a fault, whatever the readings.
/// Nothing lent is changed. [`run`](crate::run) checks by itself.
///
/// # Refusals
///
/// - 74: the set is outside the ranges, at place 0;
/// - 2: `rows` is not [`Limits::row_numbers`] long, at place 0;
/// - 12 to 15 and 17 to 19, with the row, as from
///   [`judge_rows`](crate::judge_rows).
///
/// By the author, with the term (LANGUAGE 5.5):
/// - 30: the number of a let is taken;
/// - 31: the root of a place is not in scope; 32: its chain is not long
///   enough; 33: something is moved away on the path or of the value;
/// - 34: reading the root is barred by an exclusive borrow; 35: writing it is
///   barred by a borrow; only a borrow that a variable in use holds bars (3.34);
/// - 36: a shared link is passed where only box and exclusive links may be;
/// - 37: a copy of neither a number nor a shared borrow; 38: a move passes a
///   borrow link;
/// - 39: other link kinds than the assigned place has, no number in a below, a
///   sum or a choice, or other link kinds in one branch of a choice than in the
///   other;
/// - 40: a borrowed root does not live in the block of a variable that may be
///   finally written or in one around it, or lives in the block that ends;
/// - 41: no value where one is needed; 42: more than 8 links;
/// - 43: the answer is no number, at term 0.
///
/// Terms are judged in the order of a run, and of a choice both branches
/// (LANGUAGE 3.1). A term whose inner term is refused is refused with the inner
/// number and term.
///
/// A box is moved away in one branch of a choice, and so counts as moved away
/// after it, whichever branch would run:
///
/// ```
/// use roomscript::{check, read, Limits, Refusal, NEWEST};
///
/// // let v0=reading 0; let v1=box 1; choice v0 {move v1; 0} {0}; copy *v1
/// let script = b"RCS\x00\x02\x0B\x04\x08\x00\x02\x00\x08\x01\x07\x01\x00\x00\x00\x01\
///     \x0C\x00\x00\x0B\x02\x04\x01\x00\x01\x00\x00\x00\x00\
///     \x0B\x01\x01\x00\x00\x00\x00\x03\x01\x01";
/// let mut rows = [0; Limits::BASE.row_numbers()];
/// read(Limits::BASE, NEWEST, script, &mut rows)?;
/// let checked = check(Limits::BASE, &rows);
/// assert_eq!(checked, Err(Refusal { number: 33, place: 12 }));
/// # Ok::<(), Refusal>(())
/// ```
pub fn check(limits: Limits, rows: &[u32]) -> Result<u32, Refusal> {
    foreign::check(limits, rows).outcome()
}
