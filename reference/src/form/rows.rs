//! Judging term rows that the reader did not make (LANGUAGE 5.12, 5.13, 6.3).

use super::kind::{is_in_range, ranges_of, LAYOUTS};
use super::outline::Outline;
use super::*;
use crate::limits::Limits;
use crate::refusal::*;

/// What the rows of a whole script are known to amount to.
#[derive(Clone, Copy)]
pub(crate) struct Judged {
    pub(crate) terms: usize,
    /// The length of the script that the rows write as.
    pub(crate) bytes: usize,
}

/// Judges term rows of any version by 74, 2, then 12 to 19, and answers the
/// number of terms.
/// Number 16 cannot occur: after as many rows as there may be terms the rows
/// are used up, which is 12.
pub fn judge_rows(limits: Limits, rows: &[u32]) -> Result<u32, Refusal> {
    let rows = lent_rows(limits, rows)?;
    judge_all(limits, NEWEST, rows).map(|judged| judged.terms as u32)
}

/// Judges rows whose number is right under a set that is in the ranges, by the
/// kinds of a version that there is. The newest has every kind.
pub(crate) fn judge_all(limits: Limits, version: u32, rows: &[Row]) -> Result<Judged, Refusal> {
    let mut outline = Outline::new(limits, version);
    let ranges = ranges_of(limits);
    let mut bytes = HEADER.len();
    loop {
        let place = outline.terms;
        let Some(row) = rows.get(place) else {
            return Err(Refusal::new(ENDED, place));
        };
        if row[0] == 0 {
            return Err(Refusal::new(ENDED, place));
        }
        outline
            .begin(row[0])
            .map_err(|number| Refusal::new(number, place))?;
        if !is_in_range(ranges, row) {
            return Err(Refusal::new(OPERAND, place));
        }
        bytes += LAYOUTS[row[0] as usize].bytes as usize;
        if outline.end(row) {
            break;
        }
    }
    unused_are_zero(rows, outline.terms)?;
    Ok(Judged {
        terms: outline.terms,
        bytes,
    })
}

/// The first row after the end that is not all 0 is refused with 19.
fn unused_are_zero(rows: &[Row], terms: usize) -> Result<(), Refusal> {
    let unused = &rows[terms..];
    // One pass without branches settles the usual case quickly.
    let bits = unused
        .as_flattened()
        .iter()
        .fold(0, |bits, field| bits | field);
    if bits == 0 {
        return Ok(());
    }
    let first = unused.iter().position(|row| *row != [0; FIELDS]);
    Err(Refusal::new(LEFT_OVER, terms + first.unwrap_or(0)))
}
