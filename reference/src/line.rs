//! The line that the program `roomcheck` prints for a standard input
//! (LANGUAGE 6.10, 6.11).

use crate::checked::run;
use crate::form::{read, NEWEST};
use crate::limits::Limits;
use crate::machine::{Ran, READINGS};
use crate::refusal::Refusal;

/// The bytes of the readings before the script.
const READING_BYTES: usize = 4 * READINGS;

/// The set of the program.
const LIMITS: Limits = Limits::BASE;

/// The line, without a line end.
pub fn roomcheck(input: &[u8]) -> String {
    let Some((readings, script)) = input.split_at_checked(READING_BYTES) else {
        return "readings short".to_string();
    };
    match accepted(readings, script) {
        Ok((terms, ran)) => format!("accepted {terms} call {} cells {}", ran.answer, ran.cells),
        Err(refusal) => format!("refused {} at {}", refusal.number, refusal.place),
    }
}

fn accepted(readings: &[u8], script: &[u8]) -> Result<(u32, Ran), Refusal> {
    let mut rows = [0; LIMITS.row_numbers()];
    let read = read(LIMITS, NEWEST, script, &mut rows)?;
    let mut given = [0; READINGS];
    for (reading, bytes) in given.iter_mut().zip(readings.as_chunks().0) {
        *reading = i32::from_be_bytes(*bytes);
    }
    let ran = run(LIMITS, &rows, &given, &mut [0; LIMITS.store_numbers()])?;
    Ok((read.terms, ran))
}
