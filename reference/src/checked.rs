//! The run that checks first (LANGUAGE 6.6), out of check and machine.

use crate::form::Row;
use crate::limits::Limits;
use crate::machine::{judge_lent, run_judged, Ran};
use crate::ownership::check_judged;
use crate::refusal::Refusal;

/// Judges by 74, 2, 3, 4, then 12 to 19, then 30 to 43 as the check does, and
/// only then runs. Every refusal leaves the store unchanged, and there are no
/// others: what the check accepts meets none of 60 to 63 (LANGUAGE 7.4).
pub fn run(
    limits: Limits,
    rows: &[u32],
    readings: &[i32],
    store: &mut [u32],
) -> Result<Ran, Refusal> {
    // The form of the rows is judged here, once for check and machine.
    let rows = judge_lent(limits, rows, readings, store)?;
    check_judged(limits, rows)?;
    Ok(run_accepted(limits, rows, readings, store))
}

/// Runs rows that the check accepted. The machine looks for faults all the
/// same: one would be a mistake of this program, which must not pass for an
/// answer.
#[inline]
fn run_accepted(limits: Limits, rows: &[Row], readings: &[i32], store: &mut [u32]) -> Ran {
    match run_judged(limits, rows, readings, store) {
        Ok(ran) => ran,
        Err(fault) => wrongly_accepted(fault),
    }
}

#[cold]
fn wrongly_accepted(fault: Refusal) -> ! {
    let Refusal { number, place } = fault;
    panic!("check and machine differ: an accepted script met fault {number} at {place}")
}

#[cfg(test)]
mod tests {
    use super::*;
    use crate::form::*;
    use std::panic::{self, AssertUnwindSafe};

    /// E9, which the check refuses. The panic is not shown, since it is due.
    #[test]
    fn a_fault_is_not_hidden() {
        let rows = [
            [BLOCK, 3, 0, 0, 0],
            [LET, 0, 0, 0, 0],
            [BOX, 0, 0, 0, 0],
            [NUMBER, 1, 0, 0, 0],
            [LET, 1, 0, 0, 0],
            [COPY, 0, 0, 0, 0],
            [NUMBER, 0, 0, 0, 0],
        ];
        let mut store = [0; Limits::BASE.store_numbers()];
        let shown = panic::take_hook();
        panic::set_hook(Box::new(|_| {}));
        let run = AssertUnwindSafe(|| run_accepted(Limits::BASE, &rows, &[0; 8], &mut store));
        let panicked = panic::catch_unwind(run).expect_err("a fault");
        panic::set_hook(shown);
        let message = panicked.downcast_ref::<String>().expect("a message");
        assert!(message.ends_with("an accepted script met fault 63 at 0"));
    }
}
