//! What is due by the reference program, in this package's types.

use super::{Answer, ReadAnswer, RunAnswer, UncheckedAnswer};
use roomscript::{Called, Fault, Limits, Ran, Refusal, Script, Stop};
use roomscript::{MAX_BYTES, NEWEST, READINGS_LEN};

/// The same set in the reference program's type.
pub fn set(limits: Limits) -> reference::Limits {
    reference::Limits {
        terms: limits.terms,
        variables: limits.variables,
        boxes: limits.boxes,
        levels: limits.levels,
    }
}

/// The reference program's set in this package's type.
pub fn ours(limits: reference::Limits) -> Limits {
    Limits {
        terms: limits.terms,
        variables: limits.variables,
        boxes: limits.boxes,
        levels: limits.levels,
    }
}

fn refusal(refusal: reference::Refusal) -> Refusal {
    Refusal {
        number: refusal.number,
        place: refusal.place,
    }
}

pub fn read(limits: Limits, newest: u32, script: &[u8], rows: &mut [u32]) -> ReadAnswer {
    let answer = reference::read(set(limits), newest, script, rows);
    let read = answer.map_err(refusal)?;
    Ok(Script {
        version: read.version,
        terms: read.terms,
    })
}

pub fn judge_rows(limits: Limits, rows: &[u32]) -> Answer {
    reference::judge_rows(set(limits), rows).map_err(refusal)
}

pub fn length(limits: Limits, version: u32, rows: &[u32]) -> Answer {
    reference::length(set(limits), version, rows).map_err(refusal)
}

pub fn write(limits: Limits, version: u32, rows: &[u32], output: &mut [u8]) -> Answer {
    reference::write(set(limits), version, rows, output).map_err(refusal)
}

pub fn check(limits: Limits, rows: &[u32]) -> Answer {
    reference::check(set(limits), rows).map_err(refusal)
}

fn ran(ran: reference::Ran) -> Ran {
    Ran {
        answer: ran.answer,
        cells: ran.cells,
    }
}

pub fn run(limits: Limits, rows: &[u32], readings: &[i32], store: &mut [u32]) -> RunAnswer {
    let answer = reference::run(set(limits), rows, readings, store);
    answer.map(ran).map_err(refusal)
}

/// The reference program keeps faults and refusals in one type; they differ by
/// their numbers.
pub fn run_unchecked(
    limits: Limits,
    rows: &[u32],
    readings: &[i32],
    store: &mut [u32],
) -> UncheckedAnswer {
    let answer = reference::run_unchecked(set(limits), rows, readings, store);
    answer.map(ran).map_err(|stop| match stop.number {
        60..=63 => Stop::Fault(Fault {
            number: stop.number,
            term: stop.place,
        }),
        _ => Stop::Refused(refusal(stop)),
    })
}

/// A whole call from the reference program's read, of every version, and run.
/// It judges the set and the lengths itself, since reading alone knows nothing
/// of store and readings.
pub fn call(
    limits: Limits,
    script: &[u8],
    readings: &[i32],
    rows: &mut [u32],
    store: &mut [u32],
) -> Result<Called, Refusal> {
    let by_caller = |number| Err(Refusal { number, place: 0 });
    if !set(limits).in_ranges() {
        return by_caller(74);
    }
    if script.len() > MAX_BYTES {
        return by_caller(1);
    }
    if rows.len() != limits.row_numbers() {
        return by_caller(2);
    }
    if store.len() != limits.store_numbers() {
        return by_caller(3);
    }
    if readings.len() != READINGS_LEN {
        return by_caller(4);
    }
    let Script { terms, .. } = read(limits, NEWEST, script, rows)?;
    let Ran { answer, cells } = run(limits, rows, readings, store)?;
    Ok(Called {
        answer,
        terms,
        cells,
    })
}
