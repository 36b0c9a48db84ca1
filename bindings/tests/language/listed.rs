//! Tables with a script in each row. Where a table has no column for it, the
//! function is `run`, the set is the language's own, and the first reading is
//! once not 0 and once 0.

use crate::common::notation::rows_in;
use crate::common::terms::{bytes_of, Row as TermRow};
use crate::document::{bytes, numbers, quoted, Row, Table};
use crate::outcome::{At, Due, Outcome};
use crate::program::{Program, BOTH};
use roomscript::{Called, Limits, Stop, READINGS_LEN};
use std::fs;

const COLUMNS: [&str; 7] = [
    "", "Set", "Bytes", "Function", "Readings", "Outcome", "Rule",
];
/// Mark, version.
const LEAD: usize = 5;
/// The readings before the script in an input of the program.
const READINGS: usize = 4 * READINGS_LEN;

type Readings = [i32; READINGS_LEN];

/// What a row asks.
struct Asked {
    limits: Limits,
    terms: Vec<TermRow>,
    /// As many as the set says.
    rows: Vec<u32>,
    readings: [Readings; 2],
}

pub fn holds(table: &Table) {
    let scripts: Vec<_> = table
        .head
        .iter()
        .filter(|name| !COLUMNS.contains(&&name[..]))
        .collect();
    let [script] = scripts[..] else {
        panic!("LANGUAGE {}: columns {:?}", table.paragraph, table.head);
    };
    let before = before(script).unwrap_or_else(|| panic!("LANGUAGE {}: {script}", table.paragraph));
    for row in table.rows() {
        let cell = quoted(row.cell(script));
        let cell = cell.unwrap_or_else(|| panic!("one script is due: {}", row.shown()));
        row_holds(row, &format!("{before}{cell}"));
    }
}

/// The head of a column of scripts, and what stands before each of them.
fn before(head: &str) -> Option<&str> {
    match head.strip_prefix("Script after ") {
        Some(before) => quoted(before),
        None => (head == "Script").then_some(""),
    }
}

fn row_holds(row: Row, script: &str) {
    let terms = rows_in(script).unwrap_or_else(|wrong| panic!("{wrong}: {}", row.shown()));
    let limits = row.find("Set").map_or(Limits::BASE, |cell| set(cell, row));
    let mut rows = terms.concat();
    rows.resize(limits.row_numbers().max(rows.len()), 0);
    rows.truncate(limits.row_numbers());
    let readings = readings(row);
    bytes_hold(row, &terms);
    example_holds(row, &terms);
    let asked = Asked {
        limits,
        terms,
        rows,
        readings,
    };
    let outcome = Outcome::parse(row.cell("Outcome"));
    let outcome = outcome.unwrap_or_else(|| panic!("no outcome: {}", row.shown()));
    for program in &BOTH {
        outcome_holds(row, program, &asked, &outcome);
    }
}

fn set(cell: &str, row: Row) -> Limits {
    let four: Option<Vec<u32>> = cell.split('/').map(|one| one.parse().ok()).collect();
    let Some(&[terms, variables, boxes, levels]) = four.as_deref() else {
        panic!("no set: {}", row.shown());
    };
    Limits {
        terms,
        variables,
        boxes,
        levels,
    }
}

/// Both readings, which are the same where the row tells them.
fn readings(row: Row) -> [Readings; 2] {
    let with = |first: &[i32]| {
        let mut readings = [0; READINGS_LEN];
        readings[..first.len()].copy_from_slice(first);
        readings
    };
    match row.find("Readings") {
        None => [with(&[1]), with(&[])],
        Some("") => [with(&[]); 2],
        Some(cell) => {
            let told = numbers(cell).unwrap_or_else(|| panic!("no readings: {}", row.shown()));
            [with(&told); 2]
        }
    }
}

/// The bytes that the row tells, if it does, are those of the script.
fn bytes_hold(row: Row, terms: &[TermRow]) {
    if let Some(cell) = row.find("Bytes") {
        let told = bytes(cell).unwrap_or_else(|| panic!("no bytes: {}", row.shown()));
        assert_eq!(bytes_of(terms)[LEAD..], told, "{}", row.shown());
    }
}

/// The script of a row with a name is that of the example of this name.
fn example_holds(row: Row, terms: &[TermRow]) {
    let name = row.find("").unwrap_or_default();
    if !name.is_empty() {
        let folder = concat!(env!("CARGO_MANIFEST_DIR"), "/../examples");
        let path = format!("{folder}/{}.input", name.to_lowercase());
        let input = fs::read(&path).unwrap_or_else(|error| panic!("{path}: {error}"));
        assert_eq!(bytes_of(terms), input[READINGS..], "{}", row.shown());
    }
}

fn outcome_holds(row: Row, program: &Program, asked: &Asked, outcome: &Outcome) {
    for (nth, readings) in asked.readings.iter().enumerate() {
        let (ended, store) = match row.find("Function").map(quoted) {
            None | Some(Some("run")) => checked(program, asked, readings),
            Some(Some("call")) => called(program, asked, readings),
            Some(Some("run_unchecked")) => unchecked(program, asked, readings),
            _ => panic!("no function: {}", row.shown()),
        };
        let shown = format!("{}: {ended:?}, {}", program.name, row.shown());
        assert!(is_due(outcome.due, ended, nth), "{shown}");
        for fact in &outcome.rows {
            assert!(fact.holds(asked.limits, &store), "{store:?}, {shown}");
        }
    }
}

/// An answer, and the store that is left. Terms are 0 where the function does
/// not tell them.
type Left = (Result<Called, At>, Vec<u32>);

fn store(asked: &Asked) -> Vec<u32> {
    vec![9; asked.limits.store_numbers()]
}

/// The check and the run of the rows, which must agree, and agree with a call.
fn checked(program: &Program, asked: &Asked, readings: &Readings) -> Left {
    let mut left = store(asked);
    let checked = (program.check)(asked.limits, &asked.rows);
    let ran = (program.run)(asked.limits, &asked.rows, readings, &mut left);
    let ended = checked.and_then(|terms| {
        let ran = ran?;
        Ok(Called {
            answer: ran.answer,
            terms,
            cells: ran.cells,
        })
    });
    assert_eq!(ended.err(), ran.err(), "check and run");
    let ended = ended.map_err(|refusal| (refusal.number, refusal.place));
    assert_eq!(called(program, asked, readings).0, ended, "run and call");
    (ended, left)
}

fn called(program: &Program, asked: &Asked, readings: &Readings) -> Left {
    let mut left = store(asked);
    let mut rows = vec![9; asked.limits.row_numbers()];
    let script = bytes_of(&asked.terms);
    let ended = (program.call)(asked.limits, &script, readings, &mut rows, &mut left);
    (
        ended.map_err(|refusal| (refusal.number, refusal.place)),
        left,
    )
}

fn unchecked(program: &Program, asked: &Asked, readings: &Readings) -> Left {
    let mut left = store(asked);
    let ran = (program.run_unchecked)(asked.limits, &asked.rows, readings, &mut left);
    let ended = ran.map(|ran| Called {
        answer: ran.answer,
        terms: 0,
        cells: ran.cells,
    });
    let ended = ended.map_err(|stop| match stop {
        Stop::Refused(refusal) => (refusal.number, refusal.place),
        Stop::Fault(fault) => (fault.number, fault.term),
    });
    (ended, left)
}

/// Whether this is what the row says, with the first or the second readings.
fn is_due(due: Due, ended: Result<Called, At>, nth: usize) -> bool {
    match (due, ended) {
        (Due::Stop(at), ended) => ended == Err(at),
        (Due::Called(due), Ok(called)) => called == due,
        (Due::Answers(due), Ok(called)) => called.terms > 0 && called.answer == due[nth],
        (Due::Terms(due), Ok(called)) => called.terms == due,
        (Due::Answer(due), Ok(called)) => called.terms == 0 && called.answer == due,
        _ => false,
    }
}
