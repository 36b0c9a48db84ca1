//! The table of 8.8: what reading, the length, writing and the check make of
//! one script in several versions.

use crate::common::notation::rows_in;
use crate::common::terms::bytes_of;
use crate::document::{bytes, quoted, Document, Row, Table};
use crate::outcome::{Due, Outcome};
use crate::program::{Program, BOTH};
use roomscript::{Limits, Refusal, Script, MAX_BYTES};

/// How the table names the script and its rows.
const ROWS: &str = "the rows of S";

pub fn holds(document: &Document, table: &Table) {
    let (body, rows) = script(&document.paragraph(&table.paragraph).text());
    for row in table.rows() {
        for program in &BOTH {
            row_holds(row, program, &body, &rows);
        }
    }
}

/// The bytes that S stands for, and its rows under the language's own set.
fn script(text: &str) -> (String, Vec<u32>) {
    let told = text.split_once("*S* stands for the bytes ");
    let told = told.and_then(|(_, rest)| rest.split_once(": `"));
    let (body, rest) = told.expect("the bytes that S stands for");
    let notation = rest.split('`').next().expect("the script of S");
    let terms = rows_in(notation).unwrap_or_else(|wrong| panic!("{wrong}: {notation}"));
    assert_eq!(Some(bytes_of(&terms)[5..].to_vec()), bytes(body), "S");
    let mut rows = terms.concat();
    rows.resize(Limits::BASE.row_numbers(), 0);
    (body.to_owned(), rows)
}

/// Bytes in which S may stand for its own.
fn with_script(text: &str, body: &str) -> Option<Vec<u8>> {
    bytes(&text.replace('S', body))
}

fn row_holds(row: Row, program: &Program, body: &str, rows: &[u32]) {
    let given = row.cell("Given");
    let function = row.cell("Function");
    let (name, told) = function.split_once(", ").unwrap_or((function, ""));
    let number = told.rsplit(' ').next().and_then(|word| word.parse().ok());
    let shown = format!("{}: {}", program.name, row.shown());
    match (quoted(name), number) {
        (Some("read"), Some(newest)) if told.starts_with("newest known ") => {
            let script = with_script(given, body);
            let script = script.unwrap_or_else(|| panic!("no bytes: {shown}"));
            read_holds(row, program, newest, &script);
        }
        (Some("length"), Some(version)) if told.starts_with("version ") && given == ROWS => {
            let length = (program.length)(Limits::BASE, version, rows);
            let told = length.map_or_else(stopped, Due::Bytes);
            assert_eq!(told, due(row).due, "{shown}");
        }
        (Some("write"), Some(version)) if told.starts_with("version ") && given == ROWS => {
            write_holds(row, program, version, rows, body);
        }
        (Some("check"), None) if given == ROWS => {
            let checked = (program.check)(Limits::BASE, rows);
            let told = checked.map_or_else(stopped, Due::Terms);
            assert_eq!(told, due(row).due, "{shown}");
        }
        _ => panic!("no function on what is given: {shown}"),
    }
}

fn due(row: Row) -> Outcome {
    let outcome = Outcome::parse(row.cell("Outcome"));
    outcome.unwrap_or_else(|| panic!("no outcome: {}", row.shown()))
}

fn stopped(refusal: Refusal) -> Due {
    Due::Stop((refusal.number, refusal.place))
}

fn read_holds(row: Row, program: &Program, newest: u32, script: &[u8]) {
    let mut rows = vec![9; Limits::BASE.row_numbers()];
    let read = (program.read)(Limits::BASE, newest, script, &mut rows);
    let told = match read {
        Ok(Script { version, terms }) => Due::Read(version, terms),
        Err(refusal) => stopped(refusal),
    };
    let outcome = due(row);
    let shown = format!("{}: {}", program.name, row.shown());
    assert_eq!(told, outcome.due, "{shown}");
    for fact in &outcome.rows {
        assert!(fact.holds(Limits::BASE, &rows), "{rows:?}, {shown}");
    }
}

/// The outcome is the bytes that are written, or a refusal.
fn write_holds(row: Row, program: &Program, version: u32, rows: &[u32], body: &str) {
    let mut output = vec![9; MAX_BYTES];
    let shown = format!("{}: {}", program.name, row.shown());
    match (program.write)(Limits::BASE, version, rows, &mut output) {
        Ok(length) => {
            let due = with_script(row.cell("Outcome"), body);
            assert_eq!(Some(output[..length as usize].to_vec()), due, "{shown}");
        }
        Err(refusal) => assert_eq!(stopped(refusal), due(row).due, "{shown}"),
    }
}
