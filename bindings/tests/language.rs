//! The tables of LANGUAGE section 8, run from the document itself.
//!
//! Every row of every table there is read from `docs/LANGUAGE.md`: its script,
//! in the notation of 1.5, its function, set, readings and bytes, and the
//! outcome that it states. Both the library and the reference program are
//! asked. A table, a row or a part of one that is not understood fails, and so
//! do fewer rows than there were. Words after a colon in an outcome, and what
//! 8.2 and 8.3 say of types and values on the way, are not compared: no
//! function tells them.

#![forbid(unsafe_code)]

mod common;

#[path = "language/apart.rs"]
mod apart;
#[path = "language/document.rs"]
mod document;
#[path = "language/listed.rs"]
mod listed;
#[path = "language/notation.rs"]
mod notation;
#[path = "language/outcome.rs"]
mod outcome;
#[path = "language/program.rs"]
mod program;
#[path = "language/versions.rs"]
mod versions;

use document::Document;

/// The least number of rows in the tables of section 8. Raise it with every
/// addition.
const ROWS: usize = 155;

/// Every table of section 8 is of one of three forms, and each row holds.
#[test]
fn rows_of_the_tables() {
    let document = Document::read();
    let mut rows = 0;
    for table in document.tables("8") {
        rows += table.rows.len();
        if table.has("Term row") {
            apart::holds(&document, &table);
        } else if table.has("Given") {
            versions::holds(&document, &table);
        } else {
            listed::holds(&table);
        }
        document.rules_exist(&table);
    }
    assert!(rows >= ROWS, "{rows} rows, and at least {ROWS} are due");
}
