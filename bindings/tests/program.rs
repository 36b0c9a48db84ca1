//! The program `roomcheck` as it is run: inputs by hand, the reference
//! program's lines for generated ones, the files in `examples/`, and errors in
//! reading and writing.
//!
//! It is the executable `target/bin/roomcheck` at the repository root. Without
//! it these tests fail.

#![forbid(unsafe_code)]

mod common;
#[path = "program/executable.rs"]
mod executable;
#[path = "program/failures.rs"]
mod failures;
#[path = "program/files.rs"]
mod files;
#[path = "program/lines.rs"]
mod lines;
