//! Room scripts: the proved functions behind safe ones. `LANGUAGE 6.2` cites a
//! paragraph of `docs/LANGUAGE.md`, which defines the language.
//!
//! A script is a run of bytes; term rows are the same script as numbers, five
//! `u32` per term: kind, then operands in byte order (a number as its 32
//! bits), unused fields 0, unused rows 0. Terms are numbered from 0 in byte
//! order. [`read`] goes from bytes to rows, [`judge_rows`] judges rows that
//! come from elsewhere, [`write()`] goes from rows to bytes, and [`length`]
//! tells beforehand how many these are.
//!
//! Scripts have a version. Version 1 has the kinds 1 to 11, and version 2 adds
//! two. Kind 12 is the choice on the number at a place: of the two blocks in it,
//! its branches, the first runs if the number is not 0, and otherwise the
//! second. Kind 13 is the sum of the numbers at two places, held to the ends of
//! the range of an `i32`. The bytes of a script tell its version, and its rows
//! do not: [`read`] answers it, and [`length`] and [`write()`] are told it. All
//! others that take rows take those of every version.
//!
//! [`run`] checks rows and runs them on a store, and [`call`] reads a script
//! and runs it so. They are the ways to run scripts: neither runs what the
//! check refuses, and so neither meets a fault. [`check`] judges rows as
//! [`run`] does, and runs nothing. [`run_unchecked`] runs rows whatever the
//! check says of them, for lessons and tests that show which faults come of
//! that.
//!
//! Each of them takes a set of limits first, and the lengths of rows and store
//! follow from it: [`Limits`]. [`Limits::BASE`] is the language's own set.
//!
//! Every function answers on every input, without a panic and without
//! allocation, and changes no memory but the slices that it is lent mutably.

#![deny(unsafe_code)]
#![deny(missing_docs)]

mod foreign;
mod form;
mod limits;
mod machine;
mod ownership;
mod refusal;
mod whole;

pub use form::{judge_rows, length, read, write, Script, NEWEST};
pub use limits::Limits;
pub use machine::{run_unchecked, Fault, Ran, Stop};
pub use ownership::check;
pub use refusal::Refusal;
pub use whole::{call, run, Called};

/// The most bytes of a script, under every set of limits.
pub const MAX_BYTES: usize = 32_768;
/// The fields of one term row: the kind and four operands.
pub const FIELDS: usize = 5;
/// The fields of one store row: state, value kind and payload.
pub const STORE_FIELDS: usize = 3;
/// The number of readings; every other number is refused with 4.
pub const READINGS_LEN: usize = 8;
