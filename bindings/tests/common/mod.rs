//! What the test programs share. Each of them uses only a part.

#![allow(dead_code)]

pub mod case;
pub mod due;
pub mod examples;
pub mod guarded;
pub mod inputs;
pub mod notation;
pub mod sets;
pub mod settings;
pub mod store;
pub mod tally;
pub mod terms;

use roomscript::{Fault, Limits, Ran, Refusal, Script, Stop};

pub type Answer = Result<u32, Refusal>;
pub type ReadAnswer = Result<Script, Refusal>;
pub type RunAnswer = Result<Ran, Refusal>;
pub type UncheckedAnswer = Result<Ran, Stop>;

/// A function that runs rows, checked or not, of either program.
pub type Run<E> = fn(Limits, &[u32], &[i32], &mut [u32]) -> Result<Ran, E>;

pub fn refused<T>(number: u32, place: u32) -> Result<T, Refusal> {
    Err(Refusal { number, place })
}

/// What reading answers.
pub fn read_as(version: u32, terms: u32) -> ReadAnswer {
    Ok(Script { version, terms })
}

/// An answer of either run.
pub fn ran<E>(answer: i32, cells: u32) -> Result<Ran, E> {
    Ok(Ran { answer, cells })
}

pub fn fault(number: u32, term: u32) -> UncheckedAnswer {
    Err(Stop::Fault(Fault { number, term }))
}
