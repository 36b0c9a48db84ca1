//! The two programs that are asked: the library and the reference program.

use crate::common::{due, Answer, ReadAnswer, Run};
use roomscript::{Called, Limits, Refusal, Stop};

pub struct Program {
    pub name: &'static str,
    pub read: fn(Limits, u32, &[u8], &mut [u32]) -> ReadAnswer,
    pub length: fn(Limits, u32, &[u32]) -> Answer,
    pub write: fn(Limits, u32, &[u32], &mut [u8]) -> Answer,
    pub check: fn(Limits, &[u32]) -> Answer,
    pub run: Run<Refusal>,
    pub run_unchecked: Run<Stop>,
    pub call: Call,
}

type Call = fn(Limits, &[u8], &[i32], &mut [u32], &mut [u32]) -> Result<Called, Refusal>;

pub const BOTH: [Program; 2] = [
    Program {
        name: "the library",
        read: roomscript::read,
        length: roomscript::length,
        write: roomscript::write,
        check: roomscript::check,
        run: roomscript::run,
        run_unchecked: roomscript::run_unchecked,
        call: roomscript::call,
    },
    Program {
        name: "the reference program",
        read: due::read,
        length: due::length,
        write: due::write,
        check: due::check,
        run: due::run,
        run_unchecked: due::run_unchecked,
        call: due::call,
    },
];
