//! The functions of the archive, as they are linked. All unsafe code is here.
//!
//! Nothing compares these declarations with the archive. They are kept equal
//! to `include/roomscript.h` by hand, and the tests go through both.

#![allow(unsafe_code)]

use crate::{Called, Fault, Limits, Ran, Refusal, Script, Stop};

// Each answer begins with `number` and `place`. Where `number` is 0, `place` is
// 0, and the others are the answer; where it is not, the two are those of the
// refusal or fault, and the others 0, but for `fault`.

#[repr(C)]
#[derive(Debug, PartialEq, Eq)]
pub(crate) struct ReadAnswer {
    number: u32,
    place: u64,
    version: u32,
    terms: u64,
}

#[repr(C)]
#[derive(Debug, PartialEq, Eq)]
pub(crate) struct TermsAnswer {
    number: u32,
    place: u64,
    terms: u64,
}

#[repr(C)]
#[derive(Debug, PartialEq, Eq)]
pub(crate) struct BytesAnswer {
    number: u32,
    place: u64,
    bytes: u64,
}

#[repr(C)]
#[derive(Debug, PartialEq, Eq)]
pub(crate) struct RunAnswer {
    number: u32,
    place: u64,
    answer: i32,
    cells: u64,
}

/// `fault` is 1 where `number` and `place` are those of a fault, and else 0.
#[repr(C)]
#[derive(Debug, PartialEq, Eq)]
pub(crate) struct UncheckedAnswer {
    number: u32,
    place: u64,
    fault: u32,
    answer: i32,
    cells: u64,
}

#[repr(C)]
#[derive(Debug, PartialEq, Eq)]
pub(crate) struct CallAnswer {
    number: u32,
    place: u64,
    terms: u64,
    answer: i32,
    cells: u64,
}

const _: () = assert!(size_of::<Limits>() == 16 && align_of::<Limits>() == 4);
const _: () = assert!(size_of::<ReadAnswer>() == 32 && align_of::<ReadAnswer>() == 8);
const _: () = assert!(size_of::<TermsAnswer>() == 24 && align_of::<TermsAnswer>() == 8);
const _: () = assert!(size_of::<BytesAnswer>() == 24 && align_of::<BytesAnswer>() == 8);
const _: () = assert!(size_of::<RunAnswer>() == 32 && align_of::<RunAnswer>() == 8);
const _: () = assert!(size_of::<UncheckedAnswer>() == 32 && align_of::<UncheckedAnswer>() == 8);
const _: () = assert!(size_of::<CallAnswer>() == 40 && align_of::<CallAnswer>() == 8);

// The lengths that follow from any set are computed in a usize: 64 bits, as in
// the archive.
const _: () = assert!(size_of::<usize>() == 8);

// A set is passed by value, a slice as a pointer and then a length.
extern "C" {
    fn roomscript_read(
        limits: Limits,
        newest: u32,
        script: *const u8,
        script_len: usize,
        rows: *mut u32,
        rows_len: usize,
    ) -> ReadAnswer;
    fn roomscript_judge_rows(limits: Limits, rows: *const u32, rows_len: usize) -> TermsAnswer;
    fn roomscript_length(
        limits: Limits,
        version: u32,
        rows: *const u32,
        rows_len: usize,
    ) -> BytesAnswer;
    fn roomscript_write(
        limits: Limits,
        version: u32,
        rows: *const u32,
        rows_len: usize,
        output: *mut u8,
        output_len: usize,
    ) -> BytesAnswer;
    fn roomscript_check(limits: Limits, rows: *const u32, rows_len: usize) -> TermsAnswer;
    fn roomscript_run(
        limits: Limits,
        rows: *const u32,
        rows_len: usize,
        readings: *const i32,
        readings_len: usize,
        store: *mut u32,
        store_len: usize,
    ) -> RunAnswer;
    fn roomscript_run_unchecked(
        limits: Limits,
        rows: *const u32,
        rows_len: usize,
        readings: *const i32,
        readings_len: usize,
        store: *mut u32,
        store_len: usize,
    ) -> UncheckedAnswer;
    fn roomscript_call(
        limits: Limits,
        script: *const u8,
        script_len: usize,
        readings: *const i32,
        readings_len: usize,
        rows: *mut u32,
        rows_len: usize,
        store: *mut u32,
        store_len: usize,
    ) -> CallAnswer;
}

/// Counts and places are small, so the conversion loses nothing; one that did
/// not fit would show as the largest number and not as some other small one.
fn small(value: u64) -> u32 {
    u32::try_from(value).unwrap_or(u32::MAX)
}

/// What an answer tells, or its refusal.
fn told<T>(number: u32, place: u64, answer: T) -> Result<T, Refusal> {
    match number {
        0 => Ok(answer),
        _ => Err(Refusal {
            number,
            place: small(place),
        }),
    }
}

impl ReadAnswer {
    pub(crate) fn outcome(self) -> Result<Script, Refusal> {
        let script = Script {
            version: self.version,
            terms: small(self.terms),
        };
        told(self.number, self.place, script)
    }
}

impl TermsAnswer {
    pub(crate) fn outcome(self) -> Result<u32, Refusal> {
        told(self.number, self.place, small(self.terms))
    }
}

impl BytesAnswer {
    pub(crate) fn outcome(self) -> Result<u32, Refusal> {
        told(self.number, self.place, small(self.bytes))
    }
}

impl RunAnswer {
    pub(crate) fn outcome(self) -> Result<Ran, Refusal> {
        let ran = Ran {
            answer: self.answer,
            cells: small(self.cells),
        };
        told(self.number, self.place, ran)
    }
}

impl UncheckedAnswer {
    pub(crate) fn outcome(self) -> Result<Ran, Stop> {
        let ran = Ran {
            answer: self.answer,
            cells: small(self.cells),
        };
        match self.fault {
            0 => told(self.number, self.place, ran).map_err(Stop::Refused),
            _ => Err(Stop::Fault(Fault {
                number: self.number,
                term: small(self.place),
            })),
        }
    }
}

impl CallAnswer {
    pub(crate) fn outcome(self) -> Result<Called, Refusal> {
        let called = Called {
            terms: small(self.terms),
            answer: self.answer,
            cells: small(self.cells),
        };
        told(self.number, self.place, called)
    }
}

// SAFETY, for every call below: each pointer and length come from one slice,
// so the memory is aligned and lent for the whole call, and a slice lent
// mutably overlaps no other. The functions ask for nothing more, keep no
// pointer, and stay within the lengths. An empty slice passes its own pointer,
// which is aligned and not null, and length 0.

pub(crate) fn read(limits: Limits, newest: u32, script: &[u8], rows: &mut [u32]) -> ReadAnswer {
    unsafe {
        roomscript_read(
            limits,
            newest,
            script.as_ptr(),
            script.len(),
            rows.as_mut_ptr(),
            rows.len(),
        )
    }
}

pub(crate) fn judge_rows(limits: Limits, rows: &[u32]) -> TermsAnswer {
    unsafe { roomscript_judge_rows(limits, rows.as_ptr(), rows.len()) }
}

pub(crate) fn length(limits: Limits, version: u32, rows: &[u32]) -> BytesAnswer {
    unsafe { roomscript_length(limits, version, rows.as_ptr(), rows.len()) }
}

pub(crate) fn write(limits: Limits, version: u32, rows: &[u32], output: &mut [u8]) -> BytesAnswer {
    unsafe {
        roomscript_write(
            limits,
            version,
            rows.as_ptr(),
            rows.len(),
            output.as_mut_ptr(),
            output.len(),
        )
    }
}

pub(crate) fn check(limits: Limits, rows: &[u32]) -> TermsAnswer {
    unsafe { roomscript_check(limits, rows.as_ptr(), rows.len()) }
}

pub(crate) fn run(limits: Limits, rows: &[u32], readings: &[i32], store: &mut [u32]) -> RunAnswer {
    unsafe {
        roomscript_run(
            limits,
            rows.as_ptr(),
            rows.len(),
            readings.as_ptr(),
            readings.len(),
            store.as_mut_ptr(),
            store.len(),
        )
    }
}

pub(crate) fn run_unchecked(
    limits: Limits,
    rows: &[u32],
    readings: &[i32],
    store: &mut [u32],
) -> UncheckedAnswer {
    unsafe {
        roomscript_run_unchecked(
            limits,
            rows.as_ptr(),
            rows.len(),
            readings.as_ptr(),
            readings.len(),
            store.as_mut_ptr(),
            store.len(),
        )
    }
}

pub(crate) fn call(
    limits: Limits,
    script: &[u8],
    readings: &[i32],
    rows: &mut [u32],
    store: &mut [u32],
) -> CallAnswer {
    unsafe {
        roomscript_call(
            limits,
            script.as_ptr(),
            script.len(),
            readings.as_ptr(),
            readings.len(),
            rows.as_mut_ptr(),
            rows.len(),
            store.as_mut_ptr(),
            store.len(),
        )
    }
}

#[cfg(test)]
mod tests;
