//! Scripts by hand in which every variable is in use: after the terms all are
//! named, so that each holder in scope bars (LANGUAGE 3.11, 3.12). Until when
//! variables are in use is in `last_uses`.

use crate::common::terms::*;
use crate::common::Answer;
use crate::hand::*;
use roomscript::{Limits, Refusal};

/// The terms, and after them a name of each variable.
fn all_named(terms: &[Term]) -> Vec<Term> {
    let names = (0..Limits::BASE.variables).map(|variable| copy((variable, 0)));
    terms.iter().cloned().chain(names).collect()
}

/// What the check answers of these terms while every variable is in use. What
/// it answers of the names after them does not count.
#[track_caller]
pub fn checks_in_use(terms: &[Term]) -> Answer {
    let count = block(terms).len() as u32;
    match checks_under(Limits::BASE, &all_named(terms)) {
        Err(refusal) if refusal.place < count => Err(refusal),
        _ => checks(terms),
    }
}

/// Whether the check accepts, without the number of terms.
#[track_caller]
pub fn accepts_in_use(terms: &[Term]) -> Result<(), Refusal> {
    checks_in_use(terms).map(|_| ())
}
