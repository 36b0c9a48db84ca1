//! The answers written by hand in `edges`, asked of the reference program.
//!
//! The comparison takes the reference program's word for what is due. Here
//! that word is held to the hand's, on every edge.

#![forbid(unsafe_code)]

mod common;

/// What the modules below ask.
mod asked {
    pub use crate::common::due::{
        call, check, judge_rows, length, read, run, run_unchecked, write,
    };
}

#[path = "edges/assigns.rs"]
mod assigns;
#[path = "edges/borrows.rs"]
mod borrows;
#[path = "edges/calling.rs"]
mod calling;
#[path = "edges/cells.rs"]
mod cells;
#[path = "edges/checked.rs"]
mod checked;
#[path = "edges/choices.rs"]
mod choices;
#[path = "edges/choosing.rs"]
mod choosing;
#[path = "edges/examples.rs"]
mod examples;
#[path = "edges/extremes.rs"]
mod extremes;
#[path = "edges/faults.rs"]
mod faults;
#[path = "edges/finishing.rs"]
mod finishing;
#[path = "edges/full.rs"]
mod full;
#[path = "edges/given.rs"]
mod given;
#[path = "edges/hand.rs"]
mod hand;
#[path = "edges/in_use.rs"]
mod in_use;
#[path = "edges/joins.rs"]
mod joins;
#[path = "edges/larger.rs"]
mod larger;
#[path = "edges/last_uses.rs"]
mod last_uses;
#[path = "edges/length.rs"]
mod length;
#[path = "edges/length_refused.rs"]
mod length_refused;
#[path = "edges/lengths.rs"]
mod lengths;
#[path = "edges/likely_errors.rs"]
mod likely_errors;
#[path = "edges/limits.rs"]
mod limits;
#[path = "edges/listed.rs"]
mod listed;
#[path = "edges/listed_choices.rs"]
mod listed_choices;
#[path = "edges/listed_last_uses.rs"]
mod listed_last_uses;
#[path = "edges/listed_reborrows.rs"]
mod listed_reborrows;
#[path = "edges/places.rs"]
mod places;
#[path = "edges/ranges.rs"]
mod ranges;
#[path = "edges/reading.rs"]
mod reading;
#[path = "edges/rewriting.rs"]
mod rewriting;
#[path = "edges/round.rs"]
mod round;
#[path = "edges/rows.rs"]
mod rows;
#[path = "edges/running.rs"]
mod running;
#[path = "edges/scope.rs"]
mod scope;
#[path = "edges/stale.rs"]
mod stale;
#[path = "edges/sums.rs"]
mod sums;
#[path = "edges/through_several.rs"]
mod through_several;
#[path = "edges/through_shared.rs"]
mod through_shared;
#[path = "edges/variables.rs"]
mod variables;
#[path = "edges/versions.rs"]
mod versions;
#[path = "edges/within.rs"]
mod within;
#[path = "edges/writing.rs"]
mod writing;
