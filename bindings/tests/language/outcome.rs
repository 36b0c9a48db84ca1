//! What the outcome of a row says.
//!
//! ```text
//! outcome = head [", not " refusal] { "; " row } [": " words]
//! head    = "`accepted T call A cells C`" | "accepted, T terms"
//!         | "accepted, A" | "accepted, A and B" | "answer A"
//!         | "version V, T terms" | "N bytes" | refusal
//! refusal = "N at P"; after "not" also "N" alone
//! row     = "row R is F, ..", or "cell C is F, .."
//! ```

use crate::document::{numbers, quoted};
use roomscript::{Called, Limits};

/// A refusal or a fault: its number and its place.
pub type At = (u32, u32);

pub struct Outcome {
    pub due: Due,
    pub rows: Vec<Fact>,
}

#[derive(Clone, Copy, Debug, PartialEq, Eq)]
pub enum Due {
    Called(Called),
    /// The answers of an accepted script where the first reading is not 0, and
    /// where it is 0.
    Answers([i32; 2]),
    /// An accepted script's number of terms.
    Terms(u32),
    /// The answer of an unchecked run.
    Answer(i32),
    /// Version and terms.
    Read(u32, u32),
    /// The length of a script.
    Bytes(u32),
    Stop(At),
}

/// A row of numbers: of the store where it has three, and else a term row.
pub struct Fact {
    pub of_cell: bool,
    pub index: usize,
    pub fields: Vec<u32>,
}

impl Outcome {
    pub fn parse(cell: &str) -> Option<Self> {
        let stated = cell.split_once(": ").map_or(cell, |(stated, _)| stated);
        let mut parts = stated.split("; ");
        let head = parts.next()?;
        let due = match head.split_once(", not ") {
            Some((head, other)) => Due::parse(head).filter(|due| differs(*due, other))?,
            None => Due::parse(head)?,
        };
        let rows = parts.map(Fact::parse).collect::<Option<_>>()?;
        Some(Outcome { due, rows })
    }
}

impl Due {
    fn parse(head: &str) -> Option<Self> {
        if let Some(line) = quoted(head) {
            return called(line).map(Due::Called);
        }
        if let Some(rest) = head.strip_prefix("accepted, ") {
            return accepted(rest);
        }
        if let Some(answer) = head.strip_prefix("answer ") {
            return answer.parse().ok().map(Due::Answer);
        }
        if let Some(rest) = head.strip_prefix("version ") {
            let (version, terms) = rest.strip_suffix(" terms")?.split_once(", ")?;
            return Some(Due::Read(version.parse().ok()?, terms.parse().ok()?));
        }
        if let Some(length) = head.strip_suffix(" bytes") {
            return length.parse().ok().map(Due::Bytes);
        }
        refusal(head).map(Due::Stop)
    }
}

impl Fact {
    pub fn parse(text: &str) -> Option<Self> {
        let (named, fields) = text.split_once(" is ")?;
        let (kind, index) = named.split_once(' ')?;
        let of_cell = match kind {
            "cell" => true,
            "row" => false,
            _ => return None,
        };
        let index = index.parse().ok()?;
        let fields = numbers(fields)?;
        Some(Fact {
            of_cell,
            index,
            fields,
        })
    }

    /// The row of the store or of the terms that these numbers stand in.
    pub fn row(&self, limits: Limits) -> usize {
        self.index
            + if self.of_cell {
                limits.variables as usize
            } else {
                0
            }
    }

    /// Whether it is so in a store, or in term rows.
    pub fn holds(&self, limits: Limits, numbers: &[u32]) -> bool {
        let rows: Vec<_> = numbers.chunks(self.fields.len()).collect();
        rows.get(self.row(limits)) == Some(&&self.fields[..])
    }
}

/// What the program's line says.
pub fn called(line: &str) -> Option<Called> {
    let words: Vec<&str> = line.split(' ').collect();
    let ["accepted", terms, "call", answer, "cells", cells] = words[..] else {
        return None;
    };
    Some(Called {
        answer: answer.parse().ok()?,
        terms: terms.parse().ok()?,
        cells: cells.parse().ok()?,
    })
}

fn accepted(rest: &str) -> Option<Due> {
    if let Some(terms) = rest.strip_suffix(" terms") {
        return terms.parse().ok().map(Due::Terms);
    }
    let (first, second) = rest.split_once(" and ").unwrap_or((rest, rest));
    Some(Due::Answers([first.parse().ok()?, second.parse().ok()?]))
}

pub fn refusal(text: &str) -> Option<At> {
    let (number, place) = text.split_once(" at ")?;
    Some((number.parse().ok()?, place.parse().ok()?))
}

/// Whether what the row says that it is not is a refusal, and another one.
fn differs(due: Due, other: &str) -> bool {
    match (due, refusal(other), other.parse::<u32>()) {
        (Due::Stop(at), Some(other), _) => at != other,
        (Due::Stop((number, _)), None, Ok(other)) => number != other,
        _ => false,
    }
}
