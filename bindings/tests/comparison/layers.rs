//! Rows checked, run and run unchecked by both programs.

use crate::branches::boxes;
use crate::common::case::Case;
use crate::common::guarded::Guarded;
use crate::common::store::tidy_or_unchanged;
use crate::common::tally::Tally;
use crate::common::{due, Answer, Run, RunAnswer, UncheckedAnswer};
use crate::reached::Reached;
use crate::written::Written;
use roomscript::{Ran, Refusal, Stop, READINGS_LEN};
use std::fmt::Debug;

/// The numbers that the check, and a run, can answer rows of the right form.
pub const AUTHOR: [u32; 15] = [0, 30, 31, 32, 33, 34, 35, 36, 37, 38, 39, 40, 41, 42, 43];
/// The numbers that an unchecked run can answer rows of the right form.
pub const FAULTS: [u32; 5] = [0, 60, 61, 62, 63];

/// A function that runs rows: its name, and what it is in both programs.
struct Entry<E> {
    name: &'static str,
    ours: Run<E>,
    due: Run<E>,
}

const RUN: Entry<Refusal> = Entry {
    name: "run",
    ours: roomscript::run,
    due: due::run,
};

const RUN_UNCHECKED: Entry<Stop> = Entry {
    name: "run_unchecked",
    ours: roomscript::run_unchecked,
    due: due::run_unchecked,
};

impl<E: PartialEq + Debug> Entry<E> {
    /// Both programs run rows on stores of the same length with the same junk.
    fn run_by_both(
        &self,
        case: &Case,
        lent: &Lent,
        store: &mut Written,
        room: Room,
    ) -> Result<Ran, E> {
        let (name, length) = (self.name, room.length);
        store.fill(length, room.junk);
        let (rows, readings) = (lent.rows.lent(), lent.readings.lent());
        let expected = (self.due)(case.limits, rows, readings, store.other.lent_mut());
        let answer = (self.ours)(case.limits, rows, readings, store.ours.lent_mut());
        case.equal(
            &answer,
            &expected,
            format_args!("answer of {name} with a store of {length}"),
        );
        store.compare(case, format_args!("store after {name}"));
        answer
    }
}

/// What is lent to be read only.
struct Lent {
    rows: Guarded<u32>,
    readings: Guarded<i32>,
}

impl Lent {
    /// Rows and readings are as they were lent.
    fn only_read(&self, case: &Case, rows: &[u32], given: &[i32], name: &str) {
        case.same(self.rows.lent(), rows, format_args!("rows after {name}"));
        case.guarded(&self.rows, format_args!("rows after {name}"));
        let readings = self.readings.lent();
        case.same(readings, given, format_args!("readings after {name}"));
        case.guarded(&self.readings, format_args!("readings after {name}"));
    }
}

/// The buffers of a case, reused from one to the next, and what was answered.
pub struct Layers {
    lent: Lent,
    store: Written,
    unchecked: Written,
    pub checked: Tally,
    pub ran: Tally,
    pub ran_unchecked: Tally,
    /// By the scripts that the check accepts.
    pub reached: Reached,
}

impl Layers {
    pub fn new(what: &str) -> Self {
        Layers {
            lent: Lent {
                rows: Guarded::new(),
                readings: Guarded::new(),
            },
            store: Written::new(),
            unchecked: Written::new(),
            checked: Tally::new(format!("check, {what}")),
            ran: Tally::new(format!("run, {what}")),
            ran_unchecked: Tally::new(format!("run_unchecked, {what}")),
            reached: Reached::new(format!("check, {what}")),
        }
    }

    /// Checks the rows that are lent, by both. The rows stay as they are.
    fn check(&mut self, case: &Case, rows: &[u32]) -> Answer {
        let answer = roomscript::check(case.limits, self.lent.rows.lent());
        case.equal(answer, due::check(case.limits, rows), "answer of check");
        case.same(self.lent.rows.lent(), rows, "rows after check");
        case.guarded(&self.lent.rows, "rows after check");
        self.checked.count(answer);
        if let Ok(terms) = answer {
            self.reached.count(case.limits, rows, terms);
        }
        answer
    }

    /// Runs the rows that are lent, by both.
    fn run(&mut self, case: &Case, room: Room) -> RunAnswer {
        let answer = RUN.run_by_both(case, &self.lent, &mut self.store, room);
        let cells = answer.map(|ran| ran.cells);
        let left = tidy_or_unchanged(case.limits, cells, &self.store.ours);
        case.expect(left, "the store after run is neither tidy nor unchanged");
        self.ran.count(answer);
        answer
    }

    /// Runs the rows that are lent unchecked, by both.
    fn run_unchecked(&mut self, case: &Case, room: Room) -> UncheckedAnswer {
        let answer = RUN_UNCHECKED.run_by_both(case, &self.lent, &mut self.unchecked, room);
        if let Err(Stop::Refused(_)) = answer {
            let unchanged = self.unchecked.ours.junk_from(0);
            case.expect(unchanged, "store after a refusal of run_unchecked");
        }
        self.ran_unchecked.count_unchecked(answer);
        answer
    }

    /// What ran meets no fault (LANGUAGE 7.4), also unchecked, and leaves the
    /// same store then. It has a cell for every box term but those of branches
    /// that did not run, since nothing else is left out of a run that ends.
    fn as_demanded(&self, case: &Case, rows: &[u32], ran: Ran, unchecked: UncheckedAnswer) {
        let cells = boxes(rows).contains(&ran.cells);
        case.expect(cells, "cells of an accepted script");
        case.equal(unchecked, Ok(ran), "answer of run_unchecked beside run");
        case.same(
            self.unchecked.ours.lent(),
            self.store.ours.lent(),
            "store after run_unchecked beside run",
        );
    }

    /// Checks rows, and runs them both ways whatever the check answers.
    pub fn check_and_run(&mut self, case: &Case, rows: &[u32], given: &[i32], room: Room) {
        self.lent.rows.hold(rows, room.junk);
        self.lent.readings.hold(given, room.junk);
        let checked = self.check(case, rows);
        let ran = self.run(case, room);
        self.lent.only_read(case, rows, given, RUN.name);
        let unchecked = self.run_unchecked(case, room);
        self.lent.only_read(case, rows, given, RUN_UNCHECKED.name);
        if room.length == case.limits.store_numbers() && given.len() == READINGS_LEN {
            // A run refuses what the check does, and runs all that it accepts.
            let (ran, checked) = (ran.map(|_| ()), checked.map(|_| ()));
            case.equal(ran, checked, "answer of run beside check");
        }
        match (ran, unchecked) {
            (Ok(ran), unchecked) => self.as_demanded(case, rows, ran, unchecked),
            (Err(refusal), Err(Stop::Refused(other))) => {
                case.equal(refusal, other, "refusal of run beside run_unchecked");
            }
            // Only the check refuses it.
            (Err(_), _) => (),
        }
    }
}

/// A store before a run: its length, and the junk in it.
#[derive(Clone, Copy)]
pub struct Room {
    pub length: usize,
    pub junk: u32,
}
