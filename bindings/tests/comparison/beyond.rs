//! All small scripts over a small alphabet, under sets that some of them are
//! beyond: read, judged, checked and run by both programs.

use crate::alphabet::{sequences, Alphabet};
use crate::common::case::{Case, Input};
use crate::common::due;
use crate::common::guarded::Guarded;
use crate::common::sets::set;
use crate::common::tally::Tally;
use crate::common::terms::{block, bytes_in, version_of, Row};
use crate::layers::{Layers, Room};
use roomscript::{Limits, NEWEST};

const READINGS: [i32; 8] = [1, 2, 3, 4, 5, 6, 7, 8];

/// The scripts have up to five terms and levels, two variables and three
/// boxes. Each set has too few of something.
const SETS: [Limits; 6] = [
    set(4, 2, 3, 5),
    set(5, 1, 3, 5),
    set(5, 2, 1, 5),
    set(5, 2, 3, 3),
    set(4, 2, 0, 4),
    set(3, 1, 1, 2),
];

struct Beyond {
    script: Guarded<u8>,
    ours: Guarded<u32>,
    other: Guarded<u32>,
    read: Tally,
    layers: Layers,
}

impl Beyond {
    fn new() -> Self {
        Beyond {
            script: Guarded::new(),
            ours: Guarded::new(),
            other: Guarded::new(),
            read: Tally::new("read, sets of up to five terms"),
            layers: Layers::new("sets of up to five terms"),
        }
    }

    fn read(&mut self, case: &Case, script: &[u8]) {
        let junk = case.number as u32;
        self.script.hold(script, junk);
        self.ours.fill(case.limits.row_numbers(), junk);
        self.other.fill(case.limits.row_numbers(), junk);
        let (lent, rows) = (self.script.lent(), self.ours.lent_mut());
        let answer = roomscript::read(case.limits, NEWEST, lent, rows);
        let expected = due::read(case.limits, NEWEST, script, self.other.lent_mut());
        case.equal(answer, expected, "answer of read");
        case.same(self.ours.lent(), self.other.lent(), "rows after read");
        case.guarded(&self.ours, "rows after read");
        case.guarded(&self.script, "script after read");
        self.read.count(answer);
    }

    /// Rows that find no place are left out.
    fn rows(&mut self, case: &Case, rows: &[u32]) {
        case.equal(
            roomscript::judge_rows(case.limits, rows),
            due::judge_rows(case.limits, rows),
            "answer of judge_rows",
        );
        let room = Room {
            length: case.limits.store_numbers(),
            junk: case.number as u32,
        };
        self.layers.check_and_run(case, rows, &READINGS, room);
    }

    fn under_each_set(&mut self, number: u64, terms: &[Row]) {
        // In both versions in turn, but a kind of version 2 in both at once: in
        // version 1 it is refused.
        let versions = match version_of(terms.as_flattened()) {
            1 => vec![1 + number as u32 % 2],
            _ => vec![1, 2],
        };
        let scripts = versions.iter().map(|version| bytes_in(*version, terms));
        let scripts: Vec<Vec<u8>> = scripts.collect();
        for limits in SETS {
            let case = |script| Case {
                seed: None,
                number,
                limits,
                input: Input::Script(script),
            };
            for script in &scripts {
                self.read(&case(script), script);
            }
            let case = case(&scripts[0]);
            let mut rows = terms.as_flattened().to_vec();
            rows.resize(limits.row_numbers(), 0);
            self.rows(&case, &rows);
        }
    }
}

#[test]
fn all_scripts_of_up_to_five_terms_under_small_sets() {
    let places = [(0, 0), (0, 1), (1, 0)];
    let sizes = Alphabet::new(&places, &[0, 1]).terms(4);
    let mut beyond = Beyond::new();
    let mut number = 0;
    // The outermost block is one of the five.
    for size in 1..=4 {
        sequences(&sizes, size, 0, &mut block(&[]), &mut |beside, terms| {
            let mut terms = terms.to_vec();
            terms[0][1] = beside;
            beyond.under_each_set(number, &terms);
            number += 1;
        });
    }
    assert_eq!(number, 179_025);
    beyond.read.report_all(&[0, 13, 14, 15, 16, 17]);
    let checked = [0, 12, 14, 15, 17, 30, 31, 32, 33, 37, 39, 40, 41, 43];
    beyond.layers.checked.report_all(&checked);
    beyond.layers.ran.report_all(&checked);
    let unchecked = [0, 12, 14, 15, 17, 60, 61, 62];
    beyond.layers.ran_unchecked.report_all(&unchecked);
}
