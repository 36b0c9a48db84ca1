//! All short sequences of terms' first rows, in which choices, their branches
//! and the limits come in every order: read in both versions, judged and
//! written by both programs.

use crate::common::case::{Case, Input};
use crate::common::due;
use crate::common::guarded::Guarded;
use crate::common::sets::set;
use crate::common::tally::Tally;
use crate::common::terms::{bytes_in, Row};
use crate::written::Written;
use roomscript::{Limits, NEWEST};

/// A block of one, a block of two, a choice, one on a variable out of range, a
/// box, a let, a reading, and a kind that there is not.
const FIRST_ROWS: [Row; 8] = [
    [0x0B, 1, 0, 0, 0],
    [0x0B, 2, 0, 0, 0],
    [0x0C, 0, 0, 0, 0],
    [0x0C, 9, 0, 0, 0],
    [0x07, 0, 0, 0, 0],
    [0x08, 0, 0, 0, 0],
    [0x02, 0, 0, 0, 0],
    [0x0E, 0, 0, 0, 0],
];

/// With the block around them, the sequences have up to so many rows.
const MOST: usize = 7;

/// Room for all of them, and too few terms, levels or boxes.
const SETS: [Limits; 5] = [
    set(7, 1, 6, 8),
    set(5, 1, 6, 8),
    set(7, 1, 6, 3),
    set(7, 1, 0, 8),
    set(4, 1, 0, 3),
];

struct Outlines {
    rows: Written,
    output: Guarded<u8>,
    read: Tally,
    judged: Tally,
    written: Tally,
}

impl Outlines {
    fn read(&mut self, case: &Case, script: &[u8]) {
        let junk = case.number as u32;
        self.rows.fill(case.limits.row_numbers(), junk);
        let (ours, other) = (self.rows.ours.lent_mut(), self.rows.other.lent_mut());
        let answer = roomscript::read(case.limits, NEWEST, script, ours);
        let expected = due::read(case.limits, NEWEST, script, other);
        case.equal(answer, expected, "answer of read");
        self.rows.compare(case, "rows after read");
        self.read.count(answer);
    }

    fn judge_and_write(&mut self, case: &Case, version: u32, rows: &[u32]) {
        let answer = roomscript::judge_rows(case.limits, rows);
        let expected = due::judge_rows(case.limits, rows);
        case.equal(answer, expected, "answer of judge_rows");
        self.judged.count(answer);
        self.output.fill(64, case.number as u32);
        let answer = roomscript::write(case.limits, version, rows, self.output.lent_mut());
        let expected = due::write(case.limits, version, rows, &mut [0; 64]);
        case.equal(answer, expected, "answer of write");
        let end = answer.map_or(0, |length| length as usize);
        case.expect(self.output.junk_from(end), "output past the script");
        case.guarded(&self.output, "output after write");
        self.written.count(answer);
    }

    fn under_each_set(&mut self, number: u64, first: &[Row]) {
        let scripts = [1, 2].map(|version| bytes_in(version, first));
        for limits in SETS {
            for (version, script) in (1..).zip(&scripts) {
                let case = Case {
                    seed: None,
                    number,
                    limits,
                    input: Input::Script(script),
                };
                self.read(&case, script);
                let mut rows = first.concat();
                rows.resize(limits.row_numbers(), 0);
                self.judge_and_write(&case, version, &rows);
            }
        }
    }
}

/// Shows each sequence of at most so many rows more.
fn sequences(rows: &mut Vec<Row>, more: usize, show: &mut dyn FnMut(&[Row])) {
    show(rows);
    if more == 0 {
        return;
    }
    for row in FIRST_ROWS {
        rows.push(row);
        sequences(rows, more - 1, show);
        rows.pop();
    }
}

#[test]
fn all_outlines_of_up_to_seven_rows() {
    let mut outlines = Outlines {
        rows: Written::new(),
        output: Guarded::new(),
        read: Tally::new("read, up to seven rows"),
        judged: Tally::new("judge_rows, up to seven rows"),
        written: Tally::new("write, up to seven rows"),
    };
    let mut number = 0;
    let mut first = vec![[0x0B, 1, 0, 0, 0]];
    sequences(&mut first, MOST - 1, &mut |rows| {
        outlines.under_each_set(number, rows);
        number += 1;
    });
    assert_eq!(number, 299_593);
    let read = [0, 12, 13, 14, 15, 16, 17, 18, 19];
    outlines.read.report_all(&read);
    let judged = [0, 12, 13, 14, 15, 17, 18, 19];
    outlines.judged.report_all(&judged);
    outlines.written.report_all(&judged);
}
