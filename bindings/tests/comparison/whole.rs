//! Rows of the right form, as bytes: read and called by both programs.

use crate::common::case::Case;
use crate::common::due;
use crate::common::guarded::Guarded;
use crate::common::terms::version_of;
use crate::written::Written;
use roomscript::{Called, Refusal, Script, MAX_BYTES};

/// The buffers of a case, reused from one to the next.
pub struct Whole {
    output: Guarded<u8>,
    rows: Written,
    store: Written,
}

impl Whole {
    pub fn new() -> Self {
        Whole {
            output: Guarded::new(),
            rows: Written::new(),
            store: Written::new(),
        }
    }

    /// Writes the rows in the first version that has their kinds, reads them
    /// again, and has both call the bytes.
    pub fn call(
        &mut self,
        case: &Case,
        rows: &[u32],
        given: &[i32],
        junk: u32,
    ) -> Result<Called, Refusal> {
        let (limits, version) = (case.limits, version_of(rows));
        let longest = MAX_BYTES.min(5 + rows.len());
        self.output.fill(longest, junk);
        let written = roomscript::write(limits, version, rows, self.output.lent_mut());
        case.guarded(&self.output, "output after write");
        let mut script = vec![0; longest];
        let length = due::write(limits, version, rows, &mut script);
        case.equal(written, length, "answer of write");
        script.truncate(length.expect("rows of a script") as usize);
        case.same(&self.output.lent()[..script.len()], &script, "output");
        case.expect(self.output.junk_from(script.len()), "bytes past the script");

        self.rows.ours.fill(limits.row_numbers(), junk);
        let read = roomscript::read(limits, version, &script, self.rows.ours.lent_mut());
        let judged = roomscript::judge_rows(limits, rows);
        let due = judged.map(|terms| Script { version, terms });
        case.equal(read, due, "answer of read");
        case.same(self.rows.ours.lent(), rows, "rows after read");
        case.guarded(&self.rows.ours, "rows after read");
        case.equal(
            judged,
            due::judge_rows(limits, rows),
            "answer of judge_rows",
        );

        self.rows.fill(limits.row_numbers(), !junk);
        self.store.fill(limits.store_numbers(), junk);
        let (lent, on) = (self.rows.ours.lent_mut(), self.store.ours.lent_mut());
        let answer = roomscript::call(limits, &script, given, lent, on);
        let (lent, on) = (self.rows.other.lent_mut(), self.store.other.lent_mut());
        let expected = due::call(limits, &script, given, lent, on);
        case.equal(answer, expected, "answer of call");
        self.rows.compare(case, "rows after call");
        self.store.compare(case, "store after call");
        answer
    }
}
