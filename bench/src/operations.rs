//! The operations that are timed, for both programs. A later layer adds its
//! operation to the table and its buffers to the stage.

use reference::form::FIELDS;
use reference::machine::READINGS;
use reference::{Ran, Refusal};
use roomscript::{Limits, Script, NEWEST};
use std::hint::black_box;

/// What each operation finds beforehand in the buffers that it writes.
const JUNK: u8 = 0xA5;

/// One script, the set of limits that is handed in, in both programs' types,
/// and the buffers. Both programs use the same ones.
pub struct Stage {
    limits: Limits,
    set: reference::Limits,
    /// The newest version that reading is to know.
    newest: u32,
    /// The version of the script.
    version: u32,
    pub script: Vec<u8>,
    /// The script's own rows, for those who take rows.
    pub given: Vec<u32>,
    readings: [i32; READINGS],
    rows: Vec<u32>,
    output: Vec<u8>,
    store: Vec<u32>,
}

impl Stage {
    /// The stage of a script that both programs must treat alike before
    /// anything is timed.
    pub fn new(limits: Limits, script: Vec<u8>) -> Self {
        let set = reference::Limits {
            terms: limits.terms,
            variables: limits.variables,
            boxes: limits.boxes,
            levels: limits.levels,
        };
        let mut given = vec![0; limits.row_numbers()];
        let read = reference::read(set, NEWEST, &script, &mut given);
        let read = read.expect("a script of this program");
        let mut stage = Stage {
            limits,
            set,
            newest: NEWEST,
            version: read.version,
            output: vec![JUNK; script.len()],
            rows: vec![0; limits.row_numbers()],
            store: vec![0; limits.store_numbers()],
            readings: [185, 200, 0, -1, 21, i32::MAX, i32::MIN, 7],
            script,
            given,
        };
        stage.compare_form(read.terms);
        stage.compare_layers(read.terms);
        stage
    }

    fn compare_form(&mut self, terms: u32) {
        self.fill_with_junk();
        let read = roomscript::read(self.limits, self.newest, &self.script, &mut self.rows);
        let version = self.version;
        assert_eq!(read, Ok(Script { version, terms }));
        assert_eq!(self.rows, self.given);
        assert_eq!(roomscript::judge_rows(self.limits, &self.given), Ok(terms));
        let length = roomscript::length(self.limits, version, &self.given);
        assert_eq!(length, Ok(self.script.len() as u32));
        let written = roomscript::write(self.limits, version, &self.given, &mut self.output);
        assert_eq!(written, Ok(self.script.len() as u32));
        assert_eq!(self.output, self.script);
    }

    fn compare_layers(&mut self, terms: u32) {
        let (limits, given, readings) = (self.limits, &self.given, &self.readings);
        let mut store = vec![0; limits.store_numbers()];
        let due = reference::run(self.set, given, readings, &mut store).expect("accepted");
        assert_eq!(reference::check(self.set, given), Ok(terms));
        assert_eq!(roomscript::check(limits, given), Ok(terms));
        self.store.fill(u32::from_ne_bytes([JUNK; 4]));
        let ran = roomscript::run(limits, given, readings, &mut self.store).expect("accepted");
        assert_eq!((ran.answer, ran.cells), (due.answer, due.cells));
        assert_eq!(self.store, store);
        let unchecked = roomscript::run_unchecked(limits, given, readings, &mut self.store);
        assert_eq!(unchecked, Ok(ran));
        assert_eq!(self.store, store);
        let unchecked = reference::run_unchecked(self.set, given, readings, &mut self.store);
        assert_eq!(unchecked, Ok(due));
        self.fill_with_junk();
        let called = roomscript::call(
            limits,
            &self.script,
            &self.readings,
            &mut self.rows,
            &mut self.store,
        )
        .expect("an accepted script");
        let whole = (called.answer, called.terms, called.cells);
        assert_eq!(whole, (due.answer, terms, due.cells));
        assert_eq!((&self.rows, &self.store), (&self.given, &store));
    }

    /// Puts junk in every buffer that is written. Done before each batch and
    /// never timed.
    pub fn fill_with_junk(&mut self) {
        self.rows.fill(u32::from_ne_bytes([JUNK; 4]));
        self.output.fill(JUNK);
        self.store.fill(u32::from_ne_bytes([JUNK; 4]));
    }

    /// How many terms the script has.
    pub fn terms(&self) -> usize {
        self.given
            .chunks(FIELDS)
            .take_while(|row| row[0] != 0)
            .count()
    }
}

/// A whole call by the reference program: its read, of every version, and then
/// its run, which checks.
fn read_and_run(
    set: reference::Limits,
    script: &[u8],
    readings: &[i32],
    rows: &mut [u32],
    store: &mut [u32],
) -> Result<(u32, Ran), Refusal> {
    let read = reference::read(set, NEWEST, script, rows)?;
    let ran = reference::run(set, rows, readings, store)?;
    Ok((read.terms, ran))
}

/// So many calls of one program, one after the other.
pub type Batch = fn(&mut Stage, u32);

pub struct Operation {
    pub name: &'static str,
    pub ours: Batch,
    pub reference: Batch,
}

/// A batch that calls a function on the set, on a version where it takes one
/// and on parts of the stage, none of which the compiler may know.
macro_rules! batch {
    (
        $function:path,
        $set:ident $(, $version:ident)?: $(&$lent:ident),* $(; $(&mut $written:ident),*)?
    ) => {
        |stage, calls| {
            for _ in 0..calls {
                let _ = black_box($function(
                    black_box(stage.$set),
                    $(black_box(stage.$version),)?
                    $(black_box(&stage.$lent[..]),)*
                    $($(black_box(&mut stage.$written[..]),)*)?
                ));
            }
        }
    };
}

pub const OPERATIONS: [Operation; 8] = [
    Operation {
        name: "read",
        ours: batch!(roomscript::read, limits, newest: &script; &mut rows),
        reference: batch!(reference::read, set, newest: &script; &mut rows),
    },
    Operation {
        name: "judge_rows",
        ours: batch!(roomscript::judge_rows, limits: &given),
        reference: batch!(reference::judge_rows, set: &given),
    },
    Operation {
        name: "length",
        ours: batch!(roomscript::length, limits, version: &given),
        reference: batch!(reference::length, set, version: &given),
    },
    Operation {
        name: "write",
        ours: batch!(roomscript::write, limits, version: &given; &mut output),
        reference: batch!(reference::write, set, version: &given; &mut output),
    },
    Operation {
        name: "check",
        ours: batch!(roomscript::check, limits: &given),
        reference: batch!(reference::check, set: &given),
    },
    Operation {
        name: "run",
        ours: batch!(roomscript::run, limits: &given, &readings; &mut store),
        reference: batch!(reference::run, set: &given, &readings; &mut store),
    },
    Operation {
        name: "run_unchecked",
        ours: batch!(roomscript::run_unchecked, limits: &given, &readings; &mut store),
        reference: batch!(reference::run_unchecked, set: &given, &readings; &mut store),
    },
    Operation {
        name: "call",
        ours: batch!(roomscript::call, limits: &script, &readings; &mut rows, &mut store),
        reference: batch!(read_and_run, set: &script, &readings; &mut rows, &mut store),
    },
];
