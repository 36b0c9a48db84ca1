//! One case of a comparison, and how it is shown when it fails.

use super::guarded::{Cell, Guarded};
use super::sets::shown;
use roomscript::{Limits, FIELDS};
use std::fmt::{self, Debug, Display, Formatter, LowerHex};

/// What both programs were given.
pub enum Input<'a> {
    Script(&'a [u8]),
    Rows(&'a [u32]),
    /// A script and readings.
    Call(&'a [u8], &'a [i32]),
    /// Rows and readings.
    Run(&'a [u32], &'a [i32]),
}

pub struct Case<'a> {
    /// None where the cases are not seeded but all that there are.
    pub seed: Option<u64>,
    /// Counted from 0; a run of one case more than this meets it again.
    pub number: u64,
    /// The set that was handed in.
    pub limits: Limits,
    pub input: Input<'a>,
}

impl Case<'_> {
    #[track_caller]
    pub fn expect(&self, holds: bool, what: impl Display) {
        assert!(holds, "{what}\n{self}");
    }

    #[track_caller]
    pub fn equal<T: PartialEq + Debug>(&self, ours: T, other: T, what: impl Display) {
        if ours != other {
            panic!("{what}: ours {ours:?}, but {other:?} is due\n{self}");
        }
    }

    /// Compares whole buffers and names the first difference.
    #[track_caller]
    pub fn same<T: PartialEq + LowerHex>(&self, ours: &[T], other: &[T], what: impl Display) {
        if ours == other {
            return;
        }
        let mut pairs = ours.iter().zip(other);
        match pairs.position(|(ours, other)| ours != other) {
            Some(at) => panic!(
                "{what}: at {at} ours is {:x}, but {:x} is due\n{self}",
                ours[at], other[at]
            ),
            None => panic!("{what}: the lengths differ\n{self}"),
        }
    }

    #[track_caller]
    pub fn guarded<T: Cell>(&self, buffer: &Guarded<T>, what: impl Display) {
        self.expect(
            buffer.guards_hold(),
            format_args!("guards of the {what} are written"),
        );
    }

    /// A refusal by the caller leaves a buffer that was lent full of junk as it
    /// was.
    #[track_caller]
    pub fn unchanged_by_caller<T: Cell>(&self, number: u32, lent: &Guarded<T>, what: &str) {
        if number < 10 || number == 74 {
            self.expect(
                lent.junk_from(0),
                format_args!("{what}: a refusal by the caller changes nothing"),
            );
        }
    }
}

impl Display for Case<'_> {
    fn fmt(&self, to: &mut Formatter<'_>) -> fmt::Result {
        match self.seed {
            Some(seed) => write!(to, "seed {seed}, case {}", self.number)?,
            None => write!(to, "case {} of all", self.number)?,
        }
        writeln!(to, ", set {}", shown(self.limits))?;
        match self.input {
            Input::Script(script) | Input::Call(script, _) => {
                write!(to, "script of {}", hex_bytes(script))?
            }
            Input::Rows(rows) | Input::Run(rows, _) => write!(to, "rows of {}", hex_rows(rows))?,
        }
        match self.input {
            Input::Call(_, readings) | Input::Run(_, readings) => {
                write!(to, "\nreadings {readings:?}")
            }
            _ => Ok(()),
        }
    }
}

pub fn hex_bytes(bytes: &[u8]) -> String {
    let shown: Vec<String> = bytes.iter().map(|byte| format!("{byte:02X}")).collect();
    format!("{} bytes: {}", bytes.len(), shown.join(" "))
}

/// Rows in hex, a line each, without the fields of 0 at the end.
pub fn hex_rows(rows: &[u32]) -> String {
    let used = rows.iter().rposition(|field| *field != 0);
    let used = used.map_or(0, |last| last + 1);
    let mut text = format!("{} fields:", rows.len());
    for (index, row) in rows[..used].chunks(FIELDS).enumerate() {
        let fields: Vec<String> = row.iter().map(|field| format!("{field:X}")).collect();
        text.push_str(&format!("\n  row {index}: {}", fields.join(" ")));
    }
    text
}
