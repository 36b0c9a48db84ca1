//! Scripts and rows by hand, and calls that also look at all lent memory. The
//! functions asked are those of the test program around.

use crate::asked::{judge_rows, length, read, write};
use crate::common::case::{hex_bytes, hex_rows};
use crate::common::guarded::Guarded;
use crate::common::terms::{header, of_version_2};
use crate::common::{refused, Answer, ReadAnswer};
use roomscript::{Limits, Script, FIELDS, MAX_BYTES, NEWEST};

pub type Row = [u32; FIELDS];

/// The first example.
pub const E1: [u8; 25] = [
    0x52, 0x43, 0x53, 0x00, 0x01, 0x0B, 0x04, 0x08, 0x00, 0x02, 0x00, 0x08, 0x01, 0x02, 0x01, 0x08,
    0x02, 0x05, 0x00, 0x00, 0x0A, 0x02, 0x01, 0x01, 0x00,
];

pub const E1_ROWS: [Row; 8] = [
    [0x0B, 4, 0, 0, 0],
    [0x08, 0, 0, 0, 0],
    [0x02, 0, 0, 0, 0],
    [0x08, 1, 0, 0, 0],
    [0x02, 1, 0, 0, 0],
    [0x08, 2, 0, 0, 0],
    [0x05, 0, 0, 0, 0],
    [0x0A, 2, 1, 1, 0],
];

pub const BOX: Row = [0x07, 0, 0, 0, 0];
pub const READING: Row = [0x02, 3, 0, 0, 0];

/// A kind that no version has.
pub const UNKNOWN: u32 = 0x0E;

/// A block's row.
pub fn block(count: u32) -> Row {
    [0x0B, count, 0, 0, 0]
}

/// Mark, version 1, and then the bytes given.
pub fn script(body: &[u8]) -> Vec<u8> {
    script_in(1, body)
}

/// The same of a version.
pub fn script_in(version: u32, body: &[u8]) -> Vec<u8> {
    [&header(version), body].concat()
}

/// The rows given, and then rows of 0 up to the set's number of terms.
pub fn rows_under(limits: Limits, first: &[Row]) -> Vec<u32> {
    let mut rows = first.concat();
    rows.resize(limits.row_numbers(), 0);
    rows
}

/// The same under the language's own set.
pub fn rows_of(first: &[Row]) -> Vec<u32> {
    rows_under(Limits::BASE, first)
}

/// Reads over junk, with every version known. A refusal by the caller leaves
/// the rows as they were, one by the bytes leaves them 0, and after success the
/// length in the version that was read is the script's, and writing in it
/// restores the script. Those who know fewer versions read the same or meet 11.
#[track_caller]
pub fn reads_under(limits: Limits, script: &[u8]) -> Answer {
    let shown = || format!("{limits:?}, {}", hex_bytes(script));
    let answer = reads_with(NEWEST, limits, script);
    for newest in [0, 1, NEWEST + 1, u32::MAX] {
        let due = match answer {
            // Whatever comes before the version is told by all.
            Err(refusal) if refusal.number < 11 || refusal.number == 74 => answer,
            Err(_) if script.len() < 5 => answer,
            _ if script[3] == 0 && u32::from(script[4]) <= newest => answer,
            _ => refused(11, 3),
        };
        assert_eq!(
            reads_with(newest, limits, script),
            due,
            "{newest}, {}",
            shown()
        );
    }
    answer.map(|read| read.terms)
}

/// Reads over junk, with these versions known.
#[track_caller]
pub fn reads_with(newest: u32, limits: Limits, script: &[u8]) -> ReadAnswer {
    let shown = || format!("{newest}, {limits:?}, {}", hex_bytes(script));
    let mut lent = Guarded::new();
    lent.hold(script, 9);
    let mut rows = Guarded::junk(limits.row_numbers(), 1);
    let answer = read(limits, newest, lent.lent(), rows.lent_mut());
    assert!(rows.guards_hold() && lent.guards_hold(), "{}", shown());
    assert_eq!(lent.lent(), script, "{}", shown());
    match answer {
        Ok(Script { version, terms }) => {
            assert_eq!(script[..5], header(version), "{}", shown());
            let unused = &rows.lent()[terms as usize * FIELDS..];
            assert!(unused.iter().all(|field| *field == 0), "{}", shown());
            assert_eq!(judge_rows(limits, rows.lent()), Ok(terms), "{}", shown());
            let told = length(limits, version, rows.lent());
            assert_eq!(told, Ok(script.len() as u32), "{}", shown());
            let mut output = Guarded::junk(script.len(), 2);
            let written = write(limits, version, rows.lent(), output.lent_mut());
            assert_eq!(written, Ok(script.len() as u32), "{}", shown());
            assert_eq!(output.lent(), script);
            assert!(output.guards_hold(), "{}", shown());
        }
        Err(refusal) if refusal.number < 10 || refusal.number == 74 => {
            assert!(rows.junk_from(0), "{}", shown())
        }
        Err(_) => {
            let cleared = rows.lent().iter().all(|field| *field == 0);
            assert!(cleared, "{}", shown());
        }
    }
    answer
}

/// The same under the language's own set.
#[track_caller]
pub fn reads(script: &[u8]) -> Answer {
    reads_under(Limits::BASE, script)
}

/// Reads a script with these bytes after mark and version, which is read alike
/// in every version.
#[track_caller]
pub fn reads_body(body: &[u8]) -> Answer {
    reads_body_under(Limits::BASE, body)
}

/// The same under a set.
#[track_caller]
pub fn reads_body_under(limits: Limits, body: &[u8]) -> Answer {
    let answer = reads_under(limits, &script(body));
    let second = reads_under(limits, &script_in(2, body));
    assert_eq!(second, answer, "{limits:?}, {}", hex_bytes(body));
    answer
}

/// What is read of these bytes in version 1 and in version 2.
#[track_caller]
pub fn reads_in_each(body: &[u8]) -> [Answer; 2] {
    [1, 2].map(|version| reads(&script_in(version, body)))
}

/// Asks for the length of rows, which stay as they are. It is never refused
/// with 5.
#[track_caller]
pub fn length_under(limits: Limits, version: u32, rows: &[u32]) -> Answer {
    let shown = || format!("version {version}, {limits:?}, {}", hex_rows(rows));
    let mut lent = Guarded::new();
    lent.hold(rows, 5);
    let answer = length(limits, version, lent.lent());
    assert_eq!(lent.lent(), rows, "{}", shown());
    assert!(lent.guards_hold(), "{}", shown());
    assert_ne!(answer, refused(5, 0), "{}", shown());
    answer
}

/// Judges rows. Where they are refused the writer of the newest version must
/// refuse them alike, whatever its output, and leave that as it was; where they
/// are accepted, reading what is written must give them back. For the writer of
/// version 1 the kinds of version 2 are unknown, and there are no other
/// versions. The length is refused as writing is, or is what was written.
#[track_caller]
pub fn judges_under(limits: Limits, rows: &[u32]) -> Answer {
    let answer = judge_rows(limits, rows);
    writes_as_judged(2, limits, rows, answer);
    let mut without = rows.to_vec();
    for row in without.chunks_mut(FIELDS) {
        if of_version_2(row[0]) {
            row[0] = UNKNOWN;
        }
    }
    writes_as_judged(1, limits, rows, judge_rows(limits, &without));
    let due = match answer {
        Err(refusal) if refusal.number == 74 || refusal.number == 2 => answer,
        _ => refused(11, 0),
    };
    for version in [0, 3, 0x102, u32::MAX] {
        writes_as_judged(version, limits, rows, due);
    }
    answer
}

/// The length, and writing to outputs of some lengths: as judged where that is a
/// refusal, else what gives the rows back.
#[track_caller]
fn writes_as_judged(version: u32, limits: Limits, rows: &[u32], judged: Answer) {
    let shown = || format!("version {version}, {limits:?}, {}", hex_rows(rows));
    let told = length_under(limits, version, rows);
    for room in [0, 1, MAX_BYTES] {
        let mut output = Guarded::junk(room, 3);
        let written = write(limits, version, rows, output.lent_mut());
        assert!(output.guards_hold(), "{}", shown());
        let Ok(terms) = judged else {
            assert_eq!(told, judged, "{}", shown());
            assert_eq!(written, judged, "output of {room}, {}", shown());
            assert!(output.junk_from(0), "output of {room}, {}", shown());
            continue;
        };
        if room < MAX_BYTES {
            assert_eq!(written, refused(5, 0), "output of {room}, {}", shown());
            assert!(output.junk_from(0), "output of {room}, {}", shown());
            continue;
        }
        assert_eq!(told, written, "{}", shown());
        let length = written.expect("room for every script") as usize;
        assert!(output.junk_from(length), "{}", shown());
        let mut again = Guarded::junk(limits.row_numbers(), 4);
        let script = &output.lent()[..length];
        let read = read(limits, version, script, again.lent_mut());
        assert_eq!(read, Ok(Script { version, terms }), "{}", shown());
        assert_eq!(again.lent(), rows, "{}", shown());
    }
}

/// The same under the language's own set.
#[track_caller]
pub fn judges(rows: &[u32]) -> Answer {
    judges_under(Limits::BASE, rows)
}

/// Judges the rows given, followed by rows of 0.
#[track_caller]
pub fn judges_first(first: &[Row]) -> Answer {
    judges(&rows_of(first))
}

/// The same under a set.
#[track_caller]
pub fn judges_first_under(limits: Limits, first: &[Row]) -> Answer {
    judges_under(limits, &rows_under(limits, first))
}
