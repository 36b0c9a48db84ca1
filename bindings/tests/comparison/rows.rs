//! Rows judged and written in each version by both programs, and read again.

use crate::common::case::{Case, Input};
use crate::common::due;
use crate::common::guarded::Guarded;
use crate::common::tally::Tally;
use crate::common::Answer;
use crate::sets::{length, Sets};
use crate::versions::Versions;
use reference::random::Random;
use reference::Generator;
use roomscript::{Limits, Script, MAX_BYTES};

/// The buffers of a case, reused from one to the next.
struct Buffers {
    rows: Guarded<u32>,
    again: Guarded<u32>,
    ours: Guarded<u8>,
    other: Guarded<u8>,
}

impl Buffers {
    fn new() -> Self {
        Buffers {
            rows: Guarded::new(),
            again: Guarded::new(),
            ours: Guarded::new(),
            other: Guarded::new(),
        }
    }
}

fn compare(sets: Sets) {
    let settings = sets.settings();
    let mut generator = Generator::new(settings.seed);
    // A sequence of its own, so that the rows depend on nothing else.
    let mut random = Random::new(!settings.seed);
    let mut buffers = Buffers::new();
    let mut judged = Tally::new(format!("judge_rows, {}", sets.name()));
    let mut written = Tally::new(format!("write, {}", sets.name()));
    let mut versions = Versions::default();
    let mut rows = Vec::new();
    for number in 0..settings.cases {
        let limits = sets.next(&mut generator);
        generator.rows_any_length(&mut rows);
        if sets == Sets::Outside {
            rows.resize(length(&mut random, limits.row_numbers(), rows.len()), 0);
        }
        let case = Case {
            seed: Some(settings.seed),
            number,
            limits,
            input: Input::Rows(&rows),
        };
        let junk = random.bits() as u32;
        buffers.rows.hold(&rows, junk);
        judge_by_both(&case, &rows, &mut buffers, &mut judged);
        // Both versions that there are, each in full in half of the cases, and
        // any number.
        let full = 1 + number as u32 % 2;
        for version in [full, 3 - full, generator.version()] {
            let lengths = match version == full {
                true => output_lengths(limits, version, &rows, &mut random),
                false => fewer_lengths(limits, version, &rows, &mut random),
            };
            for length in lengths {
                let junk = random.bits() as u32;
                buffers.ours.fill(length, junk);
                buffers.other.fill(length, junk);
                let answer = write_by_both(&case, version, &rows, &mut buffers);
                written.count(answer);
                if answer.is_ok() {
                    versions.count(version, &rows);
                }
            }
        }
    }
    if sets.have_room() {
        versions.report(&settings, &format!("write, {}", sets.name()));
    }
    // In the least set no row is left for a second term.
    let with_room = [0, 2, 12, 13, 14, 15, 17, 18, 19];
    let in_least = [2, 12, 13, 14, 18];
    judged.report(&settings, &sets.expected(&with_room, &in_least));
    let with_room = [&with_room[..], &[5, 11]].concat();
    let in_least = [&in_least[..], &[11]].concat();
    written.report(&settings, &sets.expected(&with_room, &in_least));
}

fn judge_by_both(case: &Case, rows: &[u32], buffers: &mut Buffers, tally: &mut Tally) {
    let answer = roomscript::judge_rows(case.limits, buffers.rows.lent());
    let expected = due::judge_rows(case.limits, rows);
    case.equal(answer, expected, "answer of judge_rows");
    case.same(buffers.rows.lent(), rows, "rows after judge_rows");
    case.guarded(&buffers.rows, "rows after judge_rows");
    tally.count(answer);
}

/// Lengths of outputs: none, around the length of the script where there is
/// one, and seldom longer than any script.
fn output_lengths(limits: Limits, version: u32, rows: &[u32], random: &mut Random) -> Vec<usize> {
    let longer = match random.below(8) {
        0 => MAX_BYTES + random.index(200),
        _ => 4096 + random.index(200),
    };
    match due::write(limits, version, rows, &mut [0; MAX_BYTES]) {
        Ok(length) => {
            let length = length as usize;
            let shorter = random.index(length);
            let more = length + 2 + random.index(100);
            vec![0, shorter, length - 1, length, length + 1, more, longer]
        }
        Err(_) => vec![0, random.index(100), longer],
    }
}

/// Two of them: a short one and one that has room, both near the edge where
/// there is a script.
fn fewer_lengths(limits: Limits, version: u32, rows: &[u32], random: &mut Random) -> Vec<usize> {
    match due::write(limits, version, rows, &mut [0; MAX_BYTES]) {
        Ok(length) => vec![length as usize - 1, length as usize + random.index(3)],
        Err(_) => vec![random.index(100)],
    }
}

/// Both write to an output of the same length with the same junk.
fn write_by_both(case: &Case, version: u32, rows: &[u32], buffers: &mut Buffers) -> Answer {
    let Buffers { ours, other, .. } = buffers;
    let room = ours.lent().len();
    let answer = roomscript::write(case.limits, version, buffers.rows.lent(), ours.lent_mut());
    let expected = due::write(case.limits, version, rows, other.lent_mut());
    case.equal(
        answer,
        expected,
        format_args!("answer of write in version {version} to {room} bytes"),
    );
    case.same(
        ours.lent(),
        other.lent(),
        format_args!("output after write to {room} bytes"),
    );
    case.guarded(ours, "output after write");
    case.same(buffers.rows.lent(), rows, "rows after write");
    case.guarded(&buffers.rows, "rows after write");
    match answer {
        Ok(length) => read_again(case, version, rows, length, buffers),
        Err(_) => case.expect(ours.junk_from(0), "output after a refusal"),
    }
    answer
}

/// Reading what was written gives the version and the rows back, to those who
/// know no later version too.
fn read_again(case: &Case, version: u32, rows: &[u32], length: u32, buffers: &mut Buffers) {
    let Buffers { again, ours, .. } = buffers;
    again.fill(case.limits.row_numbers(), length);
    let script = &ours.lent()[..length as usize];
    case.expect(ours.junk_from(length as usize), "bytes past the script");
    case.equal(
        roomscript::read(case.limits, version, script, again.lent_mut()),
        roomscript::judge_rows(case.limits, rows).map(|terms| Script { version, terms }),
        "answer of read after write",
    );
    case.same(again.lent(), rows, "rows read after write");
    case.guarded(again, "rows read after write");
}

mod rows_are_judged_and_written_alike {
    crate::under_each_set!(super::compare);
}
