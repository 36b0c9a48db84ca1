//! The length of a script from its rows, told by both programs, and writing by
//! both to outputs around that length.

use crate::common::case::{Case, Input};
use crate::common::due;
use crate::common::guarded::Guarded;
use crate::common::tally::Tally;
use crate::common::terms::{bytes_of_all, version_of};
use crate::common::{refused, Answer};
use crate::sets::{length, Sets};
use crate::versions::Versions;
use reference::random::Random;
use reference::Generator;

/// The buffers of a case, reused from one to the next.
struct Buffers {
    rows: Guarded<u32>,
    ours: Guarded<u8>,
    other: Guarded<u8>,
}

impl Buffers {
    fn new() -> Self {
        Buffers {
            rows: Guarded::new(),
            ours: Guarded::new(),
            other: Guarded::new(),
        }
    }
}

fn compare(sets: Sets) {
    let settings = sets.settings();
    // Other rows than those that are judged and written elsewhere.
    let mut generator = Generator::new(!settings.seed);
    let mut random = Random::new(settings.seed);
    let mut buffers = Buffers::new();
    let mut told = Tally::new(format!("length, {}", sets.name()));
    let mut written = Tally::new(format!("write after length, {}", sets.name()));
    let mut versions = Versions::default();
    let mut rows = Vec::new();
    for number in 0..settings.cases {
        let limits = sets.next(&mut generator);
        generator.rows_any_length(&mut rows);
        if sets == Sets::Outside {
            rows.resize(length(&mut random, limits.row_numbers(), rows.len()), 0);
        } else if random.percent(2) {
            rows.resize(random.index(2 * rows.len() + 2), 0);
        }
        let version = version(&mut generator, &mut random);
        let case = Case {
            seed: Some(settings.seed),
            number,
            limits,
            input: Input::Rows(&rows),
        };
        buffers.rows.hold(&rows, random.bits() as u32);
        let answer = told_by_both(&case, version, &rows, &buffers);
        told.count(answer);
        if answer.is_ok() {
            versions.count(version, &rows);
            in_the_other_version(&case, version, &rows, answer);
        }
        for room in rooms(answer, &mut random) {
            let junk = random.bits() as u32;
            buffers.ours.fill(room, junk);
            buffers.other.fill(room, junk);
            let answer = written_by_both(&case, version, &rows, answer, &mut buffers);
            written.count(answer);
        }
    }
    report(sets, &versions, &told, &written);
}

/// Every number occurs, and in one of a thousand cases or more.
fn report(sets: Sets, versions: &Versions, told: &Tally, written: &Tally) {
    let settings = sets.settings();
    if sets.have_room() {
        versions.report(&settings, &format!("length, {}", sets.name()));
    }
    // In the least set no row is left for a second term.
    let with_room = [0, 2, 11, 12, 13, 14, 15, 17, 18, 19];
    let in_least = [2, 11, 12, 13, 14, 18];
    let expected = sets.expected(&with_room, &in_least);
    told.report(&settings, &expected);
    told.often(&settings, &expected, settings.cases / 1000);
    let with_room = [&with_room[..], &[5]].concat();
    let expected = sets.expected(&with_room, &in_least);
    written.report(&settings, &expected);
    written.often(&settings, &expected, settings.cases / 1000);
}

/// Mostly one that there is, else one beside those, one whose low part is a
/// version, or any number.
fn version(generator: &mut Generator, random: &mut Random) -> u32 {
    match random.below(20) {
        0 => random.pick(&[0, 3]),
        1 => random.bits() as u32,
        _ => generator.version(),
    }
}

fn told_by_both(case: &Case, version: u32, rows: &[u32], buffers: &Buffers) -> Answer {
    let answer = roomscript::length(case.limits, version, buffers.rows.lent());
    let expected = due::length(case.limits, version, rows);
    case.equal(
        answer,
        expected,
        format_args!("answer of length in version {version}"),
    );
    case.same(buffers.rows.lent(), rows, "rows after length");
    case.guarded(&buffers.rows, "rows after length");
    answer
}

/// As many bytes as in the version given, or 13 where the first version lacks a
/// kind.
fn in_the_other_version(case: &Case, version: u32, rows: &[u32], told: Answer) {
    let other = 3 - version;
    let answer = roomscript::length(case.limits, other, rows);
    if other >= version_of(rows) {
        case.equal(answer, told, "length in the other version");
    } else {
        let number = answer.map_err(|refusal| refusal.number);
        case.equal(number, Err(13), "length in the first version");
    }
}

/// Lengths of outputs: none, those around the length where it is told, and
/// another one.
fn rooms(told: Answer, random: &mut Random) -> Vec<usize> {
    match told {
        Ok(length) => {
            let length = length as usize;
            let other = random.index(2 * length);
            vec![0, length - 1, length, length + 1, other]
        }
        Err(_) => vec![0, random.index(100)],
    }
}

/// Both write to an output of the same length with the same junk. Where the
/// length is refused, so is writing; where the output is shorter, that is 5;
/// else the script is written, and nothing after it.
fn written_by_both(
    case: &Case,
    version: u32,
    rows: &[u32],
    told: Answer,
    buffers: &mut Buffers,
) -> Answer {
    let Buffers { ours, other, .. } = buffers;
    let room = ours.lent().len();
    let what = format!("write in version {version} to {room} bytes");
    let answer = roomscript::write(case.limits, version, buffers.rows.lent(), ours.lent_mut());
    let expected = due::write(case.limits, version, rows, other.lent_mut());
    case.equal(answer, expected, format_args!("answer of {what}"));
    let by_length = match told {
        Ok(length) if room < length as usize => refused(5, 0),
        _ => told,
    };
    case.equal(answer, by_length, format_args!("{what}, by the length"));
    case.same(ours.lent(), other.lent(), format_args!("output of {what}"));
    case.guarded(ours, &what);
    let end = answer.map_or(0, |length| length as usize);
    case.expect(ours.junk_from(end), format_args!("the rest of {what}"));
    if answer.is_ok() {
        let script = bytes_of_all(version, rows);
        case.same(
            &ours.lent()[..end],
            &script,
            format_args!("bytes of {what}"),
        );
    }
    case.same(buffers.rows.lent(), rows, format_args!("rows after {what}"));
    case.guarded(&buffers.rows, &what);
    answer
}

mod lengths_are_told_alike {
    crate::under_each_set!(super::compare);
}
