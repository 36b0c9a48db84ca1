//! Scripts read by both programs, with all versions known and with others, and
//! written again.

use crate::common::case::{Case, Input};
use crate::common::due;
use crate::common::guarded::Guarded;
use crate::common::tally::Tally;
use crate::common::ReadAnswer;
use crate::reached::Reached;
use crate::sets::{length, Sets};
use crate::versions::Versions;
use reference::random::Random;
use reference::Generator;
use roomscript::{Script, NEWEST};

/// The buffers of a case, reused from one to the next.
struct Buffers {
    script: Guarded<u8>,
    ours: Guarded<u32>,
    other: Guarded<u32>,
    output: Guarded<u8>,
}

impl Buffers {
    fn new() -> Self {
        Buffers {
            script: Guarded::new(),
            ours: Guarded::new(),
            other: Guarded::new(),
            output: Guarded::new(),
        }
    }
}

fn compare(sets: Sets) {
    let settings = sets.settings();
    let mut generator = Generator::new(settings.seed);
    // A sequence of its own, so that the scripts depend on nothing else.
    let mut random = Random::new(!settings.seed);
    let mut buffers = Buffers::new();
    let mut tally = Tally::new(format!("read, {}", sets.name()));
    let mut some_known = Tally::new(format!("read with newest, {}", sets.name()));
    let mut reached = Reached::new(format!("read, {}", sets.name()));
    let mut versions = Versions::default();
    let mut script = Vec::new();
    for number in 0..settings.cases {
        let limits = sets.next(&mut generator);
        generator.script(&mut script);
        let newest = generator.newest();
        let case = Case {
            seed: Some(settings.seed),
            number,
            limits,
            input: Input::Script(&script),
        };
        let junk = random.bits() as u32;
        buffers.script.hold(&script, junk);
        let made_for = generator.limits().row_numbers();
        let rows = length(&mut random, limits.row_numbers(), made_for);
        buffers.ours.fill(rows, junk);
        let answer = read_by_both(&case, newest, &script, &mut buffers, junk);
        some_known.count(answer);
        buffers.ours.fill_again();
        let answer = read_by_both(&case, NEWEST, &script, &mut buffers, junk);
        tally.count(answer);
        if let Ok(read) = answer {
            judge_and_restore(&case, &script, read, &mut buffers, junk);
            reached.count(limits, buffers.ours.lent(), read.terms);
            versions.count(read.version, buffers.ours.lent());
        }
    }
    if sets.have_room() {
        reached.report(&settings);
        versions.report(&settings, &format!("read, {}", sets.name()));
    }
    // Under the least set the second term is always one too many.
    let with_room = [0, 1, 2, 10, 11, 12, 13, 14, 15, 16, 17, 18, 19];
    let in_least = [1, 2, 10, 11, 12, 13, 14, 16, 18];
    for tally in [tally, some_known] {
        tally.report(&settings, &sets.expected(&with_room, &in_least));
    }
}

/// The answer of both, with the same rows left by both.
fn read_by_both(
    case: &Case,
    newest: u32,
    script: &[u8],
    buffers: &mut Buffers,
    junk: u32,
) -> ReadAnswer {
    let Buffers { ours, other, .. } = buffers;
    other.fill(ours.lent().len(), junk);
    let answer = roomscript::read(case.limits, newest, buffers.script.lent(), ours.lent_mut());
    let expected = due::read(case.limits, newest, script, other.lent_mut());
    case.equal(
        answer,
        expected,
        format_args!("answer of read with {newest}"),
    );
    case.same(ours.lent(), other.lent(), "rows after read");
    case.guarded(ours, "rows after read");
    case.same(buffers.script.lent(), script, "script after read");
    case.guarded(&buffers.script, "script after read");
    if let Err(refusal) = answer {
        case.unchanged_by_caller(refusal.number, &buffers.ours, "rows after read");
    }
    answer
}

/// The rows of a script that was read are accepted, their length in its version
/// is the script's, and writing them in it restores every byte and no more.
fn judge_and_restore(case: &Case, script: &[u8], read: Script, buffers: &mut Buffers, junk: u32) {
    let Buffers {
        ours: rows, output, ..
    } = buffers;
    case.equal(
        roomscript::judge_rows(case.limits, rows.lent()),
        Ok(read.terms),
        "rows that were read, judged",
    );
    case.equal(
        roomscript::length(case.limits, read.version, rows.lent()),
        Ok(script.len() as u32),
        "length of the rows that were read",
    );
    output.fill(script.len() + 3, junk);
    case.equal(
        roomscript::write(case.limits, read.version, rows.lent(), output.lent_mut()),
        Ok(script.len() as u32),
        "rows that were read, written",
    );
    case.same(
        &output.lent()[..script.len()],
        script,
        "script written after read",
    );
    case.expect(output.junk_from(script.len()), "bytes past the script");
    case.guarded(output, "output");
}

mod scripts_are_read_alike {
    crate::under_each_set!(super::compare);
}
