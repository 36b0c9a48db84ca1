//! Scripts read and run by whole calls, by the reference program's read and run
//! one after the other, and by the library's.

use crate::common::case::{Case, Input};
use crate::common::due;
use crate::common::guarded::Guarded;
use crate::common::store::tidy_or_unchanged;
use crate::common::tally::Tally;
use crate::common::terms::version_of;
use crate::layers::AUTHOR;
use crate::sets::{length, near_misses_under, Sets};
use crate::written::Written;
use reference::random::Random;
use reference::Generator;
use roomscript::{Called, Limits, Ran, Refusal, Script, MAX_BYTES, NEWEST};

/// The buffers of a case, reused from one to the next.
struct Buffers {
    script: Guarded<u8>,
    readings: Guarded<i32>,
    rows: Written,
    store: Written,
}

impl Buffers {
    fn new() -> Self {
        Buffers {
            script: Guarded::new(),
            readings: Guarded::new(),
            rows: Written::new(),
            store: Written::new(),
        }
    }

    /// Lends the script and the readings, and junk to write on, seldom of a
    /// length that is refused.
    fn lend(&mut self, case: &Case, made_for: Limits, random: &mut Random) {
        let Input::Call(script, given) = case.input else {
            panic!("a case of another kind");
        };
        let (limits, junk) = (case.limits, random.bits() as u32);
        let rows = length(random, limits.row_numbers(), made_for.row_numbers());
        self.rows.fill(rows, junk);
        let store = length(random, limits.store_numbers(), made_for.store_numbers());
        self.store.fill(store, !junk);
        let mut given = given.to_vec();
        given.resize(length(random, given.len(), given.len()), 5);
        self.script.hold(script, junk);
        self.readings.hold(&given, junk);
    }

    /// Script and readings are as they were lent.
    fn only_read(&self, case: &Case, script: &[u8], given: &[i32]) {
        case.same(self.script.lent(), script, "script after call");
        case.guarded(&self.script, "script after call");
        case.same(self.readings.lent(), given, "readings after call");
        case.guarded(&self.readings, "readings after call");
    }
}

/// The answer of both, with the same rows and store left by both.
fn call_by_both(case: &Case, script: &[u8], buffers: &mut Buffers) -> Result<Called, Refusal> {
    let Buffers { rows, store, .. } = buffers;
    let given = buffers.readings.lent().to_vec();
    let answer = roomscript::call(
        case.limits,
        buffers.script.lent(),
        buffers.readings.lent(),
        rows.ours.lent_mut(),
        store.ours.lent_mut(),
    );
    let (other_rows, other_store) = (rows.other.lent_mut(), store.other.lent_mut());
    let lengths = [other_rows.len(), other_store.len(), given.len()];
    let expected = due::call(case.limits, script, &given, other_rows, other_store);
    case.equal(
        answer,
        expected,
        format_args!("answer of call with rows, store and readings of {lengths:?}"),
    );
    rows.compare(case, "rows after call");
    store.compare(case, "store after call");
    let cells = answer.map(|called| called.cells);
    let left = tidy_or_unchanged(case.limits, cells, &store.ours);
    case.expect(left, "the store after call is neither tidy nor unchanged");
    if let Err(refusal) = answer {
        case.unchanged_by_caller(refusal.number, &rows.ours, "rows after call");
    }
    buffers.only_read(case, script, &given);
    answer
}

/// A call is read and then run, with the same rows and store left. Only the
/// lengths of store and readings are judged before the bytes.
fn read_then_run(case: &Case, answer: Result<Called, Refusal>, buffers: &mut Buffers) {
    if let Err(Refusal { number: 3 | 4, .. }) = answer {
        return;
    }
    let Buffers { rows, store, .. } = buffers;
    rows.other.fill_again();
    store.other.fill_again();
    let (script, given) = (buffers.script.lent(), buffers.readings.lent());
    let read = roomscript::read(case.limits, NEWEST, script, rows.other.lent_mut());
    let run = |Script { terms, .. }| {
        let on = store.other.lent_mut();
        let ran = roomscript::run(case.limits, rows.other.lent(), given, on);
        ran.map(|Ran { answer, cells }| Called {
            answer,
            terms,
            cells,
        })
    };
    case.equal(
        answer,
        read.and_then(run),
        "answer of call, read and then run",
    );
    rows.compare(case, "rows after call, read and then run");
    store.compare(case, "store after call, read and then run");
    case.guarded(&rows.other, "rows after read and then run");
    case.guarded(&store.other, "store after read and then run");
}

type Make = fn(&mut Generator, &mut Random, &mut Vec<u8>);

fn compare(make: Make, name: &str, sets: Sets, expected: &[u32], rare: &[u32]) {
    let settings = sets.settings();
    let mut generator = Generator::new(settings.seed);
    let mut random = Random::new(!settings.seed);
    let mut buffers = Buffers::new();
    let mut tally = Tally::new(format!("call, {name}, {}", sets.name()));
    let mut script = Vec::new();
    for number in 0..settings.cases {
        let limits = sets.next(&mut generator);
        make(&mut generator, &mut random, &mut script);
        let given = generator.readings();
        let case = Case {
            seed: Some(settings.seed),
            number,
            limits,
            input: Input::Call(&script, &given),
        };
        buffers.lend(&case, due::ours(generator.limits()), &mut random);
        let answer = call_by_both(&case, &script, &mut buffers);
        read_then_run(&case, answer, &mut buffers);
        tally.count(answer);
    }
    tally.report_with(&settings, expected, rare);
}

/// The bytes of rows that the generator makes, under its set or, where no
/// script is within that, under the least one above it that has room. Those
/// without a kind of version 2 are in either version.
fn written(
    generator: &mut Generator,
    make: fn(&mut Generator, &mut Vec<u32>),
    random: &mut Random,
    script: &mut Vec<u8>,
) {
    let own = generator.limits();
    let roomy = reference::Limits {
        terms: own.terms.max(2),
        levels: own.levels.max(2),
        ..own
    };
    generator.set_limits(roomy);
    let mut rows = Vec::new();
    make(generator, &mut rows);
    generator.set_limits(own);
    script.resize(MAX_BYTES, 0);
    let version = version_of(&rows).max(random.between(1, 2));
    let length = reference::write(roomy, version, &rows, script).expect("rows of a script");
    script.truncate(length as usize);
}

fn accepted(generator: &mut Generator, random: &mut Random, script: &mut Vec<u8>) {
    written(generator, Generator::accepted_rows, random, script);
}

fn near_miss(generator: &mut Generator, random: &mut Random, script: &mut Vec<u8>) {
    written(generator, Generator::near_miss_rows, random, script);
}

/// Half of them are accepted scripts with a byte or two changed, so that they
/// are often still read.
fn damaged(generator: &mut Generator, random: &mut Random, script: &mut Vec<u8>) {
    if random.percent(50) {
        return generator.script(script);
    }
    accepted(generator, random, script);
    for _ in 0..random.between(1, 2) {
        let at = random.index(script.len());
        script[at] = match random.below(3) {
            0 => script[at].wrapping_add(1),
            1 => script[at].wrapping_sub(1),
            _ => random.below(15) as u8,
        };
    }
}

/// Under a set without room for any script the second term is one too many, or
/// too deep.
fn without_room(sets: Sets) -> &'static [u32] {
    match sets {
        Sets::Within => &[15, 16],
        _ => &[],
    }
}

fn accepted_scripts(sets: Sets) {
    let expected = sets.expected(&[0, 2, 3, 4], &[2, 3, 4, 16]);
    compare(accepted, "accepted", sets, &expected, without_room(sets));
}

fn near_misses(sets: Sets) {
    let (author, rare) = near_misses_under(sets);
    let expected = sets.expected(&[&author[..], &[2, 3, 4]].concat(), &[2, 3, 4, 16]);
    let rare = [rare, without_room(sets)].concat();
    compare(near_miss, "near misses", sets, &expected, &rare);
}

fn damaged_scripts(sets: Sets) {
    let all: Vec<u32> = (0..=4).chain(10..=19).collect();
    let in_least = [1, 2, 3, 4, 10, 11, 12, 13, 14, 16, 18];
    let expected = sets.expected(&all, &in_least);
    let rare: &[u32] = match sets {
        Sets::LEAST | Sets::Outside => &[],
        _ => &AUTHOR,
    };
    compare(damaged, "damaged", sets, &expected, rare);
}

mod accepted_scripts_are_called_alike {
    crate::under_each_set!(super::accepted_scripts);
}

mod near_misses_are_called_alike {
    crate::under_each_set!(super::near_misses);
}

mod damaged_scripts_are_called_alike {
    crate::under_each_set!(super::damaged_scripts);
}
