//! The same script under two sets, one of which is nowhere smaller: what the
//! smaller one takes, the library answers alike under both (LANGUAGE 7.7).

use crate::common::case::{Case, Input};
use crate::common::due;
use crate::common::guarded::Guarded;
use crate::common::settings::Settings;
use crate::common::store::{laid_out_again, tidy_or_unchanged};
use crate::common::tally::Tally;
use crate::common::terms::version_of;
use crate::common::{Answer, RunAnswer, UncheckedAnswer};
use crate::layers::FAULTS;
use reference::random::Random;
use reference::Generator;
use roomscript::{Called, Limits, Refusal, Script, MAX_BYTES};

/// What the library answers under one set, and what it leaves.
#[derive(Debug, PartialEq)]
struct Answers {
    judged: Answer,
    checked: Answer,
    ran: RunAnswer,
    ran_unchecked: UncheckedAnswer,
    /// As the unchecked run leaves it.
    store: Vec<u32>,
    length: Answer,
    script: Vec<u8>,
    called: Result<Called, Refusal>,
}

/// Asks for everything about rows under the set of a case. Reading the bytes
/// of the rows gives them back, as a whole call does.
fn ask(case: &Case, rows: &[u32], given: &[i32], junk: u32) -> Answers {
    let limits = case.limits;
    let mut store = Guarded::junk(limits.store_numbers(), junk);
    let ran = roomscript::run(limits, rows, given, store.lent_mut());
    case.guarded(&store, "store after run");
    let left = tidy_or_unchanged(limits, ran.map(|ran| ran.cells), &store);
    case.expect(left, "the store after run is neither tidy nor unchanged");
    store.fill_again();
    let ran_unchecked = roomscript::run_unchecked(limits, rows, given, store.lent_mut());
    case.guarded(&store, "store after run_unchecked");
    let mut script = vec![0; MAX_BYTES];
    // In either version where both have the kinds of the rows.
    let version = version_of(rows).max(1 + junk % 2);
    let bytes = roomscript::write(limits, version, rows, &mut script).expect("rows of a script");
    script.truncate(bytes as usize);
    let mut again = Guarded::junk(limits.row_numbers(), junk);
    let judged = roomscript::judge_rows(limits, rows);
    case.equal(
        roomscript::read(limits, version, &script, again.lent_mut()),
        judged.map(|terms| Script { version, terms }),
        "answer of read",
    );
    case.same(again.lent(), rows, "rows after read");
    again.fill(limits.row_numbers(), !junk);
    let mut called_on = Guarded::junk(limits.store_numbers(), !junk);
    let (lent, on) = (again.lent_mut(), called_on.lent_mut());
    let called = roomscript::call(limits, &script, given, lent, on);
    case.same(again.lent(), rows, "rows after call");
    case.guarded(&again, "rows after call");
    case.guarded(&called_on, "store after call");
    Answers {
        judged,
        checked: roomscript::check(limits, rows),
        ran,
        ran_unchecked,
        store: store.lent().to_vec(),
        length: roomscript::length(limits, version, rows),
        script,
        called,
    }
}

/// Any kind of rows of the right form.
fn make(generator: &mut Generator, number: u64, rows: &mut Vec<u32>) {
    match number % 4 {
        0 | 1 => generator.accepted_rows(rows),
        2 => generator.near_miss_rows(rows),
        _ => generator.wild_rows(rows),
    }
}

/// A set with room for scripts, mostly a small one, for the generator.
fn smaller(generator: &mut Generator, random: &mut Random) -> Limits {
    let mut limits = generator.limits_within();
    if random.percent(80) {
        limits.terms = limits.terms.min(random.between(2, 200));
    }
    limits.terms = limits.terms.max(2);
    limits.levels = limits.levels.max(2);
    generator.set_limits(limits);
    due::ours(limits)
}

#[test]
fn what_a_set_takes_is_answered_alike_under_larger_ones() {
    let settings = Settings::from_environment();
    let mut generator = Generator::new(settings.seed);
    let mut random = Random::new(!settings.seed);
    let mut ran = Tally::new("run, two sets");
    let mut ran_unchecked = Tally::new("run_unchecked, two sets");
    let mut rows = Vec::new();
    for number in 0..settings.cases {
        let limits = smaller(&mut generator, &mut random);
        make(&mut generator, number, &mut rows);
        let given = generator.readings();
        let larger = due::ours(generator.limits_above());
        let case = |limits| Case {
            seed: Some(settings.seed),
            number,
            limits,
            input: Input::Run(&rows, &given),
        };
        let junk = random.bits() as u32;
        let mut answers = ask(&case(limits), &rows, &given, junk);
        let mut laid_out = rows.clone();
        laid_out.resize(larger.row_numbers(), 0);
        let under_larger = ask(&case(larger), &laid_out, &given, junk);
        answers.store = laid_out_again(&answers.store, limits, larger);
        ran.count(answers.ran);
        ran_unchecked.count_unchecked(answers.ran_unchecked);
        case(limits).equal(under_larger, answers, format_args!("under {larger:?}"));
    }
    let author: Vec<u32> = [0].into_iter().chain(30..=41).chain([43]).collect();
    ran.report_with(&settings, &author, &[42]);
    ran_unchecked.report(&settings, &FAULTS);
}
