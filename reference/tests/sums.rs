//! Sums: judged and read as belows are, held to the ends of the range.

mod common;

use common::*;
use reference::{check, run, run_unchecked, Limits, Refusal};

const MIN: i32 = i32::MIN;
const MAX: i32 = i32::MAX;
const HALF: i32 = 1 << 30;

/// Both runs give this answer and leave the store tidy.
fn assert_answer(terms: &[Term], answer: i32, cells: u32) {
    for limits in [LIMITS, Limits::LARGEST] {
        for run in RUNS {
            let (result, store) = run_over_junk(run, limits, terms);
            assert_eq!(result, ran(answer, cells));
            assert_eq!(store, tidy_under(limits, cells));
        }
    }
}

/// The sum of two numbers, of two boxed ones, and of two that are borrowed.
fn assert_sum(first: i32, second: i32, due: i32) {
    let plain = [
        let_(0, number(first)),
        let_(63, number(second)),
        sum((0, 0), (63, 0)),
    ];
    assert_answer(&plain, due, 0);
    let boxed_ones = [
        let_(0, boxes(8, number(first))),
        let_(1, boxed(number(second))),
        sum((0, 8), (1, 1)),
    ];
    assert_answer(&boxed_ones, due, 9);
    let borrowed = [
        let_(0, boxed(number(first))),
        let_(1, shared((0, 1))),
        let_(2, shared((1, 0))),
        let_(3, number(second)),
        let_(4, exclusive((3, 0))),
        sum((2, 2), (4, 1)),
    ];
    assert_answer(&borrowed, due, 1);
}

#[test]
fn held_to_both_ends() {
    assert_sum(MAX, MAX, MAX);
    assert_sum(MIN, MIN, MIN);
    assert_sum(MAX, 1, MAX);
    assert_sum(2, MAX - 1, MAX);
    assert_sum(MIN, -1, MIN);
    assert_sum(-2, MIN + 1, MIN);
    assert_sum(HALF, HALF, MAX);
    assert_sum(-HALF, -HALF - 1, MIN);
}

#[test]
fn at_the_ends_and_inside() {
    assert_sum(MAX, MIN, -1);
    assert_sum(MIN, MAX, -1);
    assert_sum(MAX, 0, MAX);
    assert_sum(1, MAX - 1, MAX);
    assert_sum(0, MIN, MIN);
    assert_sum(MIN + 1, -1, MIN);
    assert_sum(MAX, -1, MAX - 1);
    assert_sum(1, MIN, MIN + 1);
    assert_sum(HALF, HALF - 1, MAX);
    assert_sum(-HALF, -HALF, MIN);
    assert_sum(185, -200, -15);
    assert_sum(-1, 1, 0);
    assert_sum(0, 0, 0);
}

#[test]
fn all_pairs_at_the_ends() {
    let ends = [MIN, MIN + 1, -HALF, -1, 0, 1, HALF, MAX - 1, MAX];
    for first in ends {
        for second in ends {
            assert_sum(first, second, first.saturating_add(second));
        }
    }
}

/// One reading and an offset, as installers write it.
#[test]
fn of_readings() {
    for (index, reading_of) in READINGS.into_iter().enumerate() {
        for offset in [5, -5, 0, MIN, MAX] {
            let terms = [
                let_(0, reading(index as u8)),
                let_(1, number(offset)),
                sum((0, 0), (1, 0)),
            ];
            assert_answer(&terms, reading_of.saturating_add(offset), 0);
        }
    }
}

#[test]
fn the_value_of_a_sum_is_a_number() {
    // Held once, then added again: what was cut off does not come back.
    let twice = [
        let_(0, number(MAX)),
        let_(1, boxed(sum((0, 0), (0, 0)))),
        let_(2, number(-5)),
        sum((1, 1), (2, 0)),
    ];
    assert_answer(&twice, MAX - 5, 1);
    let assigned = [
        let_(0, number(7)),
        assign((0, 0), sum((0, 0), (0, 0))),
        assign((0, 0), sum((0, 0), (0, 0))),
        copy((0, 0)),
    ];
    assert_answer(&assigned, 28, 0);
    let through = [
        let_(0, number(7)),
        let_(1, exclusive((0, 0))),
        assign((1, 1), block(&[sum((1, 1), (1, 1))])),
        copy((1, 1)),
    ];
    assert_answer(&through, 14, 0);
    let compared = [
        let_(0, number(MAX)),
        let_(1, sum((0, 0), (0, 0))),
        below((0, 0), (1, 0)),
    ];
    assert_answer(&compared, 0, 0);
    // Dropped, it leaves nothing behind.
    let dropped = [let_(0, boxed(number(3))), sum((0, 1), (0, 1)), number(4)];
    assert_answer(&dropped, 4, 1);
    let to_a_box = [
        let_(0, boxed(number(1))),
        assign((0, 0), sum((0, 1), (0, 1))),
        number(0),
    ];
    assert_eq!(judge(&to_a_box), refused(39, 4));
    let followed = [
        let_(0, number(1)),
        let_(1, sum((0, 0), (0, 0))),
        copy((1, 1)),
    ];
    assert_eq!(judge(&followed), refused(32, 5));
}

/// A below or a sum.
type OfTwo = fn(Place, Place) -> Term;

/// What the check answers for a sum of these places after these terms. It is
/// what it answers for a below, and the run refuses likewise.
fn judge_both(before: &[Term], first: Place, second: Place) -> Result<(), Refusal> {
    let kinds: [OfTwo; 2] = [below, sum];
    let [compared, added] = kinds.map(|of_two| {
        let terms = [before, &[of_two(first, second)]].concat();
        let answer = check_terms(&terms);
        let (result, store) = run_over_junk(run, LIMITS, &terms);
        if let Err(refusal) = answer {
            assert_eq!(result, Err(refusal));
            assert_eq!(store, junk(LIMITS));
        }
        answer
    });
    assert_eq!(compared, added);
    in_use(before, first, second).map_or(added.map(|_| ()), Err)
}

/// Why both are refused while every variable is in use.
fn in_use(before: &[Term], first: Place, second: Place) -> Option<Refusal> {
    let kinds: [OfTwo; 2] = [below, sum];
    let [compared, added] =
        kinds.map(|of_two| refused_in_use(&[before, &[of_two(first, second)]].concat()));
    assert_eq!(compared, added);
    added
}

#[test]
fn each_place_is_judged_as_in_below() {
    let one = let_(0, number(1));
    let a_box = let_(1, boxed(number(2)));
    let before = [one, a_box];
    let judge = |more: &[Term], place| {
        let terms = [&before[..], more].concat();
        let first = judge_both(&terms, place, (0, 0));
        assert_eq!(judge_both(&terms, (0, 0), place), first);
        first
    };
    assert_eq!(judge(&[], (0, 0)), Ok(()));
    assert_eq!(judge(&[], (1, 1)), Ok(()));
    assert_eq!(judge(&[], (9, 0)), refused(31, 6));
    assert_eq!(judge(&[], (0, 1)), refused(32, 6));
    assert_eq!(judge(&[], (1, 2)), refused(32, 6));
    assert_eq!(judge(&[], (1, 0)), refused(39, 6));
    // Moved away on the path, the value itself, and a part of the value.
    assert_eq!(judge(&[mov((1, 0))], (1, 1)), refused(33, 7));
    assert_eq!(judge(&[mov((1, 1))], (1, 1)), refused(33, 7));
    assert_eq!(judge(&[mov((1, 1))], (1, 0)), refused(33, 7));
    let lent = [let_(2, exclusive((1, 1)))];
    assert_eq!(judge(&lent, (1, 1)), refused(34, 8));
    // Barred comes before what is no number.
    assert_eq!(judge(&lent, (1, 0)), refused(34, 8));
    assert_eq!(judge(&lent, (2, 1)), Ok(()));
    assert_eq!(judge(&lent, (2, 0)), refused(39, 8));
    let lent = [let_(2, shared((1, 1)))];
    assert_eq!(judge(&lent, (1, 1)), Ok(()));
    assert_eq!(judge(&lent, (2, 1)), Ok(()));
    assert_eq!(judge(&lent, (2, 0)), refused(39, 8));
    // What is followed has been moved away, by way of the borrow's own root.
    let gone = [let_(2, shared((1, 1))), mov((2, 0))];
    assert_eq!(judge(&gone, (2, 1)), refused(33, 9));
}

#[test]
fn the_first_place_is_judged_whole_before_the_second() {
    let before = [
        let_(0, number(1)),
        let_(1, boxed(number(2))),
        let_(2, number(3)),
        let_(3, exclusive((2, 0))),
        let_(4, number(4)),
        mov((4, 0)),
    ];
    let wrong = [
        ((9, 0), 31),
        ((0, 1), 32),
        ((4, 0), 33),
        ((2, 0), 34),
        ((1, 0), 39),
    ];
    for (first, number) in wrong {
        for (second, _) in wrong {
            assert_eq!(judge_both(&before, first, second), refused(number, 13));
        }
        assert_eq!(judge_both(&before, (1, 1), first), refused(number, 13));
    }
}

#[test]
fn inside_other_terms_the_sum_is_named() {
    let wrong = || sum((0, 0), (9, 0));
    let one = let_(0, number(1));
    let inner = [one.clone(), let_(1, boxed(wrong())), number(0)];
    assert_eq!(judge(&inner), refused(31, 5));
    let right = [one.clone(), assign((9, 0), block(&[wrong()])), number(0)];
    assert_eq!(judge(&right), refused(31, 5));
    // In its own let the variable is not yet in scope.
    assert_eq!(
        judge(&[let_(0, sum((0, 0), (0, 0))), number(0)]),
        refused(31, 2)
    );
}

/// What an unchecked run of a sum of these places after these terms answers,
/// with the store. It is what a below meets.
fn fault_both(before: &[Term], first: Place, second: Place) -> Result<(), Refusal> {
    let kinds: [OfTwo; 2] = [below, sum];
    let [compared, added] = kinds.map(|of_two| {
        let terms = [before, &[of_two(first, second)]].concat();
        let (answer, store) = unchecked(&terms);
        (answer.map(|_| ()), store)
    });
    assert_eq!(compared, added);
    added.0
}

#[test]
fn faults_of_the_first_place_then_of_the_second() {
    let before = [
        let_(0, number(1)),
        let_(1, boxed(number(2))),
        let_(2, number(3)),
        mov((2, 0)),
        let_(3, block(&[let_(4, number(5)), shared((4, 0))])),
        let_(5, shared((0, 0))),
    ];
    let wrong = [
        ((9, 0), 60), // closed
        ((2, 0), 60), // empty
        ((2, 1), 60), // a follow of nothing
        ((3, 1), 60), // leads to a closed row
        ((0, 1), 61), // a follow of a number
        ((1, 0), 61), // an owner
        ((5, 0), 61), // a reference
    ];
    for (first, number) in wrong {
        for (second, _) in wrong {
            assert_eq!(fault_both(&before, first, second), refused(number, 16));
        }
        assert_eq!(fault_both(&before, (1, 1), first), refused(number, 16));
        assert_eq!(fault_both(&before, (5, 1), first), refused(number, 16));
    }
    assert_eq!(fault_both(&before, (5, 1), (1, 1)), Ok(()));
}

#[test]
fn a_fault_leaves_the_store_as_it_was() {
    let terms = [
        let_(0, number(MAX)),
        let_(1, boxed(number(2))),
        assign((0, 0), sum((0, 0), (1, 0))),
        number(0),
    ];
    let (answer, store) = unchecked(&terms);
    assert_eq!(answer, refused(61, 7));
    assert_eq!(variable_row(&store, 0), [1, 1, MAX as u32]);
    assert_eq!(variable_row(&store, 1), [1, 2, 0]);
    assert_eq!(cell_row(&store, 0), [1, 1, 2]);
    assert_eq!(store.iter().filter(|field| **field != 0).count(), 8);
}

#[test]
fn rows_need_no_version() {
    let terms = [let_(0, reading(5)), sum((0, 0), (0, 0))];
    let rows = rows_of(&script_of(2, &terms));
    assert_eq!(rows[15..20], [13, 0, 0, 0, 0]);
    assert_eq!(check(LIMITS, &rows), Ok(4));
    for run in RUNS {
        let mut store = junk(LIMITS);
        assert_eq!(run(LIMITS, &rows, &READINGS, &mut store), ran(MAX, 0));
    }
    for unknown in [14, 0x10D, 0x8000_000D] {
        let mut rows = rows.clone();
        rows[15] = unknown;
        assert_eq!(check(LIMITS, &rows), refused(13, 3));
        let mut store = junk(LIMITS);
        let answer = run_unchecked(LIMITS, &rows, &READINGS, &mut store);
        assert_eq!(answer, refused(13, 3));
        assert_eq!(run(LIMITS, &rows, &READINGS, &mut store), refused(13, 3));
        assert_eq!(store, junk(LIMITS));
    }
}
