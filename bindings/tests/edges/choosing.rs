//! Choices checked each by itself and run: the place, the two values, the branch
//! that runs and the one that does nothing, and the faults of unchecked runs.
//! What both branches leave together is in `joins`.

use crate::common::store::{cell, store_of, StoreRow};
use crate::common::terms::*;
use crate::common::{fault, ran, refused, RunAnswer, UncheckedAnswer};
use crate::hand::*;
use crate::in_use::{accepts_in_use, checks_in_use};
use roomscript::Refusal;

/// What a run answers where the first reading is not 0, and where it is.
#[track_caller]
pub fn runs_either_way(terms: &[Term]) -> [RunAnswer; 2] {
    assert_eq!(accepts(terms), Ok(()));
    [READINGS, FIRST_0].map(|readings| runs_given(terms, &readings))
}

/// `let v0=reading 0`, and then these terms.
pub fn by_reading(terms: &[Term]) -> Vec<Term> {
    [&[let_(0, reading(0))], terms].concat()
}

#[test]
fn the_first_branch_runs_where_the_number_is_not_0() {
    for value in [1, -1, 2, 256, 65_536, 1 << 24, i32::MIN, i32::MAX] {
        let by = |value| {
            let chosen = choice((5, 0), &[number(7)], &[number(8)]);
            runs(&[let_(5, number(value)), chosen])
        };
        assert_eq!(by(value), ran(7, 0), "{value}");
        assert_eq!(by(0), ran(8, 0));
    }
    for (index, value) in (0..).zip(READINGS) {
        let chosen = choice((5, 0), &[number(7)], &[number(8)]);
        let answer = if value == 0 { 8 } else { 7 };
        assert_eq!(runs(&[let_(5, reading(index)), chosen]), ran(answer, 0));
    }
}

#[test]
fn through_boxes_and_borrows() {
    let by = |place, before: &[Term]| {
        let chosen = choice(place, &[copy(place)], &[number(8)]);
        runs_either_way(&by_reading(&[before, &[chosen]].concat()))
    };
    let both = [ran(185, 0), ran(8, 0)];
    assert_eq!(by((1, 1), &[let_(1, shared((0, 0)))]), both);
    assert_eq!(by((1, 1), &[let_(1, exclusive((0, 0)))]), both);
    let boxed_one = let_(1, boxes(8, copy((0, 0))));
    assert_eq!(by((1, 8), &[boxed_one]), [ran(185, 8), ran(8, 8)]);
    let twice = [let_(1, shared((0, 0))), let_(2, boxed(shared((1, 0))))];
    assert_eq!(by((2, 3), &twice), [ran(185, 1), ran(8, 1)]);
}

/// What the check answers of a choice on a place after these terms, which is
/// what it answers of a below of that place.
#[track_caller]
fn judges_place(before: &[Term], place: Place) -> Result<(), Refusal> {
    let with = |term: Term| accepts_in_use(&[before, &[term]].concat());
    let chosen = with(choice(place, &[number(1)], &[number(2)]));
    assert_eq!(with(below(place, (0, 0))), chosen);
    chosen
}

#[test]
fn the_place_is_judged_as_in_below_and_first() {
    let before = [
        let_(0, number(1)),
        let_(1, boxed(number(2))),
        let_(2, number(3)),
        let_(3, exclusive((2, 0))),
        let_(4, number(4)),
        mov((4, 0)),
        let_(5, boxed(number(5))),
        mov((5, 1)),
    ];
    let wrong = [
        ((9, 0), 31),
        ((0, 1), 32),
        ((4, 0), 33),
        ((5, 1), 33),
        ((5, 0), 33),
        ((2, 0), 34),
        ((1, 0), 39),
        ((3, 0), 39),
    ];
    for (place, number) in wrong {
        assert_eq!(judges_place(&before, place), refused(number, 17));
        // Before anything in the branches, and before their values.
        let chosen = choice(place, &[copy((8, 0))], &[boxed(reading(0))]);
        let terms = [&before[..], &[chosen]].concat();
        assert_eq!(checks_in_use(&terms), refused(number, 17));
    }
    for place in [(0, 0), (1, 1), (3, 1)] {
        assert_eq!(judges_place(&before, place), Ok(()));
    }
}

/// Each branch is judged whichever a run would take, the first one first.
#[test]
fn both_branches_are_judged() {
    let with = |first: Term, second: Term| {
        checks(&by_reading(&[
            choice((0, 0), &[first], &[second]),
            number(0),
        ]))
    };
    assert_eq!(with(copy((9, 0)), number(1)), refused(31, 5));
    assert_eq!(with(number(1), copy((9, 0))), refused(31, 7));
    assert_eq!(with(copy((9, 0)), copy((0, 1))), refused(31, 5));
    // From the state before: what the first moved away is there for the
    // second, and its variables are not.
    assert_eq!(with(mov((0, 0)), mov((0, 0))), Ok(9));
    let local = |term: Term| choice((0, 0), &[let_(1, number(1)), number(1)], &[term]);
    let terms = by_reading(&[local(copy((1, 0))), number(0)]);
    assert_eq!(checks(&terms), refused(31, 9));
    // A borrow of the first bars nothing in the second.
    let first = [let_(1, exclusive((0, 0))), number(1)];
    let held = choice((0, 0), &first, &[copy((0, 0))]);
    assert_eq!(accepts(&by_reading(&[held])), Ok(()));
}

#[test]
fn numbers_of_the_first_branch_stay_taken() {
    let one = |variable| let_(variable, number(1));
    let with = |first, second, after: Term| {
        let chosen = choice((0, 0), &[one(first)], &[one(second)]);
        checks(&by_reading(&[chosen, after, number(0)]))
    };
    assert_eq!(with(1, 1, number(0)), refused(30, 8));
    assert_eq!(with(1, 2, one(1)), refused(30, 10));
    assert_eq!(with(1, 2, one(2)), refused(30, 10));
    assert_eq!(with(1, 2, one(3)), Ok(13));
    // Also that of a let around the choice.
    let around = let_(1, choice((0, 0), &[number(1)], &[one(1), number(1)]));
    assert_eq!(checks(&by_reading(&[around])), refused(30, 8));
}

/// Terms with a value of each type, or with none, and a type each.
fn values() -> Vec<(Term, u32)> {
    vec![
        (number(1), 0),
        (copy((1, 0)), 0),
        (boxed(number(1)), 1),
        (mov((3, 0)), 1),
        (boxed(boxed(number(1))), 2),
        (shared((1, 0)), 3),
        (shared((3, 1)), 3),
        (exclusive((1, 0)), 4),
        (boxed(shared((1, 0))), 5),
        (shared((3, 0)), 6),
        (assign((1, 0), number(2)), 7),
        (block(&[assign((2, 0), number(2))]), 7),
    ]
}

#[test]
fn the_values_have_the_same_links() {
    let before = by_reading(&[
        let_(1, number(1)),
        let_(2, number(2)),
        let_(3, boxed(number(3))),
    ]);
    for (first, of_first) in values() {
        for (second, of_second) in values() {
            let chosen = choice((0, 0), &[first.clone()], &[second]);
            let terms = [&before[..], &[chosen, number(0)]].concat();
            let due = match of_first == of_second {
                true => Ok(()),
                false => refused(39, 10),
            };
            assert_eq!(accepts(&terms), due);
        }
    }
}

#[test]
fn its_value_is_that_of_the_branches() {
    let none = || choice((0, 0), &[let_(1, number(1))], &[assign((0, 0), number(1))]);
    let boxed_one = || choice((0, 0), &[boxed(number(1))], &[boxed(number(2))]);
    for wrap in [boxed, |term| let_(2, term), |term| assign((0, 0), term)] {
        let terms = by_reading(&[wrap(none()), number(0)]);
        assert_eq!(checks(&terms), refused(41, 3));
    }
    assert_eq!(checks(&by_reading(&[none()])), refused(43, 0));
    assert_eq!(checks(&by_reading(&[boxed_one()])), refused(43, 0));
    let to_a_number = by_reading(&[assign((0, 0), boxed_one()), number(0)]);
    assert_eq!(checks(&to_a_number), refused(39, 3));
    let nine = by_reading(&[let_(1, boxes(8, boxed_one())), number(0)]);
    assert_eq!(checks(&nine), refused(42, 4));
    let eight = by_reading(&[let_(1, boxes(7, boxed_one())), copy((1, 8))]);
    assert_eq!(runs_either_way(&eight), [ran(1, 8), ran(2, 8)]);
    // A borrow of its own variable cannot leave a branch.
    let local = || [let_(1, number(1)), shared((1, 0))];
    let first = choice((0, 0), &local(), &[shared((0, 0))]);
    assert_eq!(checks(&by_reading(&[first, number(0)])), refused(40, 4));
    let second = choice((0, 0), &[shared((0, 0))], &local());
    assert_eq!(checks(&by_reading(&[second, number(0)])), refused(40, 6));
}

#[test]
fn as_inner_terms_and_nested() {
    let of = |first, second| choice((0, 0), &[number(first)], &[number(second)]);
    let two = |terms: &[Term]| runs_either_way(&by_reading(terms));
    let in_a_box = [let_(1, boxed(of(10, 20))), copy((1, 1))];
    assert_eq!(two(&in_a_box), [ran(10, 1), ran(20, 1)]);
    let right = [assign((0, 0), of(10, 20)), copy((0, 0))];
    assert_eq!(two(&right), [ran(10, 0), ran(20, 0)]);
    let inner = |outer: u32| choice((outer, 0), &[of(1, 2)], &[of(3, 4)]);
    let nested = [let_(1, reading(1)), let_(2, reading(2)), inner(1)];
    assert_eq!(two(&nested), [ran(1, 0), ran(2, 0)]);
    let nested = [let_(1, reading(1)), let_(2, reading(2)), inner(2)];
    assert_eq!(two(&nested), [ran(3, 0), ran(4, 0)]);
    // One after the other, the second by what the first has written.
    let written = |value| [assign((0, 0), number(value))];
    let again = [choice((0, 0), &written(0), &written(5)), of(1, 2)];
    assert_eq!(two(&again), [ran(2, 0), ran(1, 0)]);
    // Dropped, their values leave nothing.
    let dropped = [
        choice((0, 0), &[boxed(number(1))], &[boxed(number(2))]),
        copy((0, 0)),
    ];
    assert_eq!(two(&dropped), [ran(185, 1), ran(0, 1)]);
    // As deep as the levels.
    let deep = (0..7).fold(number(1), |inner, _| choice((0, 0), &[inner], &[number(0)]));
    assert_eq!(two(&[deep]), [ran(1, 0), ran(0, 0)]);
}

/// `let v1=box 4`, a choice of which each branch has boxes and an assign, and
/// `let v3=box 7`.
fn with_boxes(last: Term) -> Vec<Term> {
    let first = [
        let_(2, boxes(3, number(1))),
        assign((1, 1), number(5)),
        mov((2, 0)),
        number(1),
    ];
    let second = [assign((1, 0), boxed(number(6))), number(2)];
    by_reading(&[
        let_(1, boxed(number(4))),
        choice((0, 0), &first, &second),
        let_(3, boxed(number(7))),
        last,
    ])
}

/// A box that does not run takes no cell, and an assign changes nothing. A
/// fault after the choice shows it in the store.
#[test]
fn the_other_branch_does_nothing() {
    let answers = runs_either_way(&with_boxes(copy((1, 1))));
    assert_eq!(answers, [ran(5, 5), ran(6, 3)]);
    let faulty = with_boxes(copy((9, 0)));
    let left = |readings: &Readings| unchecked_given(&faulty, readings);
    let after_first: [(usize, StoreRow); 8] = [
        (0, [1, 1, 185]),
        (1, [1, 2, 0]),
        (3, [1, 2, 4]),
        (cell(0), [1, 1, 5]),
        (cell(1), [2, 0, 0]),
        (cell(2), [2, 0, 0]),
        (cell(3), [2, 0, 0]),
        (cell(4), [1, 1, 7]),
    ];
    let due = (fault(60, 25), store_of(&after_first));
    assert_eq!(left(&READINGS), due);
    let after_second: [(usize, StoreRow); 6] = [
        (0, [1, 1, 0]),
        (1, [1, 2, 1]),
        (3, [1, 2, 2]),
        (cell(0), [2, 0, 0]),
        (cell(1), [1, 1, 6]),
        (cell(2), [1, 1, 7]),
    ];
    let due = (fault(60, 25), store_of(&after_second));
    assert_eq!(left(&FIRST_0), due);
}

/// What an unchecked run meets at a choice on a place after these terms, which
/// is what it meets at a below, with the same store.
#[track_caller]
fn meets(before: &[Term], place: Place) -> UncheckedAnswer {
    let with = |term: Term| {
        let (answer, store) = runs_unchecked(&[before, &[term]].concat());
        (answer.map(|_| ()), store)
    };
    let boxes = || [boxed(number(1)), let_(8, number(1)), number(1)];
    let chosen = with(choice(place, &boxes(), &boxes()));
    assert_eq!(chosen, with(below(place, (0, 0))));
    gives_unchecked(&[before, &[choice(place, &[number(3)], &[number(4)])]].concat())
}

#[test]
fn faults_at_the_place() {
    let before = [
        let_(0, number(1)),
        let_(1, boxed(number(2))),
        let_(2, number(3)),
        mov((2, 0)),
        let_(3, block(&[let_(4, number(5)), shared((4, 0))])),
        let_(5, shared((0, 0))),
    ];
    let wrong = [
        // Closed, empty, a follow of nothing, led to a closed row.
        ((9, 0), 60),
        ((2, 0), 60),
        ((2, 1), 60),
        ((3, 1), 60),
        // A follow of a number, an owner, a reference.
        ((0, 1), 61),
        ((1, 0), 61),
        ((5, 0), 61),
    ];
    for (place, number) in wrong {
        assert_eq!(meets(&before, place), fault(number, 16));
    }
    let right = [&before[..], &[choice((5, 1), &[number(3)], &[number(4)])]].concat();
    assert_eq!(gives_unchecked(&right), ran(3, 1));
}

/// Only in the branch that runs, and then as anywhere.
#[test]
fn faults_in_a_branch() {
    let with = |first: &[Term], second: &[Term]| {
        let terms = by_reading(&[choice((0, 0), first, second)]);
        [READINGS, FIRST_0].map(|readings| unchecked_given(&terms, &readings).0)
    };
    let wrong = || [copy((9, 0))];
    let one = || [number(1)];
    assert_eq!(with(&wrong(), &wrong()), [fault(60, 5), fault(60, 7)]);
    assert_eq!(with(&wrong(), &one()), [fault(60, 5), ran(1, 0)]);
    assert_eq!(with(&one(), &wrong()), [ran(1, 0), fault(60, 7)]);
    // A let on an open row, and an answer that is no number.
    let again = || [let_(0, number(1))];
    assert_eq!(with(&again(), &again()), [fault(62, 5), fault(62, 8)]);
    let no_value = [let_(1, number(1))];
    assert_eq!(with(&no_value, &one()), [fault(61, 0), ran(1, 0)]);
    assert_eq!(with(&one(), &[boxed(number(1))]), [ran(1, 0), fault(61, 0)]);
    // A cell given back twice, which its branch's closing meets.
    let twice = || [let_(1, boxed(number(1))), copy((1, 0)), number(1)];
    assert_eq!(with(&twice(), &one()), [fault(63, 4), ran(1, 0)]);
    assert_eq!(with(&one(), &twice()), [ran(1, 0), fault(63, 6)]);
    // Either branch may open the same row, since one of them runs.
    let local = |value| [let_(1, number(value)), copy((1, 0))];
    assert_eq!(with(&local(3), &local(4)), [ran(3, 0), ran(4, 0)]);
}
