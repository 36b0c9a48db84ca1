//! Sums: their values, held to the ends of the range, how the check judges
//! their places, and the faults of unchecked runs.

use crate::common::store::{cell, store_of};
use crate::common::terms::*;
use crate::common::{fault, ran, refused, UncheckedAnswer};
use crate::hand::*;
use crate::in_use::accepts_in_use;
use roomscript::Refusal;

const MIN: i32 = i32::MIN;
const MAX: i32 = i32::MAX;

/// Accepted, with this answer and so many cells.
#[track_caller]
fn gives(terms: &[Term], answer: i32, cells: u32) {
    assert_eq!(accepts(terms), Ok(()));
    assert_eq!(runs(terms), ran(answer, cells));
}

#[test]
fn a_reading_and_an_offset() {
    for (index, value) in (0..).zip(READINGS) {
        for (offset, due) in [(0, value), (5, value.saturating_add(5))] {
            let terms = [
                let_(0, reading(index)),
                let_(1, number(offset)),
                sum((0, 0), (1, 0)),
            ];
            gives(&terms, due, 0);
        }
    }
}

/// The sum of two variables with these numbers.
#[track_caller]
fn adds(first: i32, second: i32, due: i32) {
    let terms = [
        let_(0, number(first)),
        let_(63, number(second)),
        sum((0, 0), (63, 0)),
    ];
    gives(&terms, due, 0);
}

#[test]
fn held_to_both_ends() {
    adds(MAX, MAX, 2_147_483_647);
    adds(MIN, MIN, -2_147_483_648);
    adds(MAX, 1, MAX);
    adds(1, MAX, MAX);
    adds(MIN, -1, MIN);
    adds(-1, MIN, MIN);
    adds(1 << 30, 1 << 30, MAX);
    adds(-(1 << 30) - 1, -(1 << 30), MIN);
}

#[test]
fn at_the_ends_and_inside() {
    adds(MAX - 1, 1, MAX);
    adds(MIN + 1, -1, MIN);
    adds((1 << 30) - 1, 1 << 30, MAX);
    adds(-(1 << 30), -(1 << 30), MIN);
    adds(MAX, 0, MAX);
    adds(0, MIN, MIN);
    adds(MAX, MIN, -1);
    adds(MIN, MAX, -1);
    adds(MAX, -1, MAX - 1);
    adds(MIN, 1, MIN + 1);
    adds(185, -200, -15);
    adds(-1, 1, 0);
    adds(0, 0, 0);
}

/// Added again, what was cut off does not come back, and the order counts.
#[test]
fn held_once_for_each_sum() {
    let two = |first: i32, second: i32, third: i32| {
        [
            let_(0, number(first)),
            let_(1, number(second)),
            let_(2, number(third)),
            let_(3, sum((0, 0), (1, 0))),
            sum((3, 0), (2, 0)),
        ]
    };
    gives(&two(MAX, MAX, -5), MAX - 5, 0);
    gives(&two(MAX, -5, MAX), MAX, 0);
    gives(&two(MIN, MIN, MAX), -1, 0);
    gives(&two(MIN, MAX, MIN), MIN, 0);
    // Doubled up to the end, and no further.
    let mut terms = vec![let_(0, number(3))];
    terms.extend(vec![assign((0, 0), sum((0, 0), (0, 0))); 29]);
    terms.push(copy((0, 0)));
    gives(&terms, 3 << 29, 0);
    terms.insert(1, assign((0, 0), sum((0, 0), (0, 0))));
    gives(&terms, MAX, 0);
}

#[test]
fn wherever_a_number_may_be() {
    let one = || let_(0, number(7));
    let double = || sum((0, 0), (0, 0));
    gives(&[one(), block(&[block(&[double()])])], 14, 0);
    let in_boxes = [one(), let_(1, boxes(8, double())), copy((1, 8))];
    gives(&in_boxes, 14, 8);
    let assigned = [one(), assign((0, 0), double()), copy((0, 0))];
    gives(&assigned, 14, 0);
    let through = [
        one(),
        let_(1, exclusive((0, 0))),
        assign((1, 1), block(&[sum((1, 1), (1, 1))])),
        copy((1, 1)),
    ];
    gives(&through, 14, 0);
    let compared = [one(), let_(1, double()), below((0, 0), (1, 0))];
    gives(&compared, 1, 0);
    let borrowed = [one(), let_(1, double()), let_(2, shared((1, 0)))];
    gives(&[&borrowed[..], &[sum((2, 1), (0, 0))]].concat(), 21, 0);
    // Dropped, it leaves nothing, and its places can be read again.
    gives(&[one(), double(), double(), copy((0, 0))], 7, 0);
}

#[test]
fn its_value_is_a_number() {
    let one = || let_(0, boxed(number(1)));
    let double = || sum((0, 1), (0, 1));
    let to_a_box = [one(), assign((0, 0), double()), number(0)];
    assert_eq!(checks(&to_a_box), refused(39, 4));
    let followed = [one(), let_(1, double()), copy((1, 1))];
    assert_eq!(checks(&followed), refused(32, 6));
    let nine = [one(), let_(1, boxes(9, double())), number(0)];
    assert_eq!(checks(&nine), refused(42, 5));
    assert_eq!(checks(&[one(), double()]), Ok(5));
    assert_eq!(checks(&[one(), boxed(double())]), refused(43, 0));
}

/// What the check answers of a sum of two places after these terms, which is
/// what it answers of a below.
#[track_caller]
fn judges_both(before: &[Term], first: Place, second: Place) -> Result<(), Refusal> {
    let of_two = |kind: fn(Place, Place) -> Term| {
        let terms = [before, &[kind(first, second)]].concat();
        accepts_in_use(&terms)
    };
    assert_eq!(of_two(below), of_two(sum));
    of_two(sum)
}

#[test]
fn the_first_place_is_judged_whole_before_the_second() {
    let before = [
        let_(0, number(1)),
        let_(1, boxed(number(2))),
        let_(2, number(3)),
        let_(3, exclusive((2, 0))),
        let_(4, number(4)),
        mov((4, 0)),
        let_(5, boxed(number(5))),
        mov((5, 1)),
    ];
    let wrong = [
        ((9, 0), 31),
        ((0, 1), 32),
        ((4, 0), 33),
        ((5, 1), 33),
        ((5, 0), 33),
        ((2, 0), 34),
        ((1, 0), 39),
        ((3, 0), 39),
    ];
    for (first, number) in wrong {
        for (second, _) in wrong {
            assert_eq!(judges_both(&before, first, second), refused(number, 17));
        }
        for right in [(0, 0), (1, 1), (3, 1)] {
            assert_eq!(judges_both(&before, right, first), refused(number, 17));
            assert_eq!(judges_both(&before, right, right), Ok(()));
        }
    }
}

#[test]
fn reading_is_barred_by_exclusive_borrows_only() {
    let held = |borrow: fn(Place) -> Term, first, second| {
        let before = [let_(0, boxed(number(1))), let_(1, borrow((0, 1)))];
        judges_both(&before, first, second)
    };
    assert_eq!(held(exclusive, (0, 1), (1, 1)), refused(34, 6));
    assert_eq!(held(exclusive, (1, 1), (0, 1)), refused(34, 6));
    // Before what is no number.
    assert_eq!(held(exclusive, (0, 0), (1, 1)), refused(34, 6));
    assert_eq!(held(exclusive, (1, 1), (1, 1)), Ok(()));
    assert_eq!(held(shared, (0, 1), (1, 1)), Ok(()));
    assert_eq!(held(shared, (1, 1), (0, 1)), Ok(()));
}

/// A sum holds nothing and moves nothing away.
#[test]
fn nothing_changes_for_what_comes_after() {
    let then = |term: Term| {
        accepts(&[
            let_(0, boxed(number(1))),
            let_(1, shared((0, 0))),
            let_(2, sum((1, 2), (0, 1))),
            mov((1, 0)),
            term,
            number(0),
        ])
    };
    assert_eq!(then(assign((0, 1), number(2))), Ok(()));
    assert_eq!(then(mov((0, 0))), Ok(()));
    assert_eq!(then(exclusive((0, 0))), Ok(()));
    assert_eq!(then(assign((0, 1), sum((0, 1), (2, 0)))), Ok(()));
    // Its own variable is not in scope yet.
    let own = [let_(0, number(1)), let_(1, sum((0, 0), (1, 0))), number(0)];
    assert_eq!(checks(&own), refused(31, 4));
    // A block cannot give a borrow of its own, but a sum of it.
    let inner = block(&[let_(3, number(3)), sum((3, 0), (3, 0))]);
    gives(&[let_(4, inner), copy((4, 0))], 6, 0);
}

#[test]
fn inside_other_terms_the_sum_is_named() {
    let wrong = || sum((0, 0), (9, 0));
    let one = || let_(0, number(1));
    let boxed_one = [one(), let_(1, boxed(wrong())), number(0)];
    assert_eq!(checks(&boxed_one), refused(31, 5));
    let right = [one(), assign((8, 0), block(&[wrong()])), number(0)];
    assert_eq!(checks(&right), refused(31, 5));
}

/// What an unchecked run meets at a sum of two places after these terms, which
/// is what it meets at a below, with the same store.
#[track_caller]
fn meets_both(before: &[Term], first: Place, second: Place) -> UncheckedAnswer {
    let of_two = |kind: fn(Place, Place) -> Term| {
        let (answer, store) = runs_unchecked(&[before, &[kind(first, second)]].concat());
        (answer.map(|_| ()), store)
    };
    assert_eq!(of_two(below), of_two(sum));
    gives_unchecked(&[before, &[sum(first, second)]].concat())
}

#[test]
fn faults_of_the_first_place_before_the_second() {
    let before = [
        let_(0, number(1)),
        let_(1, boxed(number(2))),
        let_(2, number(3)),
        mov((2, 0)),
        let_(3, block(&[let_(4, number(5)), shared((4, 0))])),
        let_(5, shared((0, 0))),
    ];
    let wrong = [
        // Closed, empty, a follow of nothing, led to a closed row.
        ((9, 0), 60),
        ((2, 0), 60),
        ((2, 1), 60),
        ((3, 1), 60),
        // A follow of a number, an owner, a reference.
        ((0, 1), 61),
        ((1, 0), 61),
        ((5, 0), 61),
    ];
    for (first, number) in wrong {
        for (second, _) in wrong {
            assert_eq!(meets_both(&before, first, second), fault(number, 16));
        }
        for right in [(0, 0), (1, 1), (5, 1)] {
            assert_eq!(meets_both(&before, right, first), fault(number, 16));
        }
    }
    assert_eq!(meets_both(&before, (5, 1), (1, 1)), ran(3, 1));
}

/// A fault after a sum shows what the sum left, and one of the sum that it
/// wrote nothing.
#[test]
fn in_the_store() {
    let first = [let_(0, number(MAX)), let_(1, boxed(number(2)))];
    let then = |terms: &[Term]| runs_unchecked(&[&first[..], terms].concat());
    let wrong = [assign((0, 0), sum((0, 0), (1, 0))), number(0)];
    let left = [
        (0, [1, 1, MAX as u32]),
        (1, [1, 2, 0]),
        (cell(0), [1, 1, 2]),
    ];
    assert_eq!(then(&wrong), (fault(61, 7), store_of(&left)));
    let lets = [
        let_(2, sum((0, 0), (1, 1))),
        let_(3, boxed(sum((1, 1), (1, 1)))),
        assign((1, 1), sum((2, 0), (3, 1))),
        copy((9, 0)),
    ];
    let left = [
        (0, [1, 1, MAX as u32]),
        (1, [1, 2, 0]),
        (2, [1, 1, MAX as u32]),
        (3, [1, 2, 1]),
        (cell(0), [1, 1, MAX as u32]),
        (cell(1), [1, 1, 4]),
    ];
    assert_eq!(then(&lets), (fault(60, 13), store_of(&left)));
    // A negative one as its 32 bits.
    let below_zero = [
        let_(2, number(MIN)),
        let_(3, sum((2, 0), (1, 1))),
        copy((9, 0)),
    ];
    let left = [
        (0, [1, 1, MAX as u32]),
        (1, [1, 2, 0]),
        (2, [1, 1, 0x8000_0000]),
        (3, [1, 1, 0x8000_0002]),
        (cell(0), [1, 1, 2]),
    ];
    assert_eq!(then(&below_zero), (fault(60, 10), store_of(&left)));
}
