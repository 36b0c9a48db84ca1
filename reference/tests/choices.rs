//! Choices: how each is judged by itself, and which block runs. Their form is
//! in `choice_form.rs`, and what their blocks leave behind together in
//! `joins.rs`.

mod common;

use common::*;
use reference::{check, read, run, Refusal, NEWEST};

#[test]
fn the_place_is_judged_as_in_below() {
    let before = [
        let_(0, number(1)),
        let_(1, boxed(number(2))),
        let_(2, number(3)),
        let_(3, exclusive((2, 0))),
        let_(4, number(4)),
        mov((4, 0)),
        let_(5, boxed(number(4))),
        mov((5, 1)),
    ];
    let wrong = [
        ((9, 0), 31),
        ((0, 1), 32),
        ((4, 0), 33),
        ((5, 0), 33),
        ((2, 0), 34),
        ((1, 0), 39),
        ((3, 0), 39),
    ];
    for (place, number) in wrong {
        let chosen = choice(place, &[copy((9, 0))], &[copy((9, 0))]);
        let compared = below(place, (0, 0));
        for term in [chosen, compared] {
            let terms = [&before[..], &[term]].concat();
            assert_eq!(judge_in_use(&terms), refused(number, 17));
        }
    }
    for place in [(0, 0), (1, 1), (3, 1)] {
        let chosen = choice(place, &[number(1)], &[copy((0, 0))]);
        assert_eq!(judge(&[&before[..], &[chosen]].concat()), Ok(()));
    }
}

/// The place is judged in the state before, and both blocks in the one that
/// it leaves.
#[test]
fn both_blocks_are_judged_from_the_same_state() {
    let before = [let_(0, reading(0)), let_(1, boxed(number(1)))];
    let judge = |first: &[Term], second: &[Term]| {
        judge(&[&before[..], &[choice((0, 0), first, second), number(1)]].concat())
    };
    // Moved away in the first, still there in the second.
    assert_eq!(judge(&[mov((1, 1))], &[mov((1, 1))]), Ok(()));
    assert_eq!(judge(&[mov((1, 0))], &[copy((1, 1)), mov((1, 0))]), Ok(()));
    assert_eq!(judge(&[mov((0, 0))], &[copy((0, 0))]), Ok(()));
    // Variables of a block are gone after it.
    assert_eq!(
        judge(&[let_(2, exclusive((1, 0))), number(1)], &[copy((1, 1))]),
        Ok(())
    );
    assert_eq!(
        judge(&[let_(2, number(1)), number(1)], &[copy((2, 0))]),
        refused(31, 12)
    );
    // A refusal inside is told with its own term, the first one's before.
    assert_eq!(judge(&[copy((8, 0))], &[copy((9, 0))]), refused(31, 8));
    assert_eq!(judge(&[number(1)], &[copy((0, 1))]), refused(32, 10));
}

#[test]
fn numbers_taken_in_the_first_stay_taken() {
    let v0 = let_(0, reading(0));
    let one = || let_(1, number(1));
    let both = [v0.clone(), choice((0, 0), &[one()], &[one()]), number(1)];
    assert_eq!(judge(&both), refused(30, 8));
    for choice in [
        choice((0, 0), &[one()], &[let_(2, number(1))]),
        choice((0, 0), &[let_(2, number(1))], &[one()]),
    ] {
        let after = [v0.clone(), choice, one(), number(1)];
        assert_eq!(judge(&after), refused(30, 10));
    }
    let around = [
        v0,
        let_(1, choice((0, 0), &[number(1)], &[one(), number(1)])),
        number(1),
    ];
    assert_eq!(judge(&around), refused(30, 8));
}

#[test]
fn values_agree_in_links() {
    let before = [
        let_(0, reading(0)),
        let_(1, number(1)),
        let_(2, number(2)),
        let_(3, boxed(number(2))),
    ];
    let judge = |first: Term, second: Term| {
        let terms = [choice((0, 0), &[first], &[second]), number(1)];
        judge(&[&before[..], &terms].concat())
    };
    let values = [
        number(1),
        boxed(number(1)),
        boxed(boxed(number(1))),
        shared((1, 0)),
        exclusive((1, 0)),
        boxed(shared((1, 0))),
        shared((3, 0)),
        let_(9, number(1)),
    ];
    for (one, first) in values.iter().enumerate() {
        for (other, second) in values.iter().enumerate() {
            let due = if one == other {
                Ok(())
            } else {
                refused(39, 10)
            };
            // A let of another number, and nothing else.
            let second = match second[..] {
                [0x08, _, ..] => let_(10, number(1)),
                _ => second.clone(),
            };
            assert_eq!(judge(first.clone(), second), due, "{one} {other}");
        }
    }
}

/// Of other places, and copied or moved.
#[test]
fn values_of_one_type_from_other_places() {
    let before = [
        let_(0, reading(0)),
        let_(1, number(1)),
        let_(2, number(2)),
        let_(3, boxed(number(2))),
    ];
    let judge = |first: Term, second: Term| {
        let terms = [choice((0, 0), &[first], &[second]), number(1)];
        judge(&[&before[..], &terms].concat())
    };
    assert_eq!(judge(shared((1, 0)), shared((3, 1))), Ok(()));
    assert_eq!(judge(exclusive((2, 0)), exclusive((1, 0))), Ok(()));
    assert_eq!(judge(mov((3, 0)), boxed(number(1))), Ok(()));
    assert_eq!(judge(copy((1, 0)), mov((3, 1))), Ok(()));
    assert_eq!(
        judge(assign((1, 0), number(2)), block(&[let_(9, number(1))])),
        Ok(())
    );
}

#[test]
fn no_value_where_one_is_needed() {
    let v0 = let_(0, reading(0));
    let without = || choice((0, 0), &[let_(1, number(1))], &[assign((0, 0), number(1))]);
    for wrap in [boxed, |term| let_(2, term), |term| assign((0, 0), term)] {
        let terms = [v0.clone(), wrap(without()), number(1)];
        assert_eq!(judge(&terms), refused(41, 3));
    }
    assert_eq!(judge(&[v0.clone(), without()]), refused(43, 0));
    assert_eq!(judge(&[v0.clone(), without(), number(1)]), Ok(()));
    let boxes = choice((0, 0), &[boxed(number(1))], &[boxed(number(2))]);
    assert_eq!(judge(&[v0, boxes]), refused(43, 0));
}

#[test]
fn the_value_of_a_branch_must_outlive_it() {
    let v0 = let_(0, reading(0));
    let local = || [let_(1, number(1)), shared((1, 0))];
    let first = choice((0, 0), &local(), &[shared((0, 0))]);
    assert_eq!(judge(&[v0.clone(), first, number(1)]), refused(40, 4));
    let second = choice((0, 0), &[shared((0, 0))], &local());
    assert_eq!(judge(&[v0, second, number(1)]), refused(40, 6));
}

/// The first reading is given in turn.
fn answers(terms: &[Term], readings: [i32; 2]) -> [Option<(i32, u32)>; 2] {
    let rows = rows_of(&script_of(2, terms));
    readings.map(|reading| {
        let mut store = junk(LIMITS);
        let given = [reading, 200, 0, -1, 7, 8, 9, 10];
        let ran = run(LIMITS, &rows, &given, &mut store).ok()?;
        assert_eq!(store, tidy(ran.cells));
        Some((ran.answer, ran.cells))
    })
}

#[test]
fn the_first_block_runs_if_the_number_is_not_0() {
    let terms = [
        let_(0, reading(0)),
        choice((0, 0), &[boxed(number(7)), number(1)], &[number(2)]),
    ];
    for other in [1, -1, 2, 256, 65_536, i32::MIN, i32::MAX] {
        assert_eq!(answers(&terms, [other, 0]), [Some((1, 1)), Some((2, 0))]);
    }
    // By way of a box and a borrow.
    let through = [
        let_(0, boxed(reading(0))),
        let_(1, shared((0, 1))),
        let_(
            2,
            choice(
                (1, 1),
                &[boxed(number(3))],
                &[boxed(boxed(number(4))), boxed(number(5))],
            ),
        ),
        copy((2, 1)),
    ];
    assert_eq!(answers(&through, [1, 0]), [Some((3, 2)), Some((5, 4))]);
}

#[test]
fn nested_and_as_inner_terms() {
    let nested = |first, second| choice((0, 0), &[number(first)], &[number(second)]);
    let terms = [
        let_(0, reading(0)),
        let_(1, reading(1)),
        choice((1, 0), &[nested(1, 2)], &[nested(3, 4)]),
    ];
    assert_eq!(answers(&terms, [1, 0]), [Some((1, 0)), Some((2, 0))]);
    let terms = [
        let_(0, reading(0)),
        let_(1, boxed(nested(10, 20))),
        assign(
            (1, 1),
            choice((0, 0), &[copy((1, 1)), number(11)], &[mov((1, 1))]),
        ),
        copy((1, 1)),
    ];
    assert_eq!(answers(&terms, [1, 0]), [Some((11, 1)), Some((20, 1))]);
    // One after the other, each by what the one before has written.
    let terms = [
        let_(0, reading(0)),
        choice(
            (0, 0),
            &[assign((0, 0), number(0))],
            &[assign((0, 0), number(5))],
        ),
        choice((0, 0), &[number(1)], &[number(2)]),
    ];
    assert_eq!(answers(&terms, [1, 0]), [Some((2, 0)), Some((1, 0))]);
}

#[test]
fn sixteen_levels_of_choices() {
    // Choice and block are a level each, and the outermost block is one.
    let mut term = number(1);
    for _ in 0..7 {
        term = choice((0, 0), &[term], &[number(0)]);
    }
    let terms = [let_(0, reading(0)), term.clone()];
    assert_eq!(answers(&terms, [5, 0]), [Some((1, 0)), Some((0, 0))]);
    let deeper = [let_(0, reading(0)), block(&[term])];
    assert_eq!(check_script(&deeper), refused(15, 48));
}

fn check_script(terms: &[Term]) -> Result<u32, Refusal> {
    let mut rows = vec![0; ROWS_LEN];
    read(LIMITS, NEWEST, &script_of(2, terms), &mut rows)?;
    check(LIMITS, &rows)
}

#[test]
fn faults_at_the_place() {
    let before = [
        let_(0, number(1)),
        let_(1, boxed(number(2))),
        let_(2, number(3)),
        mov((2, 0)),
        let_(3, block(&[let_(4, number(5)), shared((4, 0))])),
        let_(5, shared((0, 0))),
    ];
    let wrong = [
        ((9, 0), 60), // closed
        ((2, 0), 60), // empty
        ((2, 1), 60), // a follow of nothing
        ((3, 1), 60), // leads to a closed row
        ((0, 1), 61), // a follow of a number
        ((1, 0), 61), // an owner
        ((5, 0), 61), // a reference
    ];
    for (place, number_of) in wrong {
        let terms = [&before[..], &[choice(place, &[number(1)], &[number(2)])]].concat();
        let (answer, store) = unchecked(&terms);
        assert_eq!(answer, refused(number_of, 16));
        // Nothing of either block ran.
        assert_eq!(variable_row(&store, 5), [1, 3, 0]);
        assert_eq!(cell_row(&store, 0), [1, 1, 2]);
    }
    let good = [&before[..], &[choice((5, 1), &[number(1)], &[number(2)])]].concat();
    assert_eq!(fault(&good), ran(1, 1));
}

/// The first reading of the tests is 185, the third 0.
#[test]
fn faults_in_the_block_that_runs() {
    let with = |index, first: &[Term], second: &[Term]| {
        fault(&[let_(0, reading(index)), choice((0, 0), first, second)])
    };
    let wrong = || [copy((9, 0))];
    assert_eq!(with(0, &wrong(), &wrong()), refused(60, 5));
    assert_eq!(with(2, &wrong(), &wrong()), refused(60, 7));
    assert_eq!(with(0, &[number(1)], &wrong()), ran(1, 0));
    assert_eq!(with(2, &wrong(), &[number(1)]), ran(1, 0));
    // A let on an open row, an answer that is none, a cell given back twice.
    assert_eq!(with(2, &[number(1)], &[let_(0, number(1))]), refused(62, 7));
    assert_eq!(with(0, &[let_(1, number(1))], &[number(1)]), refused(61, 0));
    assert_eq!(with(2, &[number(1)], &[boxed(number(1))]), refused(61, 0));
    let twice = [let_(1, boxed(number(1))), copy((1, 0)), number(1)];
    assert_eq!(with(0, &twice, &[number(1)]), refused(63, 4));
    assert_eq!(with(2, &[number(1)], &twice), refused(63, 6));
    // Both blocks may open the same row, as one runs.
    let one = || [let_(1, number(1)), copy((1, 0))];
    assert_eq!(with(0, &one(), &one()), ran(1, 0));
    assert_eq!(with(2, &one(), &one()), ran(1, 0));
}
