//! The run that checks first (LANGUAGE 6.6): each group of its refusals with
//! the store as it was before, the order of the groups, and accepted scripts.

mod common;

use common::*;
use reference::{check, run, run_unchecked, Limits, Ran, Refusal};

const SMALL: Limits = Limits {
    terms: 24,
    variables: 4,
    boxes: 9,
    levels: 12,
};

const SETS: [Limits; 3] = [SMALL, Limits::BASE, Limits::LARGEST];

/// Refused so, with the store as it was before, whatever that is. Lent are
/// rows, readings and a store of so many numbers.
fn assert_refused(limits: Limits, lent: (&[u32], &[i32], usize), number: u32, place: u32) {
    let (rows, readings, length) = lent;
    let counted: Vec<u32> = (1..=length as u32).collect();
    for before in [counted, vec![1; length], vec![0; length]] {
        let mut store = before.clone();
        let answer = run(limits, rows, readings, &mut store);
        assert_eq!(answer, refused(number, place), "{limits:?}");
        assert_eq!(store, before);
    }
}

/// Rows with the given ones first and 0 after them.
fn filled(limits: Limits, first: &[[u32; 5]]) -> Vec<u32> {
    let mut rows = first.concat();
    rows.resize(limits.row_numbers(), 0);
    rows
}

/// A row without a second place.
fn row(kind: u32, first: u32, second: u32) -> [u32; 5] {
    [kind, first, second, 0, 0]
}

#[test]
fn refusals_by_the_caller() {
    for limits in SETS {
        let store = limits.store_numbers();
        // Accepted, so that nothing but the lengths is wrong.
        let rows = rows_under(limits, &script(&[reading(1)]));
        let long = [&rows[..], &[0; 5]].concat();
        for wrong in [
            &[][..],
            &rows[5..],
            &rows[1..],
            &long[..rows.len() + 1],
            &long,
        ] {
            assert_refused(limits, (wrong, &READINGS, store), 2, 0);
        }
        for wrong in [0, 3, store - 1, store + 1, 2 * store] {
            assert_refused(limits, (&rows, &READINGS, wrong), 3, 0);
        }
        for wrong in [&[][..], &READINGS[1..], &[0; 9], &[0; 16]] {
            assert_refused(limits, (&rows, wrong, store), 4, 0);
        }
        for outside in [
            Limits { terms: 0, ..limits },
            Limits {
                variables: 129,
                ..limits
            },
            Limits {
                boxes: 129,
                ..limits
            },
            Limits {
                levels: 33,
                ..limits
            },
        ] {
            assert_refused(outside, (&rows, &READINGS, store), 74, 0);
        }
    }
}

/// The check would refuse term 1 of nearly all with 31, were the form right.
#[test]
fn refusals_by_the_rows() {
    let copy = row(3, 0, 0);
    for limits in SETS {
        let assert_rows = |first: &[[u32; 5]], number, place| {
            let lent = filled(limits, first);
            let store = limits.store_numbers();
            assert_refused(limits, (&lent, &READINGS, store), number, place);
        };
        let two = row(11, 2, 0);
        assert_rows(&[two, copy, copy], 31, 1);
        assert_rows(&[], 12, 0);
        assert_rows(&[two, copy], 12, 2);
        for unknown in [14, 255, 259, u32::MAX] {
            assert_rows(&[two, copy, row(unknown, 0, 0)], 13, 2);
        }
        assert_rows(&[two, copy, row(3, limits.variables, 0)], 14, 2);
        assert_rows(&[two, copy, row(3, 0, 9)], 14, 2);
        assert_rows(&[two, copy, [3, 0, 0, 0, 1]], 14, 2);
        let levels = limits.levels as usize;
        let deep = [vec![two, copy], vec![row(11, 1, 0); levels - 1], vec![copy]];
        assert_rows(&deep.concat(), 15, limits.levels + 1);
        let boxes = [row(7, 0, 0), copy].repeat(limits.boxes as usize + 1);
        let count = row(11, limits.boxes + 2, 0);
        let over = [vec![count, copy], boxes].concat();
        assert_rows(&over, 17, 2 + 2 * limits.boxes);
        assert_rows(&[copy, two, copy, copy], 18, 0);
        assert_rows(&[two, copy, copy, row(0, 0, 1)], 19, 3);
        let mut full = vec![row(0, 0, 0); limits.terms as usize];
        full[..3].copy_from_slice(&[two, copy, copy]);
        *full.last_mut().unwrap() = [0, 0, 0, 0, 1];
        assert_rows(&full, 19, limits.terms - 1);
    }
    // Rows that are used up.
    let used_up = [vec![row(11, 24, 0)], vec![copy; 23]].concat();
    let rows = filled(SMALL, &used_up);
    assert_refused(SMALL, (&rows, &READINGS, SMALL.store_numbers()), 12, 24);
}

/// A script that the check refuses: its terms, the number, the term, and what
/// running it unchecked answers.
type Refused = (Vec<Term>, u32, u32, Result<Ran, Refusal>);

/// One for each number of the check. Some meet a fault when they are run
/// unchecked, some would run to their end.
fn by_the_author() -> Vec<Refused> {
    let one = || let_(0, number(1));
    let a_box = || let_(0, boxed(number(1)));
    let lent = || let_(1, shared((0, 0)));
    let inner = || block(&[let_(2, number(3)), shared((2, 0))]);
    let e3 = vec![a_box(), let_(1, mov((0, 0))), copy((0, 1))];
    let held_and_used = vec![
        one(),
        let_(1, exclusive((0, 0))),
        copy((0, 0)),
        copy((1, 1)),
    ];
    let lent_and_used = vec![one(), lent(), assign((0, 0), number(2)), copy((1, 1))];
    let behind = vec![one(), lent(), assign((1, 1), number(2)), copy((0, 0))];
    let e9 = vec![a_box(), let_(1, copy((0, 0))), number(0)];
    let other = vec![one(), assign((0, 0), boxed(number(2))), number(0)];
    let e5 = vec![one(), let_(1, inner()), copy((0, 0))];
    let e10 = vec![let_(0, boxes(9, number(1))), number(0)];
    vec![
        (vec![one(), one(), number(0)], 30, 3, refused(62, 3)),
        (vec![copy((0, 0))], 31, 1, refused(60, 1)),
        (vec![one(), copy((0, 1))], 32, 3, refused(61, 3)),
        (e3, 33, 6, refused(60, 6)),
        (held_and_used, 34, 5, ran(1, 0)),
        (lent_and_used, 35, 5, ran(2, 0)),
        (behind, 36, 5, ran(2, 0)),
        (e9, 37, 5, refused(63, 0)),
        (vec![a_box(), lent(), mov((1, 2))], 38, 6, ran(1, 1)),
        (other, 39, 3, ran(0, 1)),
        (e5, 40, 4, ran(1, 0)),
        (vec![boxed(one()), number(0)], 41, 1, ran(0, 1)),
        (e10, 42, 2, ran(0, 9)),
        (vec![boxed(number(1))], 43, 0, refused(61, 0)),
    ]
}

#[test]
fn refusals_by_the_author() {
    let table = by_the_author();
    assert!((30..=43).eq(table.iter().map(|(_, number, ..)| *number)));
    for limits in SETS {
        for (terms, number, term, unchecked) in &table {
            let rows = rows_under(limits, &script(terms));
            assert_eq!(check(limits, &rows), refused(*number, *term));
            let store = limits.store_numbers();
            assert_refused(limits, (&rows, &READINGS, store), *number, *term);
            let (answer, _) = run_over_junk(run_unchecked, limits, terms);
            assert_eq!(answer, *unchecked, "{number}");
        }
    }
}

/// What is lent with some of the six groups of refusals in it: the set, the
/// lengths of rows, store and readings, the form of the rows, ownership.
fn lent_wrongly(limits: Limits, wrong: [bool; 6]) -> (Limits, Vec<u32>, Vec<i32>, usize) {
    let [set, row_length, store_length, reading_length, form, ownership] = wrong;
    let term = if ownership { copy((0, 0)) } else { reading(1) };
    let mut rows = rows_under(limits, &script(&[term]));
    if form {
        *rows.last_mut().unwrap() = 1;
    }
    if row_length {
        rows.push(0);
    }
    let outside = Limits {
        levels: 0,
        ..limits
    };
    (
        if set { outside } else { limits },
        rows,
        READINGS[usize::from(reading_length)..].to_vec(),
        limits.store_numbers() - usize::from(store_length),
    )
}

#[test]
fn the_groups_are_judged_in_their_order() {
    for limits in SETS {
        let last = limits.terms - 1;
        let due = [(74, 0), (2, 0), (3, 0), (4, 0), (19, last), (31, 1)];
        for bits in 1..64 {
            let wrong = [0, 1, 2, 3, 4, 5].map(|group| bits >> group & 1 == 1);
            let (set, rows, readings, store) = lent_wrongly(limits, wrong);
            let first = wrong.iter().position(|wrong| *wrong).unwrap();
            let (number, place) = due[first];
            assert_refused(set, (&rows, &readings, store), number, place);
        }
        let (set, rows, readings, _) = lent_wrongly(limits, [false; 6]);
        let mut store = junk(limits);
        assert_eq!(run(set, &rows, &readings, &mut store), ran(200, 0));
        assert_eq!(store, tidy_under(limits, 0));
    }
}

/// Accepted scripts with their answers and cells.
fn accepted() -> Vec<(Vec<Term>, i32, u32)> {
    let boxed_3 = || let_(0, boxed(reading(3)));
    vec![
        (vec![reading(4)], i32::MIN, 0),
        (vec![boxes(8, number(1)), reading(5)], i32::MAX, 8),
        (vec![boxed_3(), let_(1, mov((0, 0))), copy((1, 1))], -1, 1),
        (
            vec![boxed_3(), assign((0, 0), boxed(number(6))), copy((0, 1))],
            6,
            2,
        ),
        (
            vec![
                boxed_3(),
                let_(1, exclusive((0, 1))),
                assign((1, 1), reading(0)),
                copy((1, 1)),
            ],
            185,
            1,
        ),
        // The value of a block outlives the block's variables.
        (
            vec![
                let_(0, block(&[let_(1, boxed(reading(1))), mov((1, 0))])),
                let_(2, boxed(reading(0))),
                below((2, 1), (0, 1)),
            ],
            1,
            2,
        ),
    ]
}

#[test]
fn accepted_scripts_leave_the_store_tidy() {
    for limits in SETS {
        let length = limits.store_numbers();
        for (terms, answer, cells) in accepted() {
            let rows = rows_under(limits, &script(&terms));
            for mut store in [junk(limits), vec![1; length], vec![u32::MAX; length]] {
                // The second time over what the first run has left.
                for _ in 0..2 {
                    let result = run(limits, &rows, &READINGS, &mut store);
                    assert_eq!(result, ran(answer, cells));
                    assert_eq!(store, tidy_under(limits, cells));
                }
            }
        }
    }
}

#[test]
fn a_run_begins_afresh_after_a_fault() {
    for limits in SETS {
        for (terms, ..) in by_the_author() {
            let (_, mut store) = run_over_junk(run_unchecked, limits, &terms);
            let left = store.clone();
            let refused_rows = rows_under(limits, &script(&terms));
            assert!(run(limits, &refused_rows, &READINGS, &mut store).is_err());
            assert_eq!(store, left);
            let rows = rows_under(limits, &script(&[boxed(number(1)), reading(6)]));
            assert_eq!(run(limits, &rows, &READINGS, &mut store), ran(7, 1));
            assert_eq!(store, tidy_under(limits, 1));
        }
    }
}
