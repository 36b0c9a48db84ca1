//! Sums of numbers at the ends of their range and near them, each pair from
//! number terms and from readings, at places of every kind, beside plain
//! arithmetic in 64 bits.

use crate::asked;
use crate::common::guarded::Guarded;
use crate::common::sets::fitting;
use crate::common::store::is_tidy;
use crate::common::terms::*;
use roomscript::{Called, Limits, Ran, READINGS_LEN};

const HALF: i32 = 1 << 30;

const EXTREMES: [i32; 11] = [
    i32::MIN,
    i32::MIN + 1,
    -HALF - 1,
    -HALF,
    -1,
    0,
    1,
    HALF - 1,
    HALF,
    i32::MAX - 1,
    i32::MAX,
];

/// The sum in plain arithmetic, held to the ends.
fn held(first: i32, second: i32) -> i32 {
    let sum = i64::from(first) + i64::from(second);
    if sum > 2_147_483_647 {
        2_147_483_647
    } else if sum < -2_147_483_648 {
        -2_147_483_648
    } else {
        sum as i32
    }
}

/// Check, both runs and a call accept the terms, with this answer.
#[track_caller]
fn gives(limits: Limits, terms: &[Term], readings: &[i32; READINGS_LEN], due: i32) {
    let rows = rows_under(limits, terms);
    let count = block(terms).len() as u32;
    let cells = rows.chunks(5).filter(|row| row[0] == 0x07).count() as u32;
    let answer = Ran { answer: due, cells };
    let shown = || format!("{limits:?}, {readings:?}, {terms:?}");
    assert_eq!(asked::check(limits, &rows), Ok(count), "{}", shown());
    let mut store = Guarded::junk(limits.store_numbers(), 91);
    let ran = asked::run(limits, &rows, readings, store.lent_mut());
    assert_eq!(ran, Ok(answer), "{}", shown());
    assert!(is_tidy(limits, store.lent(), cells), "{}", shown());
    store.fill_again();
    let ran = asked::run_unchecked(limits, &rows, readings, store.lent_mut());
    assert_eq!(ran, Ok(answer), "{}", shown());
    assert!(is_tidy(limits, store.lent(), cells), "{}", shown());
    store.fill_again();
    let mut lent = Guarded::junk(limits.row_numbers(), 92);
    let script = script_of(terms);
    let (again, on) = (lent.lent_mut(), store.lent_mut());
    let called = asked::call(limits, &script, readings, again, on);
    let whole = Called {
        answer: due,
        terms: count,
        cells,
    };
    assert_eq!(called, Ok(whole), "{}", shown());
    assert!(is_tidy(limits, store.lent(), cells), "{}", shown());
    assert_eq!(lent.lent(), rows, "{}", shown());
    assert!(lent.guards_hold() && store.guards_hold(), "{}", shown());
}

/// How a number comes to the place that a sum reads.
const WAYS: u32 = 12;

/// Terms that put the value of a term where a sum can read it, with variables
/// from `v` on, and the place.
fn way(way: u32, v: u32, value: Term) -> (Vec<Term>, Place) {
    let (w, x) = (v + 1, v + 2);
    match way {
        0 => (vec![let_(v, value)], (v, 0)),
        1 => (vec![let_(v, boxed(value))], (v, 1)),
        2 => (vec![let_(v, boxes(8, value))], (v, 8)),
        3 => (vec![let_(v, value), let_(w, shared((v, 0)))], (w, 1)),
        4 => (vec![let_(v, value), let_(w, exclusive((v, 0)))], (w, 1)),
        5 => (vec![let_(v, boxed(value)), let_(w, shared((v, 1)))], (w, 1)),
        6 => {
            let borrowed = let_(w, exclusive((v, 0)));
            (vec![let_(v, boxed(value)), borrowed], (w, 2))
        }
        7 => {
            let in_box = let_(w, boxed(shared((v, 0))));
            (vec![let_(v, value), in_box], (w, 2))
        }
        8 => {
            let lets = [let_(w, shared((v, 0))), let_(x, shared((w, 0)))];
            ([&[let_(v, value)][..], &lets].concat(), (x, 2))
        }
        9 => {
            let lets = [let_(w, exclusive((v, 0))), let_(x, shared((w, 1)))];
            ([&[let_(v, value)][..], &lets].concat(), (x, 1))
        }
        10 => (vec![let_(v, number(5)), assign((v, 0), value)], (v, 0)),
        _ => {
            let through = [let_(w, exclusive((v, 0))), assign((w, 1), value)];
            ([&[let_(v, number(5))][..], &through].concat(), (w, 1))
        }
    }
}

/// Each pair of ways, from number terms and from readings.
#[track_caller]
fn each_way(first: i32, second: i32) {
    let mut readings = [7; READINGS_LEN];
    readings[6] = first;
    readings[2] = second;
    for ways in 0..WAYS * WAYS {
        for from in 0..4 {
            let value = |reads: bool, index, value| match reads {
                true => reading(index),
                false => number(value),
            };
            let one = value(from & 1 != 0, 6, first);
            let two = value(from & 2 != 0, 2, second);
            let (mut terms, place) = way(ways / WAYS, 0, one);
            let (more, other) = way(ways % WAYS, 3, two);
            terms.extend(more);
            terms.push(sum(place, other));
            gives(fitting(&terms), &terms, &readings, held(first, second));
        }
    }
}

#[test]
fn all_pairs_at_places_of_every_kind() {
    for first in EXTREMES {
        for second in EXTREMES {
            each_way(first, second);
        }
    }
}

#[test]
fn all_pairs_under_other_sets() {
    for limits in [Limits::BASE, Limits::LARGEST] {
        let last = limits.variables - 1;
        for first in EXTREMES {
            for second in EXTREMES {
                let readings = [first, second, 0, 0, 0, 0, 0, 0];
                let terms = [
                    let_(last, boxed(reading(0))),
                    let_(0, reading(1)),
                    let_(1, shared((0, 0))),
                    sum((last, 1), (1, 1)),
                ];
                gives(limits, &terms, &readings, held(first, second));
            }
        }
    }
}

/// One place twice, and a sum whose own operand is overwritten by it.
#[test]
fn doubled() {
    for value in EXTREMES {
        let due = held(value, value);
        for at in 0..WAYS {
            let (mut terms, place) = way(at, 0, number(value));
            terms.push(sum(place, place));
            gives(fitting(&terms), &terms, &[0; 8], due);
        }
        let onto = [
            let_(0, boxed(number(value))),
            assign((0, 1), sum((0, 1), (0, 1))),
            assign((0, 0), boxed(sum((0, 1), (0, 1)))),
            copy((0, 1)),
        ];
        gives(fitting(&onto), &onto, &[0; 8], held(due, due));
    }
}

/// Three numbers in both orders: what the first sum is held to, the second
/// goes on from.
#[test]
fn one_sum_after_the_other() {
    for first in EXTREMES {
        for second in EXTREMES {
            for third in EXTREMES {
                let readings = [first, second, third, 0, 0, 0, 0, 0];
                let lets = [
                    let_(0, reading(0)),
                    let_(1, reading(1)),
                    let_(2, reading(2)),
                ];
                let left = [let_(3, sum((0, 0), (1, 0))), sum((3, 0), (2, 0))];
                let right = [let_(3, sum((1, 0), (2, 0))), sum((0, 0), (3, 0))];
                let terms = [&lets[..], &left].concat();
                let due = held(held(first, second), third);
                gives(fitting(&terms), &terms, &readings, due);
                let terms = [&lets[..], &right].concat();
                let due = held(first, held(second, third));
                gives(fitting(&terms), &terms, &readings, due);
            }
        }
    }
}
