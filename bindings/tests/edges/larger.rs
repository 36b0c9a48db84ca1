//! Scripts under sets that fit them, under larger ones, and under ones that are
//! too small by one (LANGUAGE 7.7, 2.8).

use crate::asked;
use crate::common::examples::*;
use crate::common::refused;
use crate::common::sets::{fields, fitting};
use crate::common::terms::*;
use crate::given::{judges_under, reads_under};
use crate::hand::{both_refuse, checks_under, runs_under, READINGS};
use roomscript::Limits;

/// Accepted scripts with their terms, answers and cells.
fn accepted() -> Vec<(Vec<Term>, u32, i32, u32)> {
    let passed_on = [
        let_(0, number(5)),
        let_(1, exclusive((0, 0))),
        block(&[let_(2, exclusive((1, 1))), assign((2, 1), reading(3))]),
        copy((1, 1)),
    ];
    vec![
        (e1(), 8, 1, 0),
        (e4(), 9, 8, 1),
        (e6(), 12, 2, 0),
        (e10(8), 12, 0, 8),
        (e11(), 13, 2, 0),
        (vec![reading(0)], 2, 185, 0),
        (passed_on.to_vec(), 11, -1, 0),
    ]
}

/// The set itself, each of its numbers larger by one and as large as it can
/// be, and all of them so.
pub fn nowhere_smaller(limits: Limits) -> Vec<Limits> {
    let mut sets = vec![limits, Limits::LARGEST];
    let mut most = Limits::LARGEST;
    for (field, most) in fields(&mut most).into_iter().enumerate() {
        for value in [*fields(&mut limits.clone())[field] + 1, *most] {
            let mut larger = limits;
            *fields(&mut larger)[field] = value;
            sets.push(larger);
        }
    }
    sets
}

#[test]
fn accepted_under_larger_sets() {
    for (terms, count, answer, cells) in accepted() {
        for limits in nowhere_smaller(fitting(&terms)) {
            assert_eq!(checks_under(limits, &terms), Ok(count), "{limits:?}");
            let ran = runs_under(limits, &terms);
            assert_eq!(ran, crate::common::ran(answer, cells), "{limits:?}");
        }
    }
}

/// The number that tells which of the four is too small: from bytes, and from
/// rows, which are used up where there are too few.
#[test]
fn one_too_small_in_each() {
    let (from_bytes, from_rows) = ([16, 14, 17, 15], [12, 14, 17, 15]);
    let examples = [e1(), e3(), e4(), e5(), e6(), e7(), e9(), e10(9), e11()];
    for terms in examples {
        let fitting = fitting(&terms);
        for field in 0..4 {
            let mut limits = fitting;
            let number = &mut *fields(&mut limits)[field];
            *number = number.wrapping_sub(1);
            // There is nothing below the least of each.
            if !limits.in_ranges() {
                continue;
            }
            let read = reads_under(limits, &script_of(&terms));
            assert_eq!(
                read.map_err(|refusal| refusal.number),
                Err(from_bytes[field])
            );
            let rows = rows_under(fitting, &terms);
            let rows = &rows[..limits.row_numbers()];
            let judged = judges_under(limits, rows);
            assert_eq!(
                judged.map_err(|refusal| refusal.number),
                Err(from_rows[field])
            );
            // Before the author's numbers, and before a run.
            assert_eq!(asked::check(limits, rows), judged);
            let ran = both_refuse(limits, rows, &READINGS, limits.store_numbers());
            assert_eq!(ran.map(|_| ()), judged.map(|_| ()));
        }
    }
}

/// A script that one set refuses by its form, another set may refuse by its
/// author's rules or accept.
#[test]
fn refused_under_one_and_accepted_under_another() {
    let terms = [let_(5, boxed(number(1))), copy((5, 1))];
    let script = script_of(&terms);
    let mut limits = fitting(&terms);
    assert_eq!(reads_under(limits, &script), Ok(5));
    limits.variables = 5;
    assert_eq!(reads_under(limits, &script), refused(14, 8));
    limits.boxes = 0;
    assert_eq!(reads_under(limits, &script), refused(14, 8));
    limits.variables = 6;
    assert_eq!(reads_under(limits, &script), refused(17, 9));
}
