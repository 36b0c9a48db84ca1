//! A script that is at every limit of the largest set but that of bytes, and
//! sets that are too small for it by one.

use crate::asked;
use crate::common::guarded::Guarded;
use crate::common::refused;
use crate::common::sets::fitting;
use crate::common::terms::*;
use crate::given::{judges_under, reads_under};
use crate::hand::{checks_under, runs_under, READINGS};
use roomscript::{Called, Limits};

const LIMITS: Limits = Limits::LARGEST;

/// 4,096 terms, 128 variables, 128 boxes and 32 levels, all variables in scope
/// at the end. The last term is given.
pub fn full(last: Term) -> Vec<Term> {
    let mut terms: Vec<Term> = (0..128).map(|v| let_(v, boxed(reading(v % 8)))).collect();
    // From level 2 to level 32.
    terms.push((0..30).fold(number(3), |inner, _| block(&[inner])));
    // 14 blocks of 256 terms, and one of 95.
    for (v, size) in (0..15).zip([256; 14].into_iter().chain([95])) {
        terms.push(block(&vec![copy((v, 1)); size - 1]));
    }
    terms.push(last);
    terms
}

#[test]
fn at_every_limit() {
    let terms = full(copy((127, 1)));
    assert_eq!(fitting(&terms), LIMITS);
    let script = script_of(&terms);
    assert_eq!(reads_under(LIMITS, &script), Ok(4096));
    assert_eq!(judges_under(LIMITS, &rows_under(LIMITS, &terms)), Ok(4096));
    assert_eq!(checks_under(LIMITS, &terms), Ok(4096));
    // The last variable has a box with reading 7.
    assert_eq!(runs_under(LIMITS, &terms), crate::common::ran(1, 128));
    let mut rows = Guarded::junk(20_480, 61);
    let mut store = Guarded::junk(768, 62);
    let (lent, on) = (rows.lent_mut(), store.lent_mut());
    let called = asked::call(LIMITS, &script, &READINGS, lent, on);
    let whole = Called {
        answer: 1,
        terms: 4096,
        cells: 128,
    };
    assert_eq!(called, Ok(whole));
    assert!(rows.guards_hold() && store.guards_hold());
}

#[test]
fn the_last_term_is_judged() {
    let refuses = |last: Term, number| {
        let terms = full(last);
        assert_eq!(checks_under(LIMITS, &terms), refused(number, 4095));
    };
    refuses(copy((127, 0)), 37);
    refuses(copy((127, 2)), 32);
    refuses(below((0, 1), (127, 0)), 39);
    refuses(sum((0, 1), (127, 0)), 39);
    let moved = full(mov((127, 0)));
    assert_eq!(checks_under(LIMITS, &moved), refused(43, 0));
}

/// The place of each refusal is that of what is one too many: the last term,
/// the let and the box of the last variable, and the number on level 32.
#[test]
fn one_too_small() {
    let terms = full(copy((127, 1)));
    let script = script_of(&terms);
    let smaller = |limits: Limits, number, place| {
        assert_eq!(reads_under(limits, &script), refused(number, place));
    };
    let last = script.len() as u32 - 3;
    smaller(
        Limits {
            terms: 4095,
            ..LIMITS
        },
        16,
        last,
    );
    // Each let takes 5 bytes: its own two, the box's and the reading's.
    let let_127 = 7 + 127 * 5;
    smaller(
        Limits {
            variables: 127,
            ..LIMITS
        },
        14,
        let_127 + 1,
    );
    smaller(
        Limits {
            boxes: 127,
            ..LIMITS
        },
        17,
        let_127 + 2,
    );
    let number = 7 + 128 * 5 + 30 * 2;
    smaller(
        Limits {
            levels: 31,
            ..LIMITS
        },
        15,
        number,
    );

    let rows = rows_under(LIMITS, &terms);
    let smaller = |limits: Limits, number, row| {
        let rows = &rows[..limits.row_numbers()];
        assert_eq!(judges_under(limits, rows), refused(number, row));
        assert_eq!(asked::check(limits, rows), refused(number, row));
    };
    smaller(
        Limits {
            terms: 4095,
            ..LIMITS
        },
        12,
        4095,
    );
    smaller(
        Limits {
            variables: 127,
            ..LIMITS
        },
        14,
        1 + 127 * 3,
    );
    smaller(
        Limits {
            boxes: 127,
            ..LIMITS
        },
        17,
        2 + 127 * 3,
    );
    smaller(
        Limits {
            levels: 31,
            ..LIMITS
        },
        15,
        1 + 128 * 3 + 30,
    );
}
