//! Runs that check first (LANGUAGE 6.6): the order of their refusals, each of
//! the author's numbers, and what becomes of the store, under the language's
//! own set and under others. E1 to E11 are in `examples`, and `hand` runs every
//! script that is checked by hand.

use crate::asked;
use crate::common::examples::*;
use crate::common::guarded::Guarded;
use crate::common::sets::{set, LEAST, SMALL, UNEVEN};
use crate::common::store::{cell, store_of};
use crate::common::terms::*;
use crate::common::{fault, ran, refused, UncheckedAnswer};
use crate::hand::*;
use roomscript::Limits;

const BASE: Limits = Limits::BASE;
const STORE: usize = BASE.store_numbers();

/// Six things, each right or wrong, in every combination: the first one that is
/// wrong is told, and the store stays as it was.
#[test]
fn the_order_of_refusals() {
    for limits in [BASE, SMALL, UNEVEN, Limits::LARGEST] {
        let last = limits.terms - 1;
        let numbers = [(74, 0), (2, 0), (3, 0), (4, 0), (19, last), (31, 3)];
        for wrong in 0..1usize << numbers.len() {
            let is_wrong = |at: usize| wrong >> at & 1;
            let mut handed = limits;
            handed.levels += 32 * is_wrong(0) as u32;
            let root = is_wrong(5) as u32;
            let mut rows = rows_under(limits, &[let_(0, number(7)), copy((root, 0))]);
            rows[5 * last as usize] = is_wrong(4) as u32;
            rows.truncate(limits.row_numbers() - is_wrong(1));
            let mut store = Guarded::junk(limits.store_numbers() + is_wrong(2), 71);
            let readings = &READINGS[is_wrong(3)..];
            let answer = asked::run(handed, &rows, readings, store.lent_mut());
            let due = match numbers.get(wrong.trailing_zeros() as usize) {
                Some((number, place)) => refused(*number, *place),
                None => ran(7, 0),
            };
            assert_eq!(answer, due, "{handed:?}, {wrong:b}");
            assert_eq!(store.junk_from(0), wrong != 0, "{handed:?}, {wrong:b}");
            assert!(store.guards_hold(), "{handed:?}, {wrong:b}");
        }
    }
}

/// All rows are judged before the first term is by the rules, which refuse it
/// here: 31 at 1.
#[test]
fn the_form_before_the_author() {
    let terms = [copy((0, 0)), let_(1, number(1)), copy((1, 0))];
    assert_eq!(runs(&terms), refused(31, 1));
    let with = |field: usize, value| {
        let mut rows = rows_of(&terms);
        rows[field] = value;
        both_refuse(BASE, &rows, &READINGS, STORE)
    };
    assert_eq!(with(20, 0), refused(12, 4));
    assert_eq!(with(20, 14), refused(13, 4));
    assert_eq!(with(21, 64), refused(14, 4));
    assert_eq!(with(24, 1), refused(14, 4));
    assert_eq!(with(0, 8), refused(18, 0));
    assert_eq!(with(25, 1), refused(19, 5));
    assert_eq!(with(2559, 1), refused(19, 511));
    let before = |terms: &[Term]| {
        let rows = rows_of(&[&[copy((0, 0))], terms].concat());
        both_refuse(BASE, &rows, &READINGS, STORE)
    };
    let deep = (0..15).fold(number(1), |inner, _| block(&[inner]));
    assert_eq!(before(&[deep]), refused(15, 17));
    assert_eq!(before(&vec![boxed(number(1)); 65]), refused(17, 130));
}

/// A number of the author's with its term, what comes of the script unchecked,
/// and the script.
type ByAuthor = (u32, u32, UncheckedAnswer, Vec<Term>);

/// A script for each number.
fn by_the_author() -> Vec<ByAuthor> {
    let one = || let_(0, number(1));
    let borrowed = || let_(1, shared((0, 0)));
    let twice = vec![one(), let_(0, number(2)), number(0)];
    let write = assign((0, 0), number(2));
    let barred = vec![one(), borrowed(), write, copy((1, 1))];
    let other = vec![one(), assign((0, 0), boxed(number(2))), number(0)];
    vec![
        (30, 3, fault(62, 3), twice),
        (31, 1, fault(60, 1), vec![copy((0, 0)), number(0)]),
        (32, 3, fault(61, 3), vec![one(), copy((0, 1))]),
        (33, 6, fault(60, 6), e3()),
        (34, 5, ran(5, 0), e2_used_again()),
        (35, 5, ran(2, 0), barred),
        (36, 7, ran(0, 0), e7()),
        (37, 5, fault(63, 0), e9()),
        (38, 5, ran(1, 0), vec![one(), borrowed(), mov((1, 1))]),
        (39, 3, ran(0, 1), other),
        (40, 4, ran(1, 0), e5()),
        (41, 1, ran(0, 0), vec![let_(1, one()), number(0)]),
        (42, 2, ran(0, 9), e10(9)),
        (43, 0, fault(61, 0), vec![boxed(number(1))]),
    ]
}

#[test]
fn each_number_of_the_author() {
    let scripts = by_the_author();
    assert!(scripts.iter().map(|(number, ..)| *number).eq(30..=43));
    for (number, term, _, terms) in scripts {
        assert_eq!(runs(&terms), refused(number, term));
        for limits in [UNEVEN, set(100, 3, 9, 32), set(4096, 128, 10, 12)] {
            let answer = runs_under(limits, &terms);
            assert_eq!(answer, refused(number, term), "{limits:?}");
        }
    }
}

/// What is refused may meet any fault unchecked, or none at all.
#[test]
fn refused_whatever_comes_of_it_unchecked() {
    for (number, term, unchecked, terms) in by_the_author() {
        assert_eq!(gives_unchecked(&terms), unchecked, "{number}");
        assert_eq!(runs(&terms), refused(number, term));
    }
}

#[test]
fn refused_whatever_the_readings() {
    // v0 is below v1 for some readings only, and is read too early for all.
    let terms = [
        let_(0, reading(0)),
        let_(1, reading(1)),
        let_(2, exclusive((0, 0))),
        below((0, 0), (1, 0)),
        copy((2, 1)),
    ];
    for readings in [READINGS, [0; 8], [i32::MIN; 8], [i32::MAX; 8]] {
        let mut store = Guarded::junk(STORE, 72);
        let answer = asked::run(BASE, &rows_of(&terms), &readings, store.lent_mut());
        assert_eq!(answer, refused(34, 7));
        assert!(store.junk_from(0) && store.guards_hold());
    }
}

#[test]
fn one_after_the_other_on_the_same_store() {
    let mut store = Guarded::junk(STORE, 73);
    let mut run = |terms: &[Term]| {
        let answer = asked::run(BASE, &rows_of(terms), &READINGS, store.lent_mut());
        assert!(store.guards_hold());
        (answer, store.lent().to_vec())
    };
    let given_back = |cells: usize| {
        let rows: Vec<_> = (0..cells).map(|at| (cell(at), [2, 0, 0])).collect();
        store_of(&rows)
    };
    assert_eq!(run(&e10(8)), (ran(0, 8), given_back(8)));
    // A refusal leaves what the run before it left.
    assert_eq!(run(&e3()), (refused(33, 6), given_back(8)));
    assert_eq!(run(&e10(9)), (refused(42, 2), given_back(8)));
    assert_eq!(run(&[]), (refused(14, 0), given_back(8)));
    // What is accepted begins with a store of 0.
    assert_eq!(run(&e4()), (ran(8, 1), given_back(1)));
    assert_eq!(run(&e1()), (ran(1, 0), given_back(0)));
}

/// Every variable is open and every cell taken at the end, and all is given
/// back.
#[test]
fn a_full_store_is_left_tidy() {
    for limits in [set(17, 5, 5, 4), set(197, 65, 65, 4), BASE, Limits::LARGEST] {
        let count = limits.variables;
        let mut terms: Vec<Term> = (0..count)
            .map(|variable| let_(variable, boxed(number(variable as i32))))
            .collect();
        terms.push(copy((count - 1, 1)));
        let due = ran(count as i32 - 1, count);
        assert_eq!(runs_under(limits, &terms), due, "{limits:?}");
        // With a term that the check refuses, none of it runs.
        terms[count as usize] = copy((count - 1, 0));
        let due = refused(37, 3 * count + 1);
        assert_eq!(runs_under(limits, &terms), due, "{limits:?}");
    }
}

#[test]
fn sets_that_are_too_small_for_a_script() {
    let terms = [let_(5, boxed(number(1))), copy((5, 0))];
    let fits = set(5, 6, 1, 4);
    assert_eq!(runs_under(fits, &terms), refused(37, 4));
    let under = |limits: Limits| {
        let rows = &rows_under(fits, &terms)[..limits.row_numbers()];
        both_refuse(limits, rows, &READINGS, limits.store_numbers())
    };
    // The form of the rows is wrong there, which comes before the author's 37.
    assert_eq!(under(set(4, 6, 1, 4)), refused(12, 4));
    assert_eq!(under(set(5, 5, 1, 4)), refused(14, 1));
    assert_eq!(under(set(5, 6, 0, 4)), refused(17, 2));
    assert_eq!(under(set(5, 6, 1, 3)), refused(15, 3));
    assert_eq!(under(LEAST), refused(12, 1));
    // The smallest set that takes a script.
    assert_eq!(runs_under(set(2, 1, 0, 2), &[reading(0)]), ran(185, 0));
    assert_eq!(runs_under(set(2, 1, 0, 2), &[copy((0, 0))]), refused(31, 1));
}
