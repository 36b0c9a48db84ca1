//! What is there: numbers of lets (30; LANGUAGE 3.6), scope (31; 3.16), values
//! (41; 3.4) and the answer (43; 3.29), and that rows are judged before all of
//! them (5.7).

use crate::asked;
use crate::common::refused;
use crate::common::terms::*;
use crate::hand::*;
use roomscript::Limits;

const BASE: Limits = Limits::BASE;
const ROWS: usize = BASE.row_numbers();

#[test]
fn rows_are_judged_first() {
    for length in [0, 1, 2559, 2561, 5120] {
        assert_eq!(asked::check(BASE, &vec![0; length]), refused(2, 0));
        assert_eq!(asked::check(BASE, &vec![u32::MAX; length]), refused(2, 0));
    }
    assert_eq!(asked::check(BASE, &[0; ROWS]), refused(12, 0));
    let author = [copy((0, 0))];
    assert_eq!(checks(&author), refused(31, 1));
    // Each number of the form, with its row, and before the author's.
    let with = |field: usize, value| {
        let mut rows = rows_of(&author);
        rows[field] = value;
        asked::check(BASE, &rows)
    };
    assert_eq!(with(5, 0), refused(12, 1));
    assert_eq!(with(5, 14), refused(13, 1));
    assert_eq!(with(6, 64), refused(14, 1));
    assert_eq!(with(8, 1), refused(14, 1));
    assert_eq!(with(0, 10), refused(18, 0));
    assert_eq!(with(10, 2), refused(19, 2));
    assert_eq!(with(ROWS - 1, 1), refused(19, 511));
}

#[test]
fn limits_come_before_the_author() {
    // 17 levels, and 65 boxes, each with a place out of scope at term 1.
    let deep = (0..14).fold(number(1), |inner, _| block(&[inner]));
    assert_eq!(checks(&[copy((0, 0)), deep.clone()]), refused(31, 1));
    let deeper = rows_of(&[copy((0, 0)), block(&[block(&[deep])])]);
    assert_eq!(asked::check(BASE, &deeper), refused(15, 17));
    let mut many = vec![copy((0, 0))];
    many.extend(vec![boxed(number(1)); 64]);
    assert_eq!(checks(&many), refused(31, 1));
    many.push(boxed(number(1)));
    assert_eq!(asked::check(BASE, &rows_of(&many)), refused(17, 130));
}

#[test]
fn a_number_is_declared_once() {
    let twice = [let_(0, number(1)), let_(0, number(2)), number(0)];
    assert_eq!(checks(&twice), refused(30, 3));
    // Also where the first one is out of scope again.
    let apart = [
        block(&[let_(5, number(1)), number(2)]),
        let_(5, number(3)),
        number(0),
    ];
    assert_eq!(checks(&apart), refused(30, 5));
    // Before the inner term is judged.
    let nowhere = [let_(63, number(1)), let_(63, copy((9, 0))), number(0)];
    assert_eq!(checks(&nowhere), refused(30, 3));
}

#[test]
fn a_number_is_taken_inside_its_own_let() {
    let inside = [let_(0, block(&[let_(0, number(1)), number(2)])), number(0)];
    assert_eq!(checks(&inside), refused(30, 3));
    let at_once = [let_(0, let_(0, number(1))), number(0)];
    assert_eq!(checks(&at_once), refused(30, 2));
    // Any other number can be declared there.
    let other = [let_(0, block(&[let_(1, number(1)), number(2)])), number(0)];
    assert_eq!(checks(&other), Ok(7));
}

#[test]
fn all_numbers_can_be_declared() {
    let mut terms: Vec<Term> = (0..64).map(|v| let_(v, number(v as i32))).collect();
    terms.push(below((62, 0), (63, 0)));
    assert_eq!(checks(&terms), Ok(130));
    terms.insert(64, let_(31, number(0)));
    assert_eq!(checks(&terms), refused(30, 129));
}

/// Every use of a place in a term at 1.
fn uses(place: Place) -> Vec<Term> {
    vec![
        copy(place),
        mov(place),
        shared(place),
        exclusive(place),
        below(place, place),
        sum(place, place),
        assign(place, number(1)),
    ]
}

#[test]
fn a_root_must_be_in_scope() {
    for place in [(0, 0), (63, 0), (0, 8)] {
        for term in uses(place) {
            assert_eq!(checks(&[term, number(0)]), refused(31, 1));
        }
    }
    for of_two in [below, sum] {
        let second = [let_(0, number(1)), of_two((0, 0), (1, 0))];
        assert_eq!(checks(&second), refused(31, 3));
    }
    // An inner term's refusal is the inner term's.
    let deep = [let_(0, boxed(boxed(copy((1, 0))))), number(0)];
    assert_eq!(checks(&deep), refused(31, 4));
}

#[test]
fn scope_begins_after_the_let_and_ends_with_the_block() {
    for term in uses((0, 0)) {
        let own = [let_(0, term.clone()), number(0)];
        assert_eq!(checks(&own), refused(31, 2));
        let inner = block(&[let_(0, number(1)), number(2)]);
        assert_eq!(checks(&[inner, term.clone(), number(0)]), refused(31, 5));
        let right = block(&[let_(0, number(1)), number(2)]);
        let beside = [let_(1, right), term, number(0)];
        assert_eq!(checks(&beside), refused(31, 6));
    }
    let within = [let_(0, number(4)), block(&[block(&[copy((0, 0))])])];
    assert_eq!(checks(&within), Ok(6));
}

#[test]
fn what_has_no_value() {
    let nothing = let_(1, number(1));
    assert_eq!(checks(&[boxed(nothing.clone()), number(0)]), refused(41, 1));
    assert_eq!(
        checks(&[let_(0, nothing.clone()), number(0)]),
        refused(41, 1)
    );
    // An assign needs its right side before its place, which is nowhere here.
    let nowhere = [assign((9, 0), nothing.clone()), number(0)];
    assert_eq!(checks(&nowhere), refused(41, 1));
    let assigned = [let_(0, number(1)), boxed(assign((0, 0), number(2)))];
    assert_eq!(checks(&assigned), refused(41, 3));
    // A block has its last term's value, so here it has none either.
    let blocked = [let_(0, block(&[number(1), nothing.clone()])), number(0)];
    assert_eq!(checks(&blocked), refused(41, 1));
    let ended = block(&[nothing]);
    assert_eq!(checks(&[ended.clone(), number(0)]), Ok(5));
    let nested = [boxed(block(&[ended])), number(0)];
    assert_eq!(checks(&nested), refused(41, 1));
}

#[test]
fn the_answer_is_a_number() {
    assert_eq!(checks(&[let_(0, number(1))]), refused(43, 0));
    assert_eq!(checks(&[boxed(number(1))]), refused(43, 0));
    assert_eq!(checks(&[block(&[boxed(number(1))])]), refused(43, 0));
    assert_eq!(checks(&[block(&[let_(0, number(1))])]), refused(43, 0));
    let assigned = [let_(0, number(1)), assign((0, 0), number(2))];
    assert_eq!(checks(&assigned), refused(43, 0));
    let moved = [let_(0, boxed(number(1))), mov((0, 0))];
    assert_eq!(checks(&moved), refused(43, 0));
    // A borrow of a variable is met at the end of the block already.
    assert_eq!(
        checks(&[let_(0, number(1)), shared((0, 0))]),
        refused(40, 0)
    );
    assert_eq!(checks(&[reading(7)]), Ok(2));
}
