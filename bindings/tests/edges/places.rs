//! Places (LANGUAGE 3.16): chains (32), what is moved away (33), copies (37;
//! 3.19), moves (38; 3.20) and links (42; 3.21 to 3.23).

use crate::common::refused;
use crate::common::terms::*;
use crate::hand::*;
use crate::in_use::accepts_in_use;

/// The terms given, and then a number as the answer, while every variable is in
/// use.
#[track_caller]
fn checks_first(terms: &[Term]) -> Result<(), roomscript::Refusal> {
    accepts_in_use(&[terms, &[number(0)]].concat())
}

#[test]
fn a_chain_must_be_long_enough() {
    let one = |term: Term| checks_first(&[let_(0, number(1)), term]);
    for term in [
        copy((0, 1)),
        mov((0, 1)),
        shared((0, 1)),
        exclusive((0, 8)),
        below((0, 1), (9, 0)),
        below((0, 0), (0, 1)),
        sum((0, 1), (9, 0)),
        sum((0, 0), (0, 1)),
        assign((0, 1), number(2)),
    ] {
        assert_eq!(one(term), refused(32, 3));
    }
    for links in 1..=8 {
        let at = |follows| checks(&[let_(0, boxes(links, number(1))), copy((0, follows))]);
        let terms = links as u32 + 4;
        assert_eq!(at(links as u32), Ok(terms));
        if links < 8 {
            assert_eq!(at(links as u32 + 1), refused(32, terms - 1));
        }
    }
}

#[test]
fn a_chain_goes_on_behind_a_borrow() {
    let at = |follows| {
        checks(&[
            let_(0, boxed(number(6))),
            let_(1, shared((0, 0))),
            copy((1, follows)),
        ])
    };
    assert_eq!(at(2), Ok(7));
    assert_eq!(at(3), refused(32, 6));
}

#[test]
fn the_chain_comes_before_what_is_moved_away() {
    let moved = [let_(0, number(1)), mov((0, 0))];
    let then = |term| checks_first(&[&moved[..], &[term]].concat());
    assert_eq!(then(copy((0, 1))), refused(32, 4));
    assert_eq!(then(mov((0, 1))), refused(32, 4));
    assert_eq!(then(assign((0, 1), number(2))), refused(32, 4));
}

#[test]
fn a_value_moved_away() {
    let then = |term| checks_first(&[let_(0, number(1)), mov((0, 0)), term]);
    for term in [
        copy((0, 0)),
        mov((0, 0)),
        shared((0, 0)),
        exclusive((0, 0)),
        below((0, 0), (9, 0)),
        sum((0, 0), (9, 0)),
    ] {
        assert_eq!(then(term), refused(33, 4));
    }
    assert_eq!(then(assign((0, 0), number(2))), Ok(()));
}

#[test]
fn a_path_moved_away() {
    let then = |term| checks_first(&[let_(0, boxed(number(1))), mov((0, 0)), term]);
    for term in [
        copy((0, 1)),
        mov((0, 1)),
        shared((0, 1)),
        exclusive((0, 1)),
        below((0, 1), (9, 0)),
        sum((0, 1), (9, 0)),
        assign((0, 1), number(2)),
    ] {
        assert_eq!(then(term), refused(33, 5));
    }
    assert_eq!(then(assign((0, 0), boxed(number(2)))), Ok(()));
}

#[test]
fn a_value_that_is_not_whole() {
    // The inner number is moved away, the two boxes are still there.
    let hollow = [let_(0, boxes(2, number(1))), mov((0, 2))];
    let then = |term| checks_first(&[&hollow[..], &[term]].concat());
    for term in [
        copy((0, 0)),
        copy((0, 1)),
        mov((0, 0)),
        mov((0, 1)),
        shared((0, 0)),
        exclusive((0, 1)),
        below((0, 1), (9, 0)),
        sum((0, 1), (9, 0)),
    ] {
        assert_eq!(then(term), refused(33, 6));
    }
    // An assign asks for its path only, and makes the variable whole.
    for (follows, value) in [
        (0, boxes(2, number(3))),
        (1, boxed(number(3))),
        (2, number(3)),
    ] {
        let filled = [&hollow[..], &[assign((0, follows), value), mov((0, 0))]].concat();
        assert_eq!(checks_first(&filled), Ok(()));
    }
}

#[test]
fn below_and_sum_want_both_places_whole() {
    for of_two in [below, sum] {
        let terms = [
            let_(0, number(1)),
            let_(1, number(2)),
            mov((1, 0)),
            of_two((0, 0), (1, 0)),
        ];
        assert_eq!(checks(&terms), refused(33, 6));
    }
}

#[test]
fn a_moved_borrow_leads_nowhere() {
    let terms = [
        let_(0, number(1)),
        let_(1, shared((0, 0))),
        mov((1, 0)),
        copy((1, 1)),
    ];
    assert_eq!(checks(&terms), refused(33, 6));
}

#[test]
fn copies_are_of_numbers_and_shared_borrows() {
    let boxed_one = [let_(0, boxes(2, number(1)))];
    let then = |term| checks_first(&[&boxed_one[..], &[term]].concat());
    assert_eq!(then(copy((0, 0))), refused(37, 5));
    assert_eq!(then(copy((0, 1))), refused(37, 5));
    assert_eq!(then(copy((0, 2))), Ok(()));
    let exclusively = [let_(0, number(1)), let_(1, exclusive((0, 0))), copy((1, 0))];
    assert_eq!(checks_first(&exclusively), refused(37, 5));
    let shared_box = [
        let_(0, boxed(number(1))),
        let_(1, shared((0, 0))),
        let_(2, copy((1, 0))),
        copy((2, 2)),
    ];
    assert_eq!(checks(&shared_box), Ok(9));
    // Behind the shared borrow there is a box again.
    let behind = [
        let_(0, boxed(number(1))),
        let_(1, shared((0, 0))),
        copy((1, 1)),
    ];
    assert_eq!(checks_first(&behind), refused(37, 6));
}

#[test]
fn a_copied_borrow_borrows_the_same_place() {
    let then = |term| {
        checks_first(&[
            let_(0, number(1)),
            let_(1, shared((0, 0))),
            let_(2, copy((1, 0))),
            mov((1, 0)),
            term,
        ])
    };
    assert_eq!(then(assign((0, 0), number(2))), refused(35, 8));
    assert_eq!(then(assign((1, 0), shared((0, 0)))), Ok(()));
}

#[test]
fn a_move_passes_no_borrow() {
    for borrow in [shared((0, 0)), exclusive((0, 0))] {
        let then = |terms: &[Term]| {
            let first = [let_(0, number(1)), let_(1, borrow.clone())];
            checks_first(&[&first[..], terms].concat())
        };
        assert_eq!(then(&[mov((1, 1))]), refused(38, 5));
        // After the chain, before what is moved away or held.
        assert_eq!(then(&[mov((1, 2))]), refused(32, 5));
        assert_eq!(then(&[mov((1, 0)), mov((1, 1))]), refused(38, 6));
        assert_eq!(
            then(&[let_(2, shared((1, 0))), mov((1, 1))]),
            refused(38, 7)
        );
        assert_eq!(then(&[mov((1, 0))]), Ok(()));
    }
    let in_box = |follows| {
        checks_first(&[
            let_(0, number(1)),
            let_(1, boxed(shared((0, 0)))),
            mov((1, follows)),
        ])
    };
    assert_eq!(in_box(1), Ok(()));
    assert_eq!(in_box(2), refused(38, 6));
}

#[test]
fn at_most_eight_links() {
    let eight = [let_(0, boxes(8, number(1)))];
    let then = |terms: &[Term]| checks_first(&[&eight[..], terms].concat());
    assert_eq!(then(&[shared((0, 0))]), refused(42, 11));
    assert_eq!(then(&[exclusive((0, 0))]), refused(42, 11));
    assert_eq!(then(&[boxed(mov((0, 0)))]), refused(42, 11));
    assert_eq!(then(&[shared((0, 1))]), Ok(()));
    assert_eq!(then(&[exclusive((0, 1))]), Ok(()));
    assert_eq!(then(&[boxed(mov((0, 1)))]), Ok(()));
    // After what is barred.
    let barred = [let_(1, exclusive((0, 1))), shared((0, 0))];
    assert_eq!(then(&barred), refused(34, 13));
    let barred = [let_(1, shared((0, 1))), exclusive((0, 0))];
    assert_eq!(then(&barred), refused(35, 13));
}

#[test]
fn links_of_borrows_count_too() {
    let mut terms = vec![let_(0, number(1))];
    terms.extend((1..=8).map(|v| let_(v, shared((v - 1, 0)))));
    assert_eq!(checks_first(&terms), Ok(()));
    terms.push(let_(9, shared((8, 0))));
    assert_eq!(checks_first(&terms), refused(42, 20));
}
