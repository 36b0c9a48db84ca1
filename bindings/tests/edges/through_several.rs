//! Shared borrows through links that may stand for several places, and choices
//! whose branches give borrows through links.

use crate::common::refused;
use crate::common::terms::*;
use crate::listed_choices::{choose, gives, one, then, two_numbers};
use crate::through_shared::{behind, is_free, is_lent, opening};

/// v3 to v1 and v4 to v2.
fn two_references() -> [Term; 2] {
    [let_(3, shared((1, 0))), let_(4, shared((2, 0)))]
}

fn of_two(first: Term, second: Term) -> Term {
    choose(&[first], &[second])
}

/// v1 and v2 are recorded, and these variables are not.
#[track_caller]
fn records_both(before: &[Term], passed: &[(u32, Term)]) {
    let mut before = before.to_vec();
    for (root, value) in passed {
        is_free(&before, *root, value.clone());
        before.push(mov((*root, 0)));
    }
    for root in [1, 2] {
        is_lent(&before, root, number(5));
    }
}

fn of_v0() -> Term {
    shared((0, 0))
}

#[test]
fn the_link_may_stand_for_several_places() {
    let of_both = || of_two(shared((1, 0)), shared((2, 0)));
    let terms = [let_(3, of_both()), let_(4, shared((3, 1)))];
    records_both(&opening(&terms), &[(3, of_v0())]);
    gives(
        &[&two_numbers()[..], &terms, &[copy((4, 1))]].concat(),
        [1, 2],
        0,
    );
    // In a box.
    let before = opening(&[let_(3, boxed(of_both())), let_(4, shared((3, 2)))]);
    records_both(&before, &[(3, boxed(of_v0()))]);
    // Bound again in one of the branches.
    let before = opening(&[
        let_(3, shared((1, 0))),
        choose(&[assign((3, 0), shared((2, 0))), one()], &[one()]),
        let_(4, shared((3, 1))),
    ]);
    records_both(&before, &[(3, of_v0())]);
}

#[test]
fn several_variables_may_have_the_link() {
    for borrow in [shared as fn(Place) -> Term, exclusive] {
        let terms = [
            let_(5, of_two(borrow((3, 0)), borrow((4, 0)))),
            let_(6, shared((5, 2))),
            mov((5, 0)),
        ];
        let before = opening(&then(&two_references(), &terms));
        records_both(&before, &[(3, of_v0()), (4, of_v0())]);
    }
    // Only up to the last link: `*v5` is v3 or v4 itself.
    let terms = [
        let_(5, of_two(shared((3, 0)), shared((4, 0)))),
        let_(6, shared((5, 1))),
        mov((5, 0)),
    ];
    let before = opening(&then(&two_references(), &terms));
    for root in [3, 4] {
        is_lent(&before, root, of_v0());
    }
}

#[test]
fn several_places_with_follows_that_remain() {
    let before = opening(&[
        let_(3, boxed(number(3))),
        let_(4, boxed(number(4))),
        let_(5, of_two(shared((3, 0)), shared((4, 0)))),
        let_(6, shared((5, 2))),
    ]);
    is_free(&before, 5, shared((3, 0)));
    let before = then(&before, &[mov((5, 0))]);
    for root in [3, 4] {
        is_lent(&before, root, boxed(number(5)));
        assert_eq!(behind(&before, &[mov((root, 1))]), refused(35, 0));
    }
    // The places have other numbers of follows, and lead to the same type.
    let before = opening(&[
        let_(3, boxed(number(3))),
        let_(4, of_two(shared((3, 1)), shared((1, 0)))),
        let_(5, shared((4, 1))),
        mov((4, 0)),
    ]);
    is_lent(&before, 3, boxed(number(5)));
    is_lent(&before, 1, number(5));
    assert_eq!(behind(&before, &[copy((5, 1))]), Ok(()));
}

#[test]
fn branches_that_give_borrows_through_links() {
    // Through variables outside.
    let terms = [let_(5, of_two(shared((3, 1)), shared((4, 1))))];
    let before = opening(&then(&two_references(), &terms));
    records_both(&before, &[(3, of_v0()), (4, of_v0())]);
    // Through variables of their own.
    let own = |first: Term, second: Term| {
        let first = [let_(6, first), shared((6, 1))];
        let second = [let_(7, second), shared((7, 1))];
        let_(5, choose(&first, &second))
    };
    records_both(&opening(&[own(shared((1, 0)), shared((2, 0)))]), &[]);
    // One of them through an exclusive link, which records its own variable.
    let more = |term: Term| behind(&opening(&[]), &[term]);
    let first = own(exclusive((1, 0)), shared((2, 0)));
    assert_eq!(more(first), refused(40, 2));
    let second = own(shared((1, 0)), exclusive((2, 0)));
    assert_eq!(more(second), refused(40, 6));
    // One that borrows something of the branch itself.
    let local = [let_(6, one()), let_(7, shared((6, 0))), shared((7, 1))];
    let second = let_(5, choose(&[shared((1, 0))], &local));
    assert_eq!(more(second), refused(40, 4));
}

#[test]
fn moved_away_in_one_branch() {
    let moved = choose(&[mov((3, 0)), one()], &[one()]);
    let before = opening(&then(&two_references(), &[moved]));
    assert_eq!(behind(&before, &[shared((3, 1))]), refused(33, 0));
    assert_eq!(behind(&before, &[shared((4, 1))]), Ok(()));
    // What may be recorded is moved away.
    let leave = [assign((3, 0), of_v0()), mov((1, 0)), one()];
    let terms = [let_(3, shared((1, 0))), choose(&leave, &[one()])];
    let before = opening(&terms);
    assert_eq!(behind(&before, &[shared((3, 1))]), refused(33, 0));
}

/// One branch binds v4 to v2 and moves v3 away, through which v4 borrows v1.
/// Recorded as it is named, v4 could not be used, and v1 would be free.
#[test]
fn what_was_passed_is_moved_away_in_one_branch() {
    let leave = [assign((4, 0), shared((2, 0))), mov((3, 0)), one()];
    let before = opening(&[
        let_(3, shared((1, 0))),
        let_(4, shared((3, 1))),
        choose(&leave, &[one()]),
    ]);
    is_lent(&before, 1, number(5));
    is_lent(&before, 2, number(5));
    assert_eq!(behind(&before, &[copy((4, 1))]), Ok(()));
    assert_eq!(behind(&before, &[copy((3, 1))]), refused(33, 0));
}

/// 40 of each recorded place.
#[test]
fn each_recorded_place_lives_long_enough() {
    let before = opening(&[let_(3, shared((1, 0)))]);
    let of = |first: Place, second: Place| {
        let both = of_two(shared(first), shared(second));
        [let_(4, number(4)), let_(5, both)]
    };
    let bind = |first, second| {
        let terms = then(&of(first, second), &[assign((3, 0), shared((5, 1)))]);
        behind(&before, &[block(&terms), copy((3, 1))])
    };
    assert_eq!(bind((1, 0), (2, 0)), Ok(()));
    assert_eq!(bind((4, 0), (2, 0)), refused(40, 9));
    assert_eq!(bind((1, 0), (4, 0)), refused(40, 9));
    let gives = |first, second| {
        let terms = then(&of(first, second), &[shared((5, 1))]);
        behind(&before, &[let_(6, block(&terms)), copy((6, 1))])
    };
    assert_eq!(gives((1, 0), (2, 0)), Ok(()));
    assert_eq!(gives((1, 0), (4, 0)), refused(40, 1));
    assert_eq!(gives((4, 0), (1, 0)), refused(40, 1));
}
