//! Variables that only hold each other are not in use.

use crate::common::refused;
use crate::common::terms::*;
use crate::hand::*;
use crate::last_uses::{gives_one, refuses_at};

/// `let v0=reading 0; let v1=1; let v2=2; let v3=&mut v1; let v4=&mut v2;
/// choice v0 {v3=&mut *v4; 1} {v4=&mut *v3; 1}`: afterwards v3 may hold v1 and
/// v4, and v4 may hold v2 and v3. Terms 0 to 19.
fn round(then: &[Term]) -> Vec<Term> {
    let before = [
        let_(0, reading(0)),
        let_(1, number(1)),
        let_(2, number(2)),
        let_(3, exclusive((1, 0))),
        let_(4, exclusive((2, 0))),
        choice(
            (0, 0),
            &[assign((3, 0), exclusive((4, 1))), number(1)],
            &[assign((4, 0), exclusive((3, 1))), number(1)],
        ),
    ];
    [&before, then].concat()
}

#[test]
fn two_that_only_hold_each_other() {
    for root in [1, 2] {
        let answer = root as i32;
        gives_one(&round(&[copy((root, 0))]), answer);
        for ask in [
            mov((root, 0)),
            exclusive((root, 0)),
            assign((root, 0), number(5)),
            let_(5, exclusive((root, 0))),
        ] {
            gives_one(&round(&[ask, number(7)]), 7);
        }
    }
    gives_one(&round(&[sum((1, 0), (2, 0))]), 3);
}

/// Either one that is named keeps both in use, and all that they hold.
#[test]
fn one_of_the_two_used_again() {
    for (root, used) in [(1, 3), (1, 4), (2, 3), (2, 4)] {
        refuses_at(&round(&[copy((root, 0)), copy((used, 1))]), 34, 20);
        refuses_at(&round(&[mov((root, 0)), copy((used, 1))]), 35, 20);
    }
}

/// A term that names one of them itself has both in use.
#[test]
fn their_own_terms() {
    for root in [3, 4] {
        refuses_at(&round(&[copy((root, 1))]), 34, 20);
        refuses_at(&round(&[mov((root, 0)), number(1)]), 35, 20);
        refuses_at(&round(&[exclusive((root, 1)), number(1)]), 35, 20);
        refuses_at(&round(&[assign((root, 1), number(1)), number(1)]), 35, 20);
        let bound = assign((root, 0), exclusive((0, 0)));
        // v3=&mut v0: v4 holds it, and is not in use, as v3 holds it no longer.
        assert_eq!(accepts(&round(&[bound, number(1)])), Ok(()));
    }
}

/// v3 bound to v0 is held by v4 alone, which nobody names.
#[test]
fn opened_again() {
    let bound = assign((3, 0), exclusive((0, 0)));
    gives_one(&round(&[bound.clone(), copy((1, 0))]), 1);
    gives_one(&round(&[bound.clone(), copy((3, 1))]), 185);
    refuses_at(&round(&[bound.clone(), copy((0, 0)), copy((4, 1))]), 35, 20);
    refuses_at(&round(&[bound, copy((0, 0)), copy((3, 1))]), 34, 22);
}

/// Three that hold each other, and one more that holds one of them.
#[test]
fn three_and_one_beside() {
    let bind = |to, through| assign((to, 0), exclusive((through, 1)));
    let before = [
        let_(0, reading(0)),
        let_(1, number(1)),
        let_(2, exclusive((1, 0))),
        let_(6, number(6)),
        let_(3, exclusive((6, 0))),
        let_(7, number(7)),
        let_(4, exclusive((7, 0))),
        choice(
            (0, 0),
            &[bind(2, 3), number(1)],
            &[choice(
                (0, 0),
                &[bind(3, 4), number(1)],
                &[bind(4, 2), number(1)],
            )],
        ),
    ];
    let terms = |then: &[Term]| [&before[..], then].concat();
    let count = 30;
    for root in [1, 6, 7] {
        assert_eq!(accepts(&terms(&[copy((root, 0))])), Ok(()));
        for used in [2, 3, 4] {
            refuses_at(&terms(&[copy((root, 0)), copy((used, 1))]), 34, count);
        }
    }
    // The one beside is a reference to v2, of another type.
    let beside = let_(5, shared((2, 0)));
    let over = accepts(&terms(std::slice::from_ref(&beside)));
    assert_eq!(over, refused(34, count + 1));
}

/// Without a choice none come to hold each other: the assign that would close
/// the circle is refused, by its own name.
#[test]
fn no_circle_without_a_choice() {
    let terms = [
        let_(1, number(1)),
        let_(2, number(2)),
        let_(3, exclusive((1, 0))),
        let_(4, exclusive((2, 0))),
        assign((3, 0), exclusive((4, 1))),
        assign((4, 0), exclusive((3, 1))),
        number(1),
    ];
    refuses_at(&terms, 35, 11);
}
