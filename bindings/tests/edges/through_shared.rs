//! Shared borrows through shared links (LANGUAGE 3.21): recorded against what
//! the last such link borrows, with the follows that remain. Links that may
//! stand for several places are in `through_several`.

use crate::choosing::by_reading;
use crate::common::refused;
use crate::common::terms::*;
use crate::in_use::{accepts_in_use, checks_in_use};
use crate::listed_choices::{choose, gives, one, then, two_numbers};
use roomscript::Refusal;

/// `let v0=reading 0; let v1=1; let v2=2` and these terms.
pub fn opening(terms: &[Term]) -> Vec<Term> {
    by_reading(&then(&two_numbers(), terms))
}

/// What the check answers of these terms, others after them and a number, while
/// every variable is in use. Where the others are refused the term is counted
/// from the first of them.
#[track_caller]
pub fn behind(before: &[Term], more: &[Term]) -> Result<(), Refusal> {
    let count = block(before).len() as u32;
    let all = [before, more, &[one()]].concat();
    accepts_in_use(&all).map_err(|Refusal { number, place }| Refusal {
        number,
        place: place.checked_sub(count).expect("after what stands before"),
    })
}

/// A variable is borrowed shared: it can be read, and neither moved, borrowed
/// exclusively nor written, with a value of so many terms.
#[track_caller]
pub fn is_lent(before: &[Term], root: u32, value: Term) {
    let place = (root, 0);
    assert_eq!(behind(before, &[shared(place)]), Ok(()), "{root}");
    assert_eq!(behind(before, &[mov(place)]), refused(35, 0), "{root}");
    let held = behind(before, &[exclusive(place)]);
    assert_eq!(held, refused(35, 0), "{root}");
    let written = behind(before, &[assign(place, value)]);
    let number = written.map_err(|refusal| refusal.number);
    assert_eq!(number, Err(35), "{root}");
}

/// A variable is not borrowed: the same terms are accepted.
#[track_caller]
pub fn is_free(before: &[Term], root: u32, value: Term) {
    let place = (root, 0);
    let terms = [
        shared(place),
        mov(place),
        exclusive(place),
        assign(place, value),
    ];
    for term in terms {
        assert_eq!(behind(before, &[term]), Ok(()), "{root}");
    }
}

#[test]
fn what_is_passed_is_free_and_what_is_recorded_is_not() {
    let before = opening(&[let_(3, shared((1, 0))), let_(4, shared((3, 1)))]);
    is_free(&before, 3, shared((2, 0)));
    is_lent(&before, 1, number(5));
    for over in [mov((3, 0)), assign((3, 0), shared((2, 0)))] {
        let before = then(&before, &[over]);
        is_lent(&before, 1, number(5));
        is_free(&before, 4, shared((2, 0)));
        is_free(&then(&before, &[mov((4, 0))]), 1, number(5));
    }
    // What v3 borrows later is no matter of v4.
    let later = [assign((3, 0), shared((2, 0))), mov((3, 0))];
    is_free(&then(&before, &later), 2, number(5));
}

/// v4 still shows v1 after v3 was bound to v2.
#[test]
fn what_it_shows_afterwards() {
    let terms = [
        let_(3, shared((1, 0))),
        let_(4, shared((3, 1))),
        assign((3, 0), shared((2, 0))),
        assign((1, 0), number(7)),
    ];
    let shown = then(&two_numbers(), &terms[..3]);
    gives(&then(&shown, &[copy((4, 1))]), [1, 1], 0);
    gives(&then(&shown, &[sum((3, 1), (4, 1))]), [3, 3], 0);
    let written = [&by_reading(&two_numbers())[..], &terms, &[one()]].concat();
    assert_eq!(checks_in_use(&written), refused(35, 13));
    // Through itself, and by way of an exclusive borrow of itself.
    let own = [let_(3, shared((1, 0))), assign((3, 0), shared((3, 1)))];
    gives(
        &[&two_numbers()[..], &own, &[copy((3, 1))]].concat(),
        [1, 1],
        0,
    );
    is_lent(&opening(&own), 1, number(5));
    let through = [
        let_(3, shared((1, 0))),
        let_(4, exclusive((3, 0))),
        assign((4, 1), shared((4, 2))),
    ];
    is_lent(&opening(&through), 1, number(5));
    is_free(&opening(&through), 2, number(5));
}

/// `let v3=BLOCK; copy *v3`, or one follow more for each link more.
#[track_caller]
fn helper(inner: &[Term], links: u32) -> Result<(), Refusal> {
    behind(&opening(&[]), &[let_(3, block(inner)), copy((3, links))])
}

#[test]
fn blocks_that_give_a_borrow_through_their_own_variable() {
    let of_v1 = || let_(4, shared((1, 0)));
    let of_v4 = || let_(5, shared((4, 0)));
    assert_eq!(helper(&[of_v1(), shared((4, 1))], 1), Ok(()));
    assert_eq!(helper(&[of_v1(), of_v4(), shared((5, 2))], 1), Ok(()));
    let in_a_box = [of_v1(), boxed(shared((4, 1)))];
    assert_eq!(helper(&in_a_box, 2), Ok(()));
    let of_a_box = [let_(4, boxed(shared((1, 0)))), shared((4, 2))];
    assert_eq!(helper(&of_a_box, 1), Ok(()));
    let nested = [block(&[of_v1(), block(&[of_v4(), shared((5, 2))])])];
    assert_eq!(helper(&nested, 1), Ok(()));
    // The last link is the one of v5, which borrows v4.
    let refusing = [
        (vec![of_v1(), of_v4(), shared((5, 1))], 2),
        // No shared link is passed.
        (vec![of_v1(), shared((4, 0))], 2),
        (vec![let_(4, exclusive((1, 0))), shared((4, 1))], 1),
        (vec![let_(4, exclusive((1, 0))), exclusive((4, 1))], 1),
        // What the link borrows is the block's own.
        (vec![let_(4, number(3)), of_v4(), shared((5, 1))], 1),
        (vec![let_(4, boxed(number(3))), of_v4(), shared((5, 2))], 1),
    ];
    for (inner, links) in refusing {
        assert_eq!(helper(&inner, links), refused(40, 1));
    }
}

/// v1 is borrowed by v3, v3 by v4 and v4 by v5, which is gone after `v6`.
#[test]
fn the_last_of_several_links_counts() {
    for (follows, recorded) in [(3, 1), (2, 3), (1, 4)] {
        let mut before = opening(&[
            let_(3, shared((1, 0))),
            let_(4, shared((3, 0))),
            let_(5, shared((4, 0))),
            let_(6, shared((5, follows))),
            mov((5, 0)),
        ]);
        // Each can be moved away in turn, up to the one that is recorded.
        for root in [4, 3, 1] {
            let moved = behind(&before, &[mov((root, 0))]);
            if root == recorded {
                assert_eq!(moved, refused(35, 0), "{follows}");
                break;
            }
            assert_eq!(moved, Ok(()), "{follows}");
            before.push(mov((root, 0)));
        }
    }
}

#[test]
fn a_box_before_the_shared_link() {
    let before = opening(&[let_(3, boxed(shared((1, 0)))), let_(4, shared((3, 2)))]);
    is_free(&before, 3, boxed(shared((2, 0))));
    is_lent(&before, 1, number(5));
    let inner = [assign((3, 1), shared((2, 0))), mov((3, 1)), mov((2, 0))];
    assert_eq!(behind(&before, &inner), Ok(()));
    // The box alone is no shared link.
    let before = opening(&[let_(3, boxed(shared((1, 0)))), let_(4, shared((3, 1)))]);
    is_lent(&before, 3, boxed(shared((2, 0))));
}

#[test]
fn a_box_after_the_shared_link() {
    let terms = [
        let_(3, boxed(number(3))),
        let_(4, shared((3, 0))),
        let_(5, shared((4, 2))),
    ];
    is_free(&opening(&terms), 4, shared((3, 0)));
    let before = then(&opening(&terms), &[mov((4, 0))]);
    is_lent(&before, 3, boxed(number(5)));
    for term in [mov((3, 1)), exclusive((3, 1)), assign((3, 1), one())] {
        assert_eq!(behind(&before, &[term]), refused(35, 0));
    }
    let read = [&two_numbers()[..], &terms, &[sum((3, 1), (5, 1))]].concat();
    gives(&read, [6, 6], 1);
}

#[test]
fn an_exclusive_link_before_the_shared_link() {
    let before = opening(&[
        let_(3, shared((1, 0))),
        let_(6, shared((2, 0))),
        let_(4, exclusive((3, 0))),
        let_(5, shared((4, 2))),
    ]);
    is_free(&before, 4, exclusive((6, 0)));
    is_lent(&before, 1, number(5));
    for over in [
        [assign((4, 1), shared((2, 0))), mov((4, 0))],
        [mov((4, 0)), assign((3, 0), shared((2, 0)))],
        [mov((4, 0)), mov((3, 0))],
    ] {
        let before = then(&before, &over);
        is_lent(&before, 1, number(5));
        is_free(&then(&before, &[mov((5, 0))]), 1, number(5));
    }
}

#[test]
fn an_exclusive_link_after_the_shared_link() {
    let before = opening(&[
        let_(3, exclusive((1, 0))),
        let_(4, shared((3, 0))),
        let_(5, shared((4, 2))),
    ]);
    is_free(&before, 4, shared((3, 0)));
    let before = then(&before, &[mov((4, 0))]);
    is_lent(&before, 3, exclusive((2, 0)));
    let write = || assign((3, 1), number(5));
    assert_eq!(behind(&before, &[write()]), refused(35, 0));
    assert_eq!(behind(&before, &[copy((3, 1)), copy((5, 1))]), Ok(()));
    // v3 still borrows v1 exclusively.
    assert_eq!(behind(&before, &[copy((1, 0))]), refused(34, 0));
    assert_eq!(behind(&before, &[mov((5, 0)), write()]), Ok(()));
}

/// v4 borrows `*v2`, which is v1 by way of an exclusive link, so that a copy of
/// what is there is of what v1 borrows. Were the follow forgotten, it would be
/// of what v2 borrows, and v1 could not be moved.
#[test]
fn the_follows_that_remain() {
    let terms = [
        let_(1, shared((0, 0))),
        let_(2, exclusive((1, 0))),
        let_(3, shared((2, 0))),
        let_(4, shared((3, 2))),
        let_(5, copy((4, 1))),
        mov((4, 0)),
        mov((3, 0)),
        mov((2, 0)),
        mov((1, 0)),
    ];
    let before = by_reading(&terms);
    assert_eq!(behind(&before, &[copy((5, 1))]), Ok(()));
    is_lent(&before, 0, number(5));
}

#[test]
fn exclusive_borrows_are_recorded_as_before() {
    let before = opening(&[let_(3, shared((1, 0))), let_(4, exclusive((3, 0)))]);
    assert_eq!(behind(&before, &[exclusive((3, 1))]), refused(36, 0));
    assert_eq!(behind(&before, &[exclusive((4, 2))]), refused(36, 0));
    let before = opening(&[let_(3, exclusive((1, 0))), let_(4, exclusive((3, 1)))]);
    assert_eq!(behind(&before, &[mov((3, 0))]), refused(35, 0));
    assert_eq!(behind(&before, &[copy((3, 1))]), refused(34, 0));
    // A shared borrow through an exclusive link alone too.
    let before = opening(&[let_(3, exclusive((1, 0))), let_(4, shared((3, 1)))]);
    is_lent(&before, 3, exclusive((2, 0)));
}

#[test]
fn the_named_place_is_judged() {
    let before = opening(&[let_(3, shared((1, 0)))]);
    let more = |terms: &[Term]| behind(&before, terms);
    assert_eq!(more(&[shared((9, 1))]), refused(31, 0));
    assert_eq!(more(&[shared((3, 2))]), refused(32, 0));
    assert_eq!(more(&[mov((3, 0)), shared((3, 1))]), refused(33, 1));
    // v3 is held exclusively, v1 is not.
    let held = || let_(4, exclusive((3, 0)));
    assert_eq!(more(&[held(), shared((3, 1))]), refused(34, 2));
    assert_eq!(more(&[held(), shared((1, 0))]), Ok(()));
    // By way of v4, v3 has the link but is not named.
    assert_eq!(more(&[held(), shared((4, 2))]), Ok(()));
    // A link passed leaves room for the new one.
    let full = opening(&[let_(3, boxes(7, one())), let_(4, shared((3, 0)))]);
    assert_eq!(behind(&full, &[shared((4, 1))]), Ok(()));
    assert_eq!(behind(&full, &[shared((4, 0))]), refused(42, 0));
}

/// After the choice v3 may borrow v1 or v2, and v4 exclusively v2 or v1. The
/// reading of v3 is not barred, though that of both recorded variables is.
#[test]
fn reading_what_is_recorded_may_be_barred() {
    let exchanged = [
        assign((4, 0), exclusive((5, 0))),
        assign((3, 0), shared((2, 0))),
        assign((4, 0), exclusive((1, 0))),
        one(),
    ];
    let before = opening(&[
        let_(5, number(3)),
        let_(3, shared((1, 0))),
        let_(4, exclusive((2, 0))),
        choose(&[one()], &exchanged),
    ]);
    for root in [1, 2] {
        assert_eq!(behind(&before, &[copy((root, 0))]), refused(34, 0));
    }
    let through = [let_(6, shared((3, 1))), mov((3, 0)), copy((6, 1))];
    assert_eq!(behind(&before, &through), Ok(()));
}

/// 40 of an assign, by what is recorded.
#[test]
fn assigned_to_a_variable_that_lives_longer() {
    let before = opening(&[let_(3, shared((2, 0)))]);
    let inner = |first: Term, last: &[Term]| {
        let terms = [&[first, let_(5, shared((4, 0)))], last].concat();
        behind(&before, &[block(&terms), copy((3, 1))])
    };
    let of_v1 = || let_(4, shared((1, 0)));
    let bind = |follows| [assign((3, 0), shared((5, follows)))];
    let direct = [assign((3, 0), shared((4, 1)))];
    assert_eq!(inner(of_v1(), &direct), Ok(()));
    assert_eq!(inner(of_v1(), &bind(2)), Ok(()));
    assert_eq!(inner(let_(4, number(3)), &bind(1)), refused(40, 5));
    let own = let_(4, boxed(number(3)));
    assert_eq!(inner(own, &bind(2)), refused(40, 6));
    // By way of an exclusive borrow the outer variable is written.
    let through = |follows| {
        [
            let_(6, exclusive((3, 0))),
            assign((6, 1), shared((5, follows))),
        ]
    };
    assert_eq!(inner(of_v1(), &through(2)), Ok(()));
    assert_eq!(inner(let_(4, number(3)), &through(1)), refused(40, 7));
}
