//! Shared borrows through shared links (LANGUAGE 3.21): recorded against what
//! the last such link borrows, with the follows that remain.

#[path = "through_shared/choices.rs"]
mod choices;
mod common;
#[path = "through_shared/misread.rs"]
mod misread;

use common::*;
use reference::Refusal;

/// `let v0=reading 0; let v1=1; let v2=2` and the given terms.
fn opening(terms: &[Term]) -> Vec<Term> {
    let first = [let_(0, reading(0)), let_(1, number(1)), let_(2, number(2))];
    [&first[..], terms].concat()
}

/// The terms by which it shows that a variable is borrowed shared: it can be
/// read, and neither moved, written nor borrowed exclusively.
fn borrowed_shared(before: &[Term], root: u8, value: &Term) {
    let then = |term: Term| behind(before, &[term]);
    assert_eq!(then(shared((root, 0))), Ok(()), "{root}");
    assert_eq!(then(mov((root, 0))), refused(35, 0), "{root}");
    assert_eq!(then(exclusive((root, 0))), refused(35, 0), "{root}");
    let written = assign((root, 0), value.clone());
    let after_value = then(written).map_err(|refusal| refusal.number);
    assert_eq!(after_value, Err(35), "{root}");
}

/// The same terms where a variable is not borrowed.
fn free(before: &[Term], root: u8, value: &Term) {
    let then = |term: Term| behind(before, &[term]);
    assert_eq!(then(shared((root, 0))), Ok(()), "{root}");
    assert_eq!(then(mov((root, 0))), Ok(()), "{root}");
    assert_eq!(then(exclusive((root, 0))), Ok(()), "{root}");
    assert_eq!(then(assign((root, 0), value.clone())), Ok(()), "{root}");
}

/// `let v3=&v1; let v4=&*v3`: v4 borrows v1, so that v3 is free and v1 is not.
#[test]
fn the_passed_variable_is_free_and_the_recorded_one_is_not() {
    let before = opening(&[let_(3, shared((1, 0))), let_(4, shared((3, 1)))]);
    free(&before, 3, &shared((2, 0)));
    borrowed_shared(&before, 1, &number(5));
    // It stays borrowed when v3 borrows no longer, until v4 does neither.
    for over in [mov((3, 0)), assign((3, 0), shared((2, 0)))] {
        let before = [&before[..], &[over]].concat();
        borrowed_shared(&before, 1, &number(5));
        free(&before[..], 4, &shared((2, 0)));
        let both = [&before[..], &[mov((4, 0))]].concat();
        free(&both, 1, &number(5));
    }
    // What v3 is bound to later is no matter of v4.
    let bound = [assign((3, 0), shared((2, 0))), mov((3, 0))];
    free(&[before, bound.to_vec()].concat(), 2, &number(5));
}

/// v4 still shows v1 after v3 was bound to v2.
#[test]
fn what_is_seen_through_it_afterwards() {
    let terms = opening(&[
        let_(3, shared((1, 0))),
        let_(4, shared((3, 1))),
        assign((3, 0), shared((2, 0))),
        assign((2, 0), copy((4, 1))),
    ]);
    let bound = [&terms[..terms.len() - 1], &[sum((3, 1), (4, 1))]].concat();
    assert_eq!(judge(&bound), Ok(()));
    assert_eq!(fault(&bound), ran(3, 0));
    // Written while v3 borrows it.
    let written = judge_in_use(&[&terms[..], &[number(0)]].concat());
    assert_eq!(written, refused(35, 13));
}

/// `let v3=BLOCK; copy *v3`, or one follow more for each link more.
fn helper(block_of: &[Term], links: u8) -> Result<(), Refusal> {
    behind(&opening(&[]), &[let_(3, block(block_of)), copy((3, links))])
}

#[test]
fn blocks_that_give_a_borrow_through_their_own_variable() {
    let of_v1 = || let_(4, shared((1, 0)));
    let of_v4 = || let_(5, shared((4, 0)));
    assert_eq!(helper(&[of_v1(), shared((4, 1))], 1), Ok(()));
    assert_eq!(helper(&[of_v1(), of_v4(), shared((5, 2))], 1), Ok(()));
    // The last link is the one of v5, which borrows v4.
    assert_eq!(
        helper(&[of_v1(), of_v4(), shared((5, 1))], 2),
        refused(40, 1)
    );
    // No shared link is passed.
    assert_eq!(helper(&[of_v1(), shared((4, 0))], 2), refused(40, 1));
    let held = let_(4, exclusive((1, 0)));
    assert_eq!(helper(&[held, shared((4, 1))], 1), refused(40, 1));
    // A box before the link, and a box after it that is the block's own.
    let boxed_link = let_(4, boxed(shared((1, 0))));
    assert_eq!(helper(&[boxed_link, shared((4, 2))], 1), Ok(()));
    let own = let_(4, boxed(number(3)));
    assert_eq!(helper(&[own, of_v4(), shared((5, 2))], 1), refused(40, 1));
    // What the link borrows is the block's own.
    let own = let_(4, number(3));
    assert_eq!(helper(&[own, of_v4(), shared((5, 1))], 1), refused(40, 1));
    // In a box, and out of blocks in blocks.
    let in_a_box = [of_v1(), boxed(shared((4, 1)))];
    assert_eq!(helper(&in_a_box, 2), Ok(()));
    let nested = [block(&[of_v1(), block(&[of_v4(), shared((5, 2))])])];
    assert_eq!(helper(&nested, 1), Ok(()));
    let nested = [of_v1(), block(&[of_v4(), shared((5, 1))]), number(1)];
    assert_eq!(helper(&nested, 0), Ok(()));
}

/// v1 is borrowed by v3, v3 by v4 and v4 by v5.
fn three_links(last: Term) -> Vec<Term> {
    opening(&[
        let_(3, shared((1, 0))),
        let_(4, shared((3, 0))),
        let_(5, shared((4, 0))),
        let_(6, last),
        mov((5, 0)),
    ])
}

#[test]
fn the_last_of_several_links_counts() {
    // With v5 gone, all but the recorded variable can be given up in turn.
    for (follows, recorded) in [(3, 1), (2, 3), (1, 4)] {
        let before = three_links(shared((5, follows)));
        for (given_up, root) in [4, 3, 1].into_iter().enumerate() {
            let moves: Vec<Term> = [4, 3, 1][..given_up]
                .iter()
                .map(|root| mov((*root, 0)))
                .collect();
            let then = behind(&[before.clone(), moves].concat(), &[mov((root, 0))]);
            if root == recorded {
                assert_eq!(then, refused(35, 0), "{follows}");
                break;
            }
            assert_eq!(then, Ok(()), "{follows}");
        }
    }
    // A copy is of what the copied link borrows, one link further.
    let before = [three_links(copy((5, 1))), vec![mov((4, 0))]].concat();
    borrowed_shared(&before, 3, &shared((2, 0)));
}

#[test]
fn a_box_before_the_shared_link() {
    let before = opening(&[let_(3, boxed(shared((1, 0)))), let_(4, shared((3, 2)))]);
    free(&before, 3, &boxed(shared((2, 0))));
    borrowed_shared(&before, 1, &number(5));
    let inner = [assign((3, 1), shared((2, 0))), mov((3, 1)), mov((2, 0))];
    assert_eq!(behind(&before, &inner), Ok(()));
    // The box alone is no shared link.
    let before = opening(&[let_(3, boxed(shared((1, 0)))), let_(4, shared((3, 1)))]);
    borrowed_shared(&before, 3, &boxed(shared((2, 0))));
}

#[test]
fn a_box_after_the_shared_link() {
    let before = opening(&[
        let_(3, boxed(number(3))),
        let_(4, shared((3, 0))),
        let_(5, shared((4, 2))),
    ]);
    free(&before, 4, &shared((3, 0)));
    let before = [before, vec![mov((4, 0))]].concat();
    borrowed_shared(&before, 3, &boxed(number(5)));
    for term in [mov((3, 1)), exclusive((3, 1))] {
        assert_eq!(behind(&before, &[term]), refused(35, 0));
    }
    assert_eq!(behind(&before, &[copy((3, 1)), copy((5, 1))]), Ok(()));
}

#[test]
fn an_exclusive_link_before_the_shared_link() {
    let before = opening(&[
        let_(3, shared((1, 0))),
        let_(6, shared((2, 0))),
        let_(4, exclusive((3, 0))),
        let_(5, shared((4, 2))),
    ]);
    free(&before, 4, &exclusive((6, 0)));
    borrowed_shared(&before, 1, &number(5));
    // Bound elsewhere by way of v4, or once v4 is gone.
    for through in [
        vec![assign((4, 1), shared((2, 0))), mov((4, 0))],
        vec![mov((4, 0)), assign((3, 0), shared((2, 0)))],
        vec![mov((4, 0)), mov((3, 0))],
    ] {
        let before = [&before[..], &through].concat();
        borrowed_shared(&before, 1, &number(5));
        let over = [&before[..], &[mov((5, 0))]].concat();
        free(&over, 1, &number(5));
    }
}

#[test]
fn an_exclusive_link_after_the_shared_link() {
    let before = opening(&[
        let_(3, exclusive((1, 0))),
        let_(4, shared((3, 0))),
        let_(5, shared((4, 2))),
    ]);
    free(&before, 4, &shared((3, 0)));
    let before = [before, vec![mov((4, 0))]].concat();
    borrowed_shared(&before, 3, &exclusive((2, 0)));
    assert_eq!(
        behind(&before, &[assign((3, 1), number(5))]),
        refused(35, 0)
    );
    assert_eq!(behind(&before, &[copy((3, 1)), copy((5, 1))]), Ok(()));
    // v3 still borrows v1 exclusively.
    assert_eq!(behind(&before, &[copy((1, 0))]), refused(34, 0));
    let over = [mov((5, 0)), assign((3, 1), number(5)), copy((3, 1))];
    assert_eq!(behind(&before, &over), Ok(()));
}

#[test]
fn exclusive_borrows_are_recorded_as_before() {
    // Never through a shared link.
    let before = opening(&[let_(3, shared((1, 0))), let_(4, exclusive((3, 0)))]);
    assert_eq!(behind(&before, &[exclusive((3, 1))]), refused(36, 0));
    assert_eq!(behind(&before, &[exclusive((4, 2))]), refused(36, 0));
    // Through exclusive links against the named variable.
    let before = opening(&[let_(3, exclusive((1, 0))), let_(4, exclusive((3, 1)))]);
    assert_eq!(behind(&before, &[mov((3, 0))]), refused(35, 0));
    assert_eq!(behind(&before, &[copy((3, 1))]), refused(34, 0));
    let inner = [let_(4, exclusive((1, 0))), exclusive((4, 1))];
    assert_eq!(helper(&inner, 1), refused(40, 1));
    // A shared borrow through an exclusive link alone too.
    let before = opening(&[let_(3, exclusive((1, 0))), let_(4, shared((3, 1)))]);
    borrowed_shared(&before, 3, &exclusive((2, 0)));
}

/// The tests are about the named place, in their order.
#[test]
fn the_named_place_is_judged() {
    let before = opening(&[let_(3, shared((1, 0)))]);
    let then = |terms: &[Term]| behind(&before, terms);
    assert_eq!(then(&[shared((9, 1))]), refused(31, 0));
    assert_eq!(then(&[shared((3, 2))]), refused(32, 0));
    assert_eq!(then(&[mov((3, 0)), shared((3, 1))]), refused(33, 1));
    // v3 is held exclusively. Of v1, which would be recorded, it is not so.
    let held = let_(4, exclusive((3, 0)));
    assert_eq!(then(&[held.clone(), shared((3, 1))]), refused(34, 2));
    assert_eq!(then(&[held.clone(), shared((1, 0))]), Ok(()));
    // By way of v4, v3 has the link but is not named.
    assert_eq!(then(&[held, shared((4, 2))]), Ok(()));
    // A link passed leaves room for the new one.
    let full = opening(&[let_(3, boxes(7, number(1))), let_(4, shared((3, 0)))]);
    assert_eq!(behind(&full, &[shared((4, 1))]), Ok(()));
    assert_eq!(behind(&full, &[shared((4, 0))]), refused(42, 0));
    // 34 comes before 42.
    let both = opening(&[let_(3, boxes(8, number(1))), let_(4, exclusive((3, 1)))]);
    assert_eq!(behind(&both, &[shared((3, 0))]), refused(34, 0));
}

/// After the choice v3 may borrow v1 or v2, and v4 exclusively v2 or v1. The
/// reading of v3 is not barred, though that of both recorded variables is.
#[test]
fn reading_what_is_recorded_may_be_barred() {
    let before = opening(&[
        let_(5, number(3)),
        let_(3, shared((1, 0))),
        let_(4, exclusive((2, 0))),
        choice(
            (0, 0),
            &[number(1)],
            &[
                assign((4, 0), exclusive((5, 0))),
                assign((3, 0), shared((2, 0))),
                assign((4, 0), exclusive((1, 0))),
                number(1),
            ],
        ),
    ]);
    for root in [1, 2] {
        assert_eq!(behind(&before, &[copy((root, 0))]), refused(34, 0));
    }
    let through = [let_(6, shared((3, 1))), mov((3, 0)), copy((6, 1))];
    assert_eq!(behind(&before, &through), Ok(()));
}

/// 40 of an assign, by the recorded variables.
#[test]
fn assigned_to_a_variable_that_lives_longer() {
    let before = opening(&[let_(3, shared((2, 0)))]);
    let inner = |first: Term, value: Term| {
        let terms = [first, let_(5, shared((4, 0))), assign((3, 0), value)];
        behind(&before, &[block(&terms), copy((3, 1))])
    };
    let of_v1 = || let_(4, shared((1, 0)));
    assert_eq!(inner(of_v1(), shared((4, 1))), Ok(()));
    assert_eq!(inner(of_v1(), shared((5, 2))), Ok(()));
    assert_eq!(inner(let_(4, number(3)), shared((5, 1))), refused(40, 5));
    let own = let_(4, boxed(number(3)));
    assert_eq!(inner(own, shared((5, 2))), refused(40, 6));
    // By way of an exclusive borrow the outer variable is written.
    let through = |first: Term| {
        let terms = [
            first,
            let_(5, shared((4, 0))),
            let_(6, exclusive((3, 0))),
            assign((6, 1), shared((5, 1))),
        ];
        behind(&before, &[block(&terms), copy((3, 1))])
    };
    assert_eq!(through(let_(4, number(3))), refused(40, 7));
    let through_two = [
        of_v1(),
        let_(6, exclusive((3, 0))),
        assign((6, 1), shared((4, 1))),
    ];
    assert_eq!(
        behind(&before, &[block(&through_two), copy((3, 1))]),
        Ok(())
    );
}
