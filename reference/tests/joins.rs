//! What is known after a choice: of both its blocks together, of variables
//! that were moved away in one, and of borrows that may be of several places.

mod common;

use common::*;
use reference::Refusal;
use std::slice;

/// `let v0=reading 0; let v1=1; let v2=2`, each boxed so many times but v0.
/// Terms 0 to 6 and one more for each box.
fn opening(boxed: usize) -> Vec<Term> {
    vec![
        let_(0, reading(0)),
        let_(1, boxes(boxed, number(1))),
        let_(2, boxes(boxed, number(2))),
    ]
}

/// A choice by v0 whose blocks end with a number, then other terms, then a
/// number. What is accepted runs, whichever block does, without a fault. Where
/// it is refused is counted from the first term after the choice.
fn after(before: &[Term], blocks: [&[Term]; 2], then: &[Term]) -> Result<(), Refusal> {
    let [first, second] = blocks.map(|terms| [terms, &[number(1)]].concat());
    let chosen = choice((0, 0), &first, &second);
    behind(&[before, &[chosen]].concat(), then)
}

/// Both orders of the blocks answer alike.
fn either(before: &[Term], block: &[Term], then: &[Term]) -> Result<(), Refusal> {
    let answer = after(before, [block, &[]], then);
    assert_eq!(after(before, [&[], block], then), answer);
    answer
}

/// `let v3=&mut *v1; choice v0 {v3=&mut *v2; move v1; 1} {1}; *v3=5`.
#[test]
fn the_own_path_of_each_place_followed() {
    let before = [opening(1), vec![let_(3, exclusive((1, 1)))]].concat();
    let leave = [assign((3, 0), exclusive((2, 1))), mov((1, 0))];
    let write = [assign((3, 1), number(5))];
    assert_eq!(after(&before, [&leave, &[]], &write), refused(33, 0));
    assert_eq!(after(&before, [&[], &leave], &write), refused(33, 0));
    // Every other use of what is there.
    for term in [
        copy((3, 1)),
        shared((3, 1)),
        exclusive((3, 1)),
        below((3, 1), (0, 0)),
        sum((0, 0), (3, 1)),
        copy((3, 0)),
        mov((3, 0)),
        choice((3, 1), &[number(1)], &[number(1)]),
    ] {
        assert_eq!(either(&before, &leave, &[term]), refused(33, 0));
    }
    // Written itself, the reference is as good as new.
    let again = [assign((3, 0), exclusive((2, 1))), assign((3, 1), number(5))];
    assert_eq!(either(&before, &leave, &again), refused(35, 1));
    let moved = [assign((3, 0), exclusive((0, 0))), assign((3, 1), number(5))];
    assert_eq!(either(&before, &leave, &moved), Ok(()));
    // Moved from there on, it is no longer on the path.
    let inner = [assign((3, 0), exclusive((2, 1))), mov((1, 1))];
    assert_eq!(either(&before, &inner, &write), Ok(()));
    assert_eq!(either(&before, &inner, &[copy((3, 1))]), refused(33, 0));
}

#[test]
fn moved_away_in_one_block() {
    let before = opening(1);
    for (moved, then, due) in [
        ((1, 0), copy((1, 1)), refused(33, 0)),
        ((1, 1), copy((1, 1)), refused(33, 0)),
        ((1, 0), mov((1, 0)), refused(33, 0)),
        ((1, 1), mov((1, 0)), refused(33, 0)),
        ((1, 0), assign((1, 1), number(3)), refused(33, 0)),
        ((1, 1), assign((1, 1), number(3)), Ok(())),
        ((1, 0), assign((1, 0), boxed(number(3))), Ok(())),
        ((0, 0), copy((0, 0)), refused(33, 0)),
        ((1, 0), copy((2, 1)), Ok(())),
    ] {
        assert_eq!(either(&before, &[mov(moved)], &[then]), due, "{moved:?}");
    }
    // In both it is moved away, and filled again in one it is so in the other.
    let both = after(&before, [&[mov((1, 0))], &[mov((1, 0))]], &[copy((1, 1))]);
    assert_eq!(both, refused(33, 0));
    let filled = [mov((1, 0)), assign((1, 0), boxed(number(3)))];
    assert_eq!(either(&before, &filled, &[copy((1, 1))]), Ok(()));
    // Moved away before, and filled in one block alone.
    let gone = [&before[..], &[mov((1, 1))]].concat();
    let fill = [assign((1, 1), number(3))];
    assert_eq!(either(&gone, &fill, &[copy((1, 1))]), refused(33, 0));
    assert_eq!(after(&gone, [&fill, &fill], &[copy((1, 1))]), Ok(()));
}

/// Of two links the earlier one counts, whichever block has moved it.
#[test]
fn moved_away_from_the_earlier_link() {
    let before = opening(2);
    let levels: [&[Term]; 3] = [&[mov((1, 0))], &[mov((1, 1))], &[mov((1, 2))]];
    for (one, first) in levels.iter().enumerate() {
        for (other, second) in levels.iter().enumerate() {
            let earlier = one.min(other);
            for follows in 0..=2 {
                let inner = boxes(2 - follows, number(3));
                let fill = [assign((1, follows as u8), inner), copy((1, 2))];
                let due = if follows <= earlier {
                    Ok(())
                } else {
                    refused(33, 0)
                };
                assert_eq!(after(&before, [first, second], &fill), due);
            }
        }
    }
}

#[test]
fn borrowed_in_one_block() {
    // v3 borrows v1 before, and v2 after the block.
    for (borrow, reading) in [
        (shared as fn(Place) -> Term, Ok(())),
        (exclusive, refused(34, 0)),
    ] {
        let before = [opening(0), vec![let_(3, borrow((1, 0)))]].concat();
        let again = [assign((3, 0), borrow((2, 0)))];
        for root in [1, 2] {
            let then = |term: Term| either(&before, &again, &[term]);
            assert_eq!(then(copy((root, 0))), reading);
            assert_eq!(then(shared((root, 0))), reading);
            assert_eq!(then(mov((root, 0))), refused(35, 0));
            assert_eq!(then(exclusive((root, 0))), refused(35, 0));
            assert_eq!(then(assign((root, 0), number(1))), refused(35, 0));
            // Over once it borrows something else.
            let over = [assign((3, 0), borrow((0, 0))), mov((root, 0))];
            assert_eq!(either(&before, &again, &over), Ok(()));
            // Or once it is moved away.
            assert_eq!(
                either(&before, &again, &[mov((3, 0)), mov((root, 0))]),
                Ok(())
            );
        }
        // Borrowed anew in both, v1 is free.
        let both = after(&before, [&again, &again], &[mov((1, 0))]);
        assert_eq!(both, Ok(()));
        let both = after(&before, [&again, &again], &[mov((2, 0))]);
        assert_eq!(both, refused(35, 0));
        // Moved away in one block, it holds nothing, but cannot be used.
        assert_eq!(either(&before, &[mov((3, 0))], &[mov((1, 0))]), Ok(()));
        assert_eq!(
            either(&before, &[mov((3, 0))], &[copy((3, 1))]),
            refused(33, 0)
        );
    }
}

/// A variable that is declared by a choice borrows from both blocks' places.
#[test]
fn the_value_of_a_let_a_box_and_an_assign() {
    let before = opening(0);
    let of_two = || choice((0, 0), &[exclusive((1, 0))], &[exclusive((2, 0))]);
    let with = |term: Term, then: &[Term]| behind(&[&before[..], &[term]].concat(), then);
    let declared = || let_(3, of_two());
    assert_eq!(
        with(declared(), &[assign((3, 1), number(5)), copy((3, 1))]),
        Ok(())
    );
    for root in [1, 2] {
        assert_eq!(with(declared(), &[copy((root, 0))]), refused(34, 0));
        let over = [mov((3, 0)), copy((root, 0))];
        assert_eq!(with(declared(), &over), Ok(()));
    }
    let in_a_box = || let_(3, boxed(of_two()));
    assert_eq!(
        with(in_a_box(), &[assign((3, 2), number(5)), copy((3, 2))]),
        Ok(())
    );
    assert_eq!(with(in_a_box(), &[copy((2, 0))]), refused(34, 0));
    // A box of both in a block of its own.
    let inner = choice((0, 0), &[boxed(shared((1, 0)))], &[boxed(shared((2, 0)))]);
    let of_inner = [let_(3, inner), copy((3, 2)), mov((1, 0))];
    assert_eq!(with(number(1), &of_inner), refused(35, 9));
    // Assigned, both take the place of what was there.
    let v3 = let_(3, exclusive((0, 0)));
    let assigned = assign(
        (3, 0),
        choice((1, 0), &[exclusive((1, 0))], &[exclusive((2, 0))]),
    );
    let read = [assigned.clone(), copy((0, 0)), copy((3, 1))];
    assert_eq!(with(v3.clone(), &read), Ok(()));
    assert_eq!(with(v3, &[assigned, copy((1, 0))]), refused(34, 6));
}

/// `v3` is to v1 or to v2: a write may land in either, so each may as well
/// keep what it had.
#[test]
fn a_write_that_may_land_in_several() {
    let before = [opening(1), vec![let_(3, exclusive((1, 1)))]].concat();
    let elsewhere = assign((3, 0), exclusive((2, 1)));
    // What was moved away in one of them stays so.
    let inner = [elsewhere.clone(), mov((1, 1))];
    let fill = assign((3, 1), number(7));
    assert_eq!(
        either(&before, &inner, &[fill.clone(), copy((3, 1))]),
        refused(33, 2)
    );
    let moved = [fill.clone(), mov((3, 0))];
    assert_eq!(either(&before, &inner, &moved), refused(33, 2));
    let elsewhere_now = || assign((3, 0), exclusive((0, 0)));
    let over = [fill.clone(), elsewhere_now(), copy((1, 1))];
    assert_eq!(either(&before, &inner, &over), refused(33, 4));
    let other = [fill.clone(), elsewhere_now(), copy((2, 1))];
    assert_eq!(either(&before, &inner, &other), Ok(()));
    // By its own name the variable is filled for certain.
    let named = [elsewhere_now(), assign((1, 1), number(7)), copy((1, 1))];
    assert_eq!(either(&before, &inner, &named), Ok(()));
    // To one variable after both blocks, the write is certain again.
    let certain = [&inner[..], slice::from_ref(&fill)].concat();
    let then = [fill, copy((3, 1)), elsewhere_now(), copy((1, 1))];
    let blocks = [&certain[..], &[elsewhere]];
    assert_eq!(after(&before, blocks, &then), refused(33, 5));
    assert_eq!(after(&before, blocks, &then[..2]), Ok(()));
}

/// Two references, v3 to v1 and v4 to v2, and v5 to one of both.
fn two_references() -> Vec<Term> {
    let more = [
        let_(3, shared((1, 0))),
        let_(4, shared((2, 0))),
        let_(5, exclusive((3, 0))),
    ];
    [opening(0), more.to_vec()].concat()
}

#[test]
fn a_written_borrow_is_added_to_the_old_ones() {
    let before = two_references();
    let other = [assign((5, 0), exclusive((4, 0)))];
    let write = assign((5, 1), shared((0, 0)));
    let then = |then: &[Term]| {
        let both = [&[write.clone(), mov((5, 0))], then].concat();
        either(&before, &other, &both)
    };
    // All three are borrowed, by v3 or v4, and may be read.
    for root in [0, 1, 2] {
        assert_eq!(then(&[assign((root, 0), number(1))]), refused(35, 3));
        assert_eq!(then(&[copy((root, 0)), copy((3, 1)), copy((4, 1))]), Ok(()));
    }
    // Without v4, v2 is free, and v0 is not: v3 may borrow it.
    assert_eq!(then(&[mov((4, 0)), mov((2, 0))]), Ok(()));
    assert_eq!(then(&[mov((4, 0)), mov((1, 0))]), refused(35, 4));
    assert_eq!(then(&[mov((4, 0)), mov((0, 0))]), refused(35, 4));
    assert_eq!(then(&[mov((4, 0)), mov((3, 0)), mov((0, 0))]), Ok(()));
    // What may be written is still one variable if both blocks say so.
    let certain = [write.clone(), mov((5, 0)), mov((1, 0))];
    assert_eq!(after(&before, [&[], &[]], &certain), Ok(()));
    // A copy borrows all that the copied one may.
    let copied = [
        write.clone(),
        let_(6, copy((5, 1))),
        mov((5, 0)),
        mov((3, 0)),
        mov((4, 0)),
    ];
    for root in [0, 1, 2] {
        let both = [&copied[..], &[mov((root, 0))]].concat();
        assert_eq!(either(&before, &other, &both), refused(35, 7));
    }
}

/// 40 for every variable that may be written, and for every place.
#[test]
fn each_lives_long_enough() {
    // v5 lives in an inner block and is to v3 outside or to v4 inside.
    let before = [opening(0), vec![let_(3, shared((1, 0)))]].concat();
    let with = |of_two: Term, value: Term| {
        let inner = [
            let_(4, shared((2, 0))),
            let_(6, number(6)),
            let_(5, of_two),
            assign((5, 1), value),
            number(1),
        ];
        safe(&[&before[..], &[block(&inner), number(1)]].concat())
    };
    let outer = || exclusive((3, 0));
    let inner = || exclusive((4, 0));
    let of = |first, second| choice((0, 0), &[first], &[second]);
    assert_eq!(with(of(inner(), outer()), shared((6, 0))), refused(40, 20));
    assert_eq!(with(of(outer(), inner()), shared((6, 0))), refused(40, 20));
    assert_eq!(with(of(inner(), inner()), shared((6, 0))), Ok(()));
    assert_eq!(with(of(outer(), inner()), shared((0, 0))), Ok(()));
    // One of two values does not live long enough.
    let either = |first, second| of(shared((first, 0)), shared((second, 0)));
    assert_eq!(with(outer(), either(0, 6)), refused(40, 16));
    assert_eq!(with(outer(), either(6, 0)), refused(40, 16));
    assert_eq!(with(outer(), either(0, 1)), Ok(()));
    assert_eq!(with(inner(), either(0, 6)), Ok(()));
    // At the end of a block likewise.
    let local = |second: Place| {
        let inner = [let_(6, number(6)), of(shared((0, 0)), shared(second))];
        safe(&[&before[..], &[let_(7, block(&inner)), number(1)]].concat())
    };
    assert_eq!(local((6, 0)), refused(40, 10));
    assert_eq!(local((1, 0)), Ok(()));
}

/// Links passed are of one type whichever place is followed.
#[test]
fn through_a_shared_link() {
    let before = two_references();
    let other = [assign((5, 0), exclusive((4, 0)))];
    let then = |term| either(&before, &other, &[term]);
    assert_eq!(then(assign((5, 2), number(1))), refused(36, 0));
    assert_eq!(then(exclusive((5, 2))), refused(36, 0));
    assert_eq!(then(copy((5, 2))), Ok(()));
    assert_eq!(then(mov((5, 1))), refused(38, 0));
}

/// v3 through v4 after one block, v4 through v3 after the other.
#[test]
fn following_ends_where_borrows_lead_round() {
    let more = [let_(3, exclusive((1, 0))), let_(4, exclusive((2, 0)))];
    let before = [opening(0), more.to_vec()].concat();
    let first = [assign((3, 0), exclusive((4, 1)))];
    let second = [assign((4, 0), exclusive((3, 1)))];
    let then = |then: &[Term]| after(&before, [&first, &second], then);
    assert_eq!(then(&[]), Ok(()));
    for root in [3, 4] {
        assert_eq!(then(&[copy((root, 1))]), refused(34, 0));
        assert_eq!(then(&[shared((root, 1))]), refused(34, 0));
        assert_eq!(then(&[mov((root, 0))]), refused(35, 0));
        let again = assign((root, 0), exclusive((0, 0)));
        assert_eq!(then(&[again]), refused(35, 0));
        assert_eq!(then(&[assign((root, 1), number(1))]), refused(35, 0));
    }
    // With something moved away in the circle nothing of it can be used.
    let gone = [&second[..], &[mov((2, 0))]].concat();
    for root in [3, 4] {
        let then = [copy((root, 1))];
        assert_eq!(after(&before, [&first, &gone], &then), refused(33, 0));
    }
}

/// Shared borrows through each other are of what the other borrows, so that
/// they do not lead round: each may borrow v1 and v2 afterwards.
#[test]
fn shared_borrows_do_not_lead_round() {
    let more = [let_(3, shared((1, 0))), let_(4, shared((2, 0)))];
    let before = [opening(0), more.to_vec()].concat();
    let first = [assign((3, 0), shared((4, 1)))];
    let second = [assign((4, 0), shared((3, 1)))];
    let then = |then: &[Term]| after(&before, [&first, &second], then);
    for root in [3, 4] {
        assert_eq!(then(&[copy((root, 1)), mov((root, 0))]), Ok(()));
        let again = assign((root, 0), shared((0, 0)));
        assert_eq!(then(&[again]), Ok(()));
        assert_eq!(then(&[assign((root, 1), number(1))]), refused(36, 0));
        // The other one still borrows both.
        for written in [1, 2] {
            assert_eq!(then(&[mov((root, 0)), mov((written, 0))]), refused(35, 1));
        }
    }
    assert_eq!(then(&[mov((3, 0)), mov((4, 0)), mov((1, 0))]), Ok(()));
    let gone = [&second[..], &[mov((2, 0))]].concat();
    for root in [3, 4] {
        let then = [copy((root, 1))];
        assert_eq!(after(&before, [&first, &gone], &then), refused(33, 0));
    }
}

#[test]
fn nested_choices_join_all_ways() {
    let before = [opening(0), vec![let_(3, shared((0, 0)))]].concat();
    let bind = |root| assign((3, 0), shared((root, 0)));
    let inner = choice((0, 0), &[bind(1), number(1)], &[bind(2), number(1)]);
    let then = |root| [mov((root, 0))];
    for root in [0, 1, 2] {
        let due = after(&before, [slice::from_ref(&inner), &[]], &then(root));
        assert_eq!(due, refused(35, 0));
    }
    // Bound anew after the inner one, its ways are forgotten.
    let over = [inner, bind(1)];
    assert_eq!(after(&before, [&over, &[]], &then(2)), Ok(()));
    assert_eq!(after(&before, [&over, &[]], &then(1)), refused(35, 0));
    assert_eq!(after(&before, [&over, &[]], &then(0)), refused(35, 0));
}
