//! What is known after a choice: of variables that one branch moved away, of
//! borrows of several places, and of writes that may land in several.

use crate::choosing::by_reading;
use crate::common::refused;
use crate::common::terms::*;
use crate::hand::*;
use crate::in_use::accepts_in_use;
use crate::listed_choices::{choose, gives, one, refuses, then, two_boxes, two_numbers};
use roomscript::Refusal;

/// v2 lives outside, and v3 and v4 in the block in which v5 writes.
#[test]
fn each_lives_long_enough() {
    let with = |of_two: Term, value: Term| {
        let inner = block(&[
            let_(3, number(2)),
            let_(4, shared((1, 0))),
            let_(5, of_two),
            assign((5, 1), value),
            number(0),
        ]);
        let terms = [let_(1, one()), let_(2, shared((1, 0))), inner, one()];
        accepts(&by_reading(&terms))
    };
    let outer = || exclusive((2, 0));
    let inner = || exclusive((4, 0));
    let of = |first: Term, second: Term| choose(&[first], &[second]);
    // Each variable that may be written.
    let local = || shared((3, 0));
    assert_eq!(with(of(outer(), inner()), local()), refused(40, 18));
    assert_eq!(with(of(inner(), outer()), local()), refused(40, 18));
    assert_eq!(with(of(inner(), inner()), local()), Ok(()));
    assert_eq!(with(of(outer(), inner()), shared((0, 0))), Ok(()));
    // Each place that may be borrowed.
    let either = |first, second| of(shared((first, 0)), shared((second, 0)));
    assert_eq!(with(outer(), either(0, 3)), refused(40, 14));
    assert_eq!(with(outer(), either(3, 0)), refused(40, 14));
    assert_eq!(with(outer(), either(0, 1)), Ok(()));
    assert_eq!(with(inner(), either(0, 3)), Ok(()));
    // And at the end of a block.
    let leaves = |first, second| {
        let inner = block(&[let_(3, number(2)), either(first, second)]);
        accepts(&by_reading(&[let_(1, one()), let_(2, inner), one()]))
    };
    assert_eq!(leaves(0, 3), refused(40, 6));
    assert_eq!(leaves(3, 1), refused(40, 6));
    assert_eq!(leaves(0, 1), Ok(()));
}

/// What the check answers of a choice on v0 with these terms and a 1 in its
/// branches, and of terms after it, while every variable is in use. Where these
/// are refused the term is counted from the first of them. Both orders of the branches are answered alike.
#[track_caller]
fn after(before: &[Term], branches: [&[Term]; 2], more: &[Term]) -> Result<(), Refusal> {
    let [first, second] = branches.map(|terms| then(terms, &[one()]));
    let answers = [choose(&first, &second), choose(&second, &first)].map(|choice| {
        let until = by_reading(&then(before, &[choice]));
        let count = block(&until).len() as u32;
        let all = [&until[..], more, &[one()]].concat();
        accepts_in_use(&all).map_err(|Refusal { number, place }| Refusal {
            number,
            place: place.checked_sub(count).expect("after the choice"),
        })
    });
    assert_eq!(answers[0], answers[1]);
    answers[0]
}

#[test]
fn moved_away_from_the_earlier_position() {
    let before = [let_(1, boxes(2, one()))];
    let moves = [mov((1, 0)), mov((1, 1)), mov((1, 2))].map(|term| vec![term]);
    let branches = [&[][..], &moves[0], &moves[1], &moves[2]];
    // From which position on something is moved away, 3 for none.
    let from = |at: usize| (at + 3) % 4;
    for first in 0..4 {
        for second in 0..4 {
            let earlier = from(first).min(from(second));
            for follows in 0..3 {
                let more = [
                    assign((1, follows as u32), boxes(2 - follows, number(5))),
                    copy((1, 2)),
                ];
                let due = match follows <= earlier {
                    true => Ok(()),
                    false => refused(33, 0),
                };
                let both = [branches[first], branches[second]];
                assert_eq!(after(&before, both, &more), due);
            }
        }
    }
}

/// What is filled in one branch alone is still moved away.
#[test]
fn filled_again() {
    let before = then(&two_boxes(), &[mov((1, 1))]);
    let fill = [assign((1, 1), number(5))];
    let read = [copy((1, 1))];
    assert_eq!(after(&before, [&fill, &[]], &read), refused(33, 0));
    assert_eq!(after(&before, [&fill, &fill], &read), Ok(()));
    assert_eq!(after(&before, [&[], &[]], &fill), Ok(()));
    let within = [mov((2, 0)), assign((2, 0), boxed(number(6)))];
    assert_eq!(after(&before, [&within, &[]], &[copy((2, 1))]), Ok(()));
}

/// v3 borrows v1 before, and v2 after one of the branches.
#[test]
fn lent_in_either_branch() {
    for (borrow, reads) in [
        (shared as fn(Place) -> Term, Ok(())),
        (exclusive, refused(34, 0)),
    ] {
        let before = then(&two_numbers(), &[let_(3, borrow((1, 0)))]);
        let again = [assign((3, 0), borrow((2, 0)))];
        let more = |terms: &[Term]| after(&before, [&again, &[]], terms);
        for root in [1, 2] {
            let place = (root, 0);
            assert_eq!(more(&[copy(place)]), reads);
            assert_eq!(more(&[shared(place)]), reads);
            assert_eq!(more(&[choice(place, &[one()], &[one()])]), reads);
            assert_eq!(more(&[sum((0, 0), place)]), reads);
            assert_eq!(more(&[mov(place)]), refused(35, 0));
            assert_eq!(more(&[exclusive(place)]), refused(35, 0));
            assert_eq!(more(&[assign(place, one())]), refused(35, 0));
            // Over once it borrows something else, or is moved away.
            let other = assign((3, 0), borrow((0, 0)));
            assert_eq!(more(&[other, mov(place)]), Ok(()));
            assert_eq!(more(&[mov((3, 0)), mov(place)]), Ok(()));
        }
        // After both branches it borrows v2 alone.
        let both = |place| after(&before, [&again, &again], &[mov(place)]);
        assert_eq!(both((1, 0)), Ok(()));
        assert_eq!(both((2, 0)), refused(35, 0));
    }
}

/// v1 is moved away in the branch in which v3 does not borrow it, so nothing is
/// done by way of v3, but to let it borrow something else.
#[test]
fn the_own_path_of_each_borrowed_place() {
    let before = then(&two_boxes(), &[let_(3, exclusive((1, 1)))]);
    let leave = [assign((3, 0), exclusive((2, 1))), mov((1, 0))];
    let uses = [
        assign((3, 1), number(5)),
        copy((3, 1)),
        shared((3, 1)),
        exclusive((3, 1)),
        below((3, 1), (0, 0)),
        sum((0, 0), (3, 1)),
        choice((3, 1), &[one()], &[one()]),
        shared((3, 0)),
        mov((3, 0)),
    ];
    for term in uses {
        assert_eq!(after(&before, [&leave, &[]], &[term]), refused(33, 0));
    }
    let other = [assign((3, 0), exclusive((0, 0))), assign((3, 1), one())];
    assert_eq!(after(&before, [&leave, &[]], &other), Ok(()));
    // A mark at the place itself is not on the path, so it can be filled.
    let leave = [assign((3, 0), exclusive((2, 1))), mov((1, 1))];
    let write = [assign((3, 1), number(5))];
    assert_eq!(after(&before, [&leave, &[]], &write), Ok(()));
    let read = [copy((3, 1))];
    assert_eq!(after(&before, [&leave, &[]], &read), refused(33, 0));
}

/// v5 borrows v3 or v4, which borrow v1 and v2.
fn of_two_references() -> Vec<Term> {
    let references = [
        let_(3, shared((1, 0))),
        let_(4, shared((2, 0))),
        let_(5, exclusive((3, 0))),
    ];
    then(&two_numbers(), &references)
}

#[test]
fn a_write_that_may_land_in_several() {
    let before = of_two_references();
    let other = [assign((5, 0), exclusive((4, 0)))];
    let write = || [assign((5, 1), shared((0, 0))), mov((5, 0))];
    let more = |terms: &[Term]| after(&before, [&other, &[]], &then(&write(), terms));
    // Each of v3 and v4 may borrow v0 now, and still what it did.
    for root in [0, 1, 2] {
        assert_eq!(more(&[assign((root, 0), one())]), refused(35, 3));
        let reads = [copy((root, 0)), copy((3, 1)), copy((4, 1))];
        assert_eq!(more(&reads), Ok(()));
    }
    assert_eq!(more(&[mov((4, 0)), mov((2, 0))]), Ok(()));
    assert_eq!(more(&[mov((4, 0)), mov((1, 0))]), refused(35, 4));
    assert_eq!(more(&[mov((4, 0)), mov((0, 0))]), refused(35, 4));
    assert_eq!(more(&[mov((3, 0)), mov((4, 0)), mov((0, 0))]), Ok(()));
    // In one variable whichever branch runs, it replaces what v3 borrowed.
    let certain = then(&write(), &[mov((1, 0))]);
    assert_eq!(after(&before, [&[], &[]], &certain), Ok(()));
    // Still no way through a shared link, and no move through a borrow.
    let through = |term: Term| after(&before, [&other, &[]], &[term]);
    assert_eq!(through(assign((5, 2), one())), refused(36, 0));
    assert_eq!(through(exclusive((5, 2))), refused(36, 0));
    assert_eq!(through(mov((5, 1))), refused(38, 0));
    assert_eq!(through(copy((5, 2))), Ok(()));
}

/// v3 to v1 and v4 to v2.
fn two_borrows(borrow: fn(Place) -> Term) -> Vec<Term> {
    let both = [let_(3, borrow((1, 0))), let_(4, borrow((2, 0)))];
    then(&two_numbers(), &both)
}

/// v3 and v4 borrow through each other, one after each branch.
#[test]
fn a_circle() {
    let first = [assign((3, 0), exclusive((4, 1)))];
    let second = [assign((4, 0), exclusive((3, 1)))];
    let before = two_borrows(exclusive);
    let more = |term: Term| after(&before, [&first, &second], &[term]);
    for root in [3, 4] {
        assert_eq!(more(copy((root, 1))), refused(34, 0));
        assert_eq!(more(shared((root, 1))), refused(34, 0));
        assert_eq!(more(mov((root, 0))), refused(35, 0));
        assert_eq!(more(assign((root, 1), one())), refused(35, 0));
    }
    // With v2 moved away in it neither can be used.
    let second = then(&second, &[mov((2, 0))]);
    for root in [3, 4] {
        let answer = after(&before, [&first, &second], &[copy((root, 1))]);
        assert_eq!(answer, refused(33, 0));
    }
}

/// Shared borrows through each other are of what the other borrows: each may
/// borrow v1 and v2 afterwards, and neither is borrowed itself.
#[test]
fn no_circle_of_shared_borrows() {
    let first = [assign((3, 0), shared((4, 1)))];
    let second = [assign((4, 0), shared((3, 1)))];
    let before = two_borrows(shared);
    let more = |terms: &[Term]| after(&before, [&first, &second], terms);
    for root in [3, 4] {
        assert_eq!(more(&[copy((root, 1)), mov((root, 0))]), Ok(()));
        assert_eq!(more(&[assign((root, 0), shared((0, 0)))]), Ok(()));
        assert_eq!(more(&[assign((root, 1), one())]), refused(36, 0));
        for written in [1, 2] {
            let terms = [mov((root, 0)), mov((written, 0))];
            assert_eq!(more(&terms), refused(35, 1));
        }
    }
    assert_eq!(more(&[mov((3, 0)), mov((4, 0)), mov((1, 0))]), Ok(()));
    let second = then(&second, &[mov((2, 0))]);
    for root in [3, 4] {
        let answer = after(&before, [&first, &second], &[copy((root, 1))]);
        assert_eq!(answer, refused(33, 0));
    }
}

/// v1 borrows all others at last, each after one of as many choices.
#[test]
fn as_many_borrowed_places_as_variables() {
    for count in [3, 40] {
        let others = 2..count;
        let mut terms: Vec<Term> = others.clone().map(|v| let_(v, number(v as i32))).collect();
        terms.push(let_(1, shared((0, 0))));
        let bound = |v| choose(&[assign((1, 0), shared((v, 0))), one()], &[one()]);
        terms.extend(others.clone().map(bound));
        let last = count as i32 - 1;
        gives(&then(&terms, &[copy((1, 1))]), [last, 0], 0);
        let until = block(&by_reading(&terms)).len() as u32;
        for root in [0, 2, count - 1] {
            let write = assign((root, 0), one());
            refuses(&then(&terms, &[write, copy((1, 1))]), 35, until);
        }
        // One of them moved away in a branch.
        let moved = choose(&[mov((1, 0)), mov((count - 1, 0)), one()], &[one()]);
        refuses(&then(&terms, &[moved, copy((1, 1))]), 33, until + 7);
    }
}
