//! Shared borrows through links that may stand for several places.

use super::common::*;
use super::{borrowed_shared, free, opening};

/// v3 to v1 and v4 to v2.
fn two_references() -> [Term; 2] {
    [let_(3, shared((1, 0))), let_(4, shared((2, 0)))]
}

fn of_two(first: Term, second: Term) -> Term {
    choice((0, 0), &[first], &[second])
}

/// v1 and v2 are recorded, and these variables are not.
fn records_both(before: &[Term], passed: &[(u8, Term)]) {
    let mut before = before.to_vec();
    for (root, value) in passed {
        free(&before, *root, value);
        before.push(mov((*root, 0)));
    }
    for root in [1, 2] {
        borrowed_shared(&before, root, &number(5));
    }
}

#[test]
fn the_link_may_stand_for_several_places() {
    let before = opening(&[
        let_(3, of_two(shared((1, 0)), shared((2, 0)))),
        let_(4, shared((3, 1))),
    ]);
    records_both(&before, &[(3, shared((0, 0)))]);
    // In a box.
    let before = opening(&[
        let_(3, boxed(of_two(shared((1, 0)), shared((2, 0))))),
        let_(4, shared((3, 2))),
    ]);
    records_both(&before, &[(3, boxed(shared((0, 0))))]);
    // Bound again in one of two blocks.
    let before = opening(&[
        let_(3, shared((1, 0))),
        of_two(assign((3, 0), shared((2, 0))), let_(5, number(1))),
        let_(4, shared((3, 1))),
    ]);
    records_both(&before, &[(3, shared((0, 0)))]);
}

#[test]
fn several_variables_may_have_the_link() {
    for borrow in [shared as fn(Place) -> Term, exclusive] {
        let terms = [
            let_(5, of_two(borrow((3, 0)), borrow((4, 0)))),
            let_(6, shared((5, 2))),
        ];
        let before = opening(&[&two_references()[..], &terms].concat());
        let zero = || shared((0, 0));
        let before = [before, vec![mov((5, 0))]].concat();
        records_both(&before, &[(3, zero()), (4, zero())]);
    }
    // Only up to the last link: `*v5` is v3 or v4 itself.
    let terms = [
        let_(5, of_two(shared((3, 0)), shared((4, 0)))),
        let_(6, shared((5, 1))),
        mov((5, 0)),
    ];
    let before = opening(&[&two_references()[..], &terms].concat());
    for root in [3, 4] {
        borrowed_shared(&before, root, &shared((0, 0)));
    }
}

/// With a box after the link each of the recorded places has a follow more.
#[test]
fn several_places_with_follows_that_remain() {
    let before = opening(&[
        let_(3, boxed(number(3))),
        let_(4, boxed(number(4))),
        let_(5, of_two(shared((3, 0)), shared((4, 0)))),
        let_(6, shared((5, 2))),
    ]);
    free(&before, 5, &shared((3, 0)));
    let before = [before, vec![mov((5, 0))]].concat();
    for root in [3, 4] {
        borrowed_shared(&before, root, &boxed(number(5)));
        assert_eq!(behind(&before, &[mov((root, 1))]), refused(35, 0));
    }
    // The places have other numbers of follows, and lead to the same type.
    let before = opening(&[
        let_(3, boxed(number(3))),
        let_(4, of_two(shared((3, 1)), shared((1, 0)))),
        let_(5, shared((4, 1))),
        mov((4, 0)),
    ]);
    borrowed_shared(&before, 3, &boxed(number(5)));
    borrowed_shared(&before, 1, &number(5));
    assert_eq!(behind(&before, &[copy((5, 1))]), Ok(()));
}

#[test]
fn branches_that_give_borrows_through_links() {
    // Through variables outside.
    let terms = [let_(5, of_two(shared((3, 1)), shared((4, 1))))];
    let before = opening(&[&two_references()[..], &terms].concat());
    let zero = || shared((0, 0));
    records_both(&before, &[(3, zero()), (4, zero())]);
    // Through variables of their own.
    let own = |first: Term, second: Term| {
        let first = [let_(6, first), shared((6, 1))];
        let second = [let_(7, second), shared((7, 1))];
        choice((0, 0), &first, &second)
    };
    let both = let_(5, own(shared((1, 0)), shared((2, 0))));
    records_both(&opening(&[both]), &[]);
    // One of them through an exclusive link, which records its own variable.
    let then = |term: Term| behind(&opening(&[]), &[let_(5, term)]);
    let held = own(exclusive((1, 0)), shared((2, 0)));
    assert_eq!(then(held), refused(40, 2));
    let held = own(shared((1, 0)), exclusive((2, 0)));
    assert_eq!(then(held), refused(40, 6));
    // One that borrows something of the branch itself.
    let local = [let_(6, number(1)), let_(7, shared((6, 0))), shared((7, 1))];
    let second = choice((0, 0), &[shared((1, 0))], &local);
    assert_eq!(then(second), refused(40, 4));
}

/// What is moved away in one branch cannot be borrowed through afterwards.
#[test]
fn moved_away_in_one_branch() {
    let moved = of_two(mov((3, 0)), shared((1, 0)));
    let before = opening(&[two_references().to_vec(), vec![moved]].concat());
    assert_eq!(behind(&before, &[shared((3, 1))]), refused(33, 0));
    assert_eq!(behind(&before, &[shared((4, 1))]), Ok(()));
    // What may be recorded is moved away.
    let before = opening(&[
        let_(3, shared((1, 0))),
        choice(
            (0, 0),
            &[assign((3, 0), shared((0, 0))), mov((1, 0))],
            &[number(1)],
        ),
    ]);
    assert_eq!(behind(&before, &[shared((3, 1))]), refused(33, 0));
}

/// 40 of each recorded place, and of each variable that may be written.
#[test]
fn each_recorded_place_lives_long_enough() {
    let before = opening(&[let_(3, shared((1, 0)))]);
    let bind = |first: Place, second: Place| {
        let terms = [
            let_(4, number(4)),
            let_(5, of_two(shared(first), shared(second))),
            assign((3, 0), shared((5, 1))),
        ];
        behind(&before, &[block(&terms), copy((3, 1))])
    };
    assert_eq!(bind((1, 0), (2, 0)), Ok(()));
    assert_eq!(bind((4, 0), (2, 0)), refused(40, 9));
    assert_eq!(bind((1, 0), (4, 0)), refused(40, 9));
    // The value of a block.
    let gives = |second: Place| {
        let terms = [
            let_(4, number(4)),
            let_(5, of_two(shared((1, 0)), shared(second))),
            shared((5, 1)),
        ];
        behind(&before, &[let_(6, block(&terms)), copy((6, 1))])
    };
    assert_eq!(gives((2, 0)), Ok(()));
    assert_eq!(gives((4, 0)), refused(40, 1));
}

/// v5 may borrow v3, v9 or v8, and v9 through v3. That `*v3` is met again by
/// way of v9 hides nothing: what the shared link of v5 borrows is recorded.
#[test]
fn a_place_met_again_hides_no_borrowed_one() {
    let v9 = |place| assign((9, 0), exclusive(place));
    let v5 = |root| assign((5, 0), shared((root, 0)));
    let v8 = assign((8, 0), exclusive((2, 0)));
    let one = || number(1);
    let second = choice(
        (0, 0),
        &[v9((3, 1)), v5(9), one()],
        &[v9((3, 1)), v8, v5(8), one()],
    );
    let before = opening(&[
        let_(6, number(3)),
        let_(7, number(4)),
        let_(3, exclusive((1, 0))),
        let_(8, exclusive((6, 0))),
        let_(9, exclusive((7, 0))),
        let_(10, number(5)),
        let_(11, exclusive((10, 0))),
        let_(5, shared((11, 0))),
        choice((0, 0), &[v9((2, 0)), v5(3), one()], &[second]),
        let_(12, shared((5, 2))),
        v5(11),
    ]);
    for root in [3, 8, 9] {
        assert_eq!(behind(&before, &[mov((root, 0))]), refused(35, 0), "{root}");
    }
    assert_eq!(behind(&before, &[mov((5, 0))]), Ok(()));
}
