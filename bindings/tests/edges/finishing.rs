//! The order in which terms finish: an assign after its right side, a choice
//! after both its blocks, the first block before the second.

use crate::common::terms::*;
use crate::hand::*;
use crate::last_uses::{gives_one, held, refuses_at};

/// What only the right side uses is over when the assign is judged.
#[test]
fn an_assign_after_its_right_side() {
    gives_one(&held(&[assign((0, 0), copy((1, 1))), copy((0, 0))]), 5);
    let in_a_block = block(&[assign((1, 1), number(6)), copy((1, 1))]);
    gives_one(&held(&[assign((0, 0), in_a_block), copy((0, 0))]), 6);
    let used_again = [assign((0, 0), copy((1, 1))), copy((1, 1))];
    refuses_at(&held(&used_again), 35, 5);
    // In the right side itself it is in use until then.
    let in_order = block(&[copy((1, 1)), copy((0, 0))]);
    gives_one(&held(&[assign((0, 0), in_order), copy((0, 0))]), 5);
    let too_early = block(&[copy((0, 0)), copy((1, 1))]);
    refuses_at(&held(&[assign((0, 0), too_early), copy((0, 0))]), 34, 7);
}

/// The root of an assign is in use all through its right side.
#[test]
fn an_assign_around() {
    refuses_at(
        &held(&[assign((1, 0), exclusive((0, 0))), number(1)]),
        35,
        6,
    );
    refuses_at(&held(&[assign((1, 1), copy((0, 0))), number(1)]), 34, 6);
    let nested = assign((1, 1), block(&[let_(2, copy((0, 0))), number(1)]));
    refuses_at(&held(&[nested, number(1)]), 34, 8);
    // A let takes it into another variable: v1 is over.
    gives_one(&held(&[let_(2, exclusive((0, 0))), copy((2, 1))]), 5);
    // Of an assign in an assign both roots.
    let twice = assign((1, 1), block(&[assign((2, 0), copy((0, 0))), number(1)]));
    let before = [let_(2, number(2)), twice, number(1)];
    refuses_at(&held(&before), 34, 10);
}

/// With the new value in place, and the assign's own name.
#[test]
fn the_new_value_in_place() {
    refuses_at(
        &held(&[assign((1, 0), exclusive((1, 1))), number(1)]),
        35,
        5,
    );
    let through = [
        let_(2, exclusive((1, 0))),
        assign((2, 1), exclusive((2, 2))),
        number(1),
    ];
    refuses_at(&held(&through), 35, 7);
    // v2 holds v1, which is written, and is over.
    let other = [
        let_(3, number(6)),
        let_(2, shared((1, 0))),
        assign((1, 0), exclusive((3, 0))),
    ];
    gives_one(&held(&[&other[..], &[copy((1, 1))]].concat()), 6);
    refuses_at(&held(&[&other[..], &[copy((2, 2))]].concat()), 35, 9);
}

/// What the acting term names itself is in use.
#[test]
fn the_own_names_of_a_term() {
    for of_two in [below, sum] {
        refuses_at(&held(&[of_two((0, 0), (1, 1))]), 34, 5);
        refuses_at(&held(&[of_two((1, 1), (0, 0))]), 34, 5);
        assert_eq!(accepts(&held(&[of_two((0, 0), (0, 0))])), Ok(()));
        assert_eq!(accepts(&held(&[of_two((1, 1), (1, 1))])), Ok(()));
        // By way of a further holder.
        let further = [let_(2, exclusive((1, 1))), of_two((2, 1), (0, 0))];
        refuses_at(&held(&further), 34, 7);
    }
}

/// `let v0=5; let v1=&mut v0; let v2=reading 0` and a choice by v2. The choice
/// is term 7.
fn chosen(first: &[Term], second: &[Term], then: &[Term]) -> Vec<Term> {
    let by_v2 = [let_(2, reading(0)), choice((2, 0), first, second)];
    held(&[&by_v2, then].concat())
}

#[test]
fn used_in_one_block_only() {
    let (look, read) = (|| copy((1, 1)), || copy((0, 0)));
    // Used in the first it is over in the second, and not the other way round.
    gives_one(&chosen(&[look()], &[read()], &[]), 5);
    refuses_at(&chosen(&[read()], &[look()], &[]), 34, 9);
    // Within a block.
    gives_one(&chosen(&[look(), read()], &[read()], &[]), 5);
    refuses_at(&chosen(&[read(), look()], &[number(1)], &[]), 34, 9);
    refuses_at(&chosen(&[number(1)], &[read(), look()], &[]), 34, 11);
    // After the choice.
    gives_one(&chosen(&[look()], &[number(1)], &[read()]), 5);
    gives_one(&chosen(&[number(1)], &[look()], &[read()]), 5);
    refuses_at(&chosen(&[read()], &[number(1)], &[look()]), 34, 9);
    refuses_at(&chosen(&[number(1)], &[read()], &[look()]), 34, 11);
    refuses_at(
        &chosen(&[number(1)], &[number(1)], &[read(), look()]),
        34,
        12,
    );
}

/// A borrow that only one block leaves behind.
#[test]
fn borrowed_in_one_block_only() {
    let bind = || assign((1, 0), exclusive((3, 0)));
    let terms = |then: &[Term]| {
        let before = [
            let_(3, number(3)),
            let_(2, reading(0)),
            choice((2, 0), &[bind(), number(1)], &[number(1)]),
        ];
        held(&[&before, then].concat())
    };
    for root in [0, 3] {
        assert_eq!(accepts(&terms(&[copy((root, 0))])), Ok(()));
        assert_eq!(accepts(&terms(&[mov((root, 0)), number(1)])), Ok(()));
        refuses_at(&terms(&[copy((root, 0)), copy((1, 1))]), 34, 16);
        refuses_at(&terms(&[mov((root, 0)), copy((1, 1))]), 35, 16);
    }
}

/// The root of a choice's place is in use all through both blocks.
#[test]
fn the_place_of_a_choice() {
    let (first, second) = (|| vec![copy((0, 0))], || vec![number(2)]);
    refuses_at(&held(&[choice((1, 1), &first(), &second())]), 34, 7);
    refuses_at(&held(&[choice((1, 1), &second(), &first())]), 34, 9);
    refuses_at(
        &held(&[copy((0, 0)), choice((1, 1), &second(), &second())]),
        34,
        5,
    );
    let over = [choice((1, 1), &second(), &second()), copy((0, 0))];
    gives_one(&held(&over), 5);
    // By way of a further holder, and in a choice in the choice.
    let further = [
        let_(2, exclusive((1, 1))),
        choice((2, 1), &second(), &[choice((0, 0), &second(), &second())]),
    ];
    refuses_at(&held(&further), 34, 11);
    // A choice by what is held, with its holder used in a block.
    let by_held = choice((0, 0), &second(), &[copy((1, 1))]);
    refuses_at(&held(&[by_held]), 34, 5);
}
