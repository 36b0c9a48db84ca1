//! References that lead nowhere any more stay in the store of accepted scripts,
//! and nothing follows them.

use crate::common::terms::*;
use crate::common::{fault, UncheckedAnswer};
use crate::hand::*;
use crate::last_uses::{gives_one, refuses_at};
use roomscript::Limits;

/// `let v0=box 1; let v1=BORROW *v0` and these terms. Terms 0 to 5.
fn of_a_box(borrow: fn(Place) -> Term, then: &[Term]) -> Vec<Term> {
    let before = [let_(0, boxed(number(1))), let_(1, borrow((0, 1)))];
    [&before, then].concat()
}

/// The row of the store that is left when the terms have run: one that faults
/// comes then.
fn row_left_by(terms: &[Term], row: u32) -> [u32; 3] {
    let (answer, store) = runs_unchecked(&[terms, &[copy((9, 0))]].concat());
    let due: UncheckedAnswer = fault(60, block(terms).len() as u32);
    assert_eq!(answer, due);
    store[3 * row as usize..][..3].try_into().expect("a row")
}

#[test]
fn a_reference_to_a_cell_that_was_given_back() {
    for borrow in [shared, exclusive] {
        let moved = of_a_box(borrow, &[mov((0, 0))]);
        gives_one(&[&moved[..], &[number(7)]].concat(), 7);
        let cell = Limits::BASE.variables;
        assert_eq!(row_left_by(&moved, 1), [1, 3, cell]);
        assert_eq!(row_left_by(&moved, cell), [2, 0, 0]);
        // Followed it would be a fault, and the check refuses.
        let followed = [&moved[..], &[copy((1, 1))]].concat();
        refuses_at(&followed, 35, 6);
        assert_eq!(gives_unchecked(&followed), fault(60, 7));
        // Written over, the cell is another one.
        let over = of_a_box(borrow, &[assign((0, 0), boxed(number(2))), copy((0, 1))]);
        gives_one(&over, 2);
        assert_eq!(row_left_by(&over, 1), [1, 3, cell]);
    }
}

/// The box is now in another variable, which may be written.
#[test]
fn a_reference_to_what_belongs_to_another_one() {
    let terms = of_a_box(
        exclusive,
        &[
            let_(2, mov((0, 0))),
            assign((2, 1), number(8)),
            copy((2, 1)),
        ],
    );
    gives_one(&terms, 8);
    // v1 leads there, but by way of v0, which has nothing.
    let followed = [&terms[..], &[copy((1, 1))]].concat();
    refuses_at(&followed, 35, 7);
}

/// A stale reference is moved away, copied over or closed without being
/// followed. Naming it would keep it in use, so only a value given to it
/// before and the end of its block do that.
#[test]
fn a_stale_reference_in_a_box_and_in_an_inner_block() {
    let in_a_box = [
        let_(0, boxed(number(1))),
        let_(1, boxed(exclusive((0, 1)))),
        mov((0, 0)),
        number(3),
    ];
    gives_one(&in_a_box, 3);
    let inner = [
        let_(0, boxed(number(1))),
        block(&[let_(1, shared((0, 1))), mov((0, 0)), number(3)]),
    ];
    gives_one(&inner, 3);
    // Of a stale reference to a stale reference likewise.
    let both = of_a_box(shared, &[let_(2, shared((1, 0))), mov((0, 0)), number(3)]);
    gives_one(&both, 3);
}

/// The branch that runs leaves a reference stale that the other one bound
/// again, and both are accepted to be out of use.
#[test]
fn stale_after_one_of_two_blocks() {
    let before = [
        let_(0, boxed(number(1))),
        let_(1, boxed(number(2))),
        let_(2, exclusive((0, 1))),
        let_(3, reading(0)),
    ];
    let bind = assign((2, 0), exclusive((1, 1)));
    let with = |first: &[Term], second: &[Term], then: &[Term]| {
        let chosen = choice((3, 0), first, second);
        [&before[..], &[chosen], then].concat()
    };
    let (moves, stays) = ([bind, mov((0, 0)), number(4)], [number(4)]);
    let over = with(&moves, &stays, &[]);
    gives_one(&over, 4);
    // Used again, v2 could lead to v0, which one block moved away.
    let again = accepts(&with(&moves, &stays, &[copy((2, 1))]));
    assert_eq!(again.map_err(|refusal| refusal.number), Err(33));
    let moved_only = [mov((0, 0)), number(4)];
    gives_one(&with(&moved_only, &stays, &[]), 4);
    let again = accepts(&with(&moved_only, &stays, &[copy((2, 1))]));
    assert_eq!(again.map_err(|refusal| refusal.number), Err(35));
}

/// v1 is out of use in the second block and comes back into use where both are
/// joined: v2 may hold it then. Where the second block ran, v2 does not.
#[test]
fn back_in_use_after_a_choice() {
    let terms = |last: Term| {
        vec![
            let_(0, number(1)),
            let_(4, reading(0)),
            let_(1, shared((0, 0))),
            let_(3, shared((4, 0))),
            let_(2, shared((3, 0))),
            let_(6, number(0)),
            let_(5, exclusive((6, 0))),
            choice(
                (4, 0),
                &[assign((2, 0), shared((1, 0))), number(1)],
                &[assign((5, 0), exclusive((0, 0))), number(1)],
            ),
            last,
            copy((2, 2)),
        ]
    };
    let write = terms(assign((5, 1), number(5)));
    assert_eq!(accepts(&write), Ok(()));
    // v0 itself is barred by both.
    let moved = accepts(&terms(mov((0, 0))));
    assert_eq!(moved.map_err(|refusal| refusal.number), Err(35));
}
