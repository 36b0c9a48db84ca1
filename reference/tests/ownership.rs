//! The ownership rules one by one (LANGUAGE 3.16 to 3.29), with the order of
//! their numbers.

mod common;

use common::*;
use reference::check;

#[test]
fn rows_are_judged_first() {
    assert_eq!(check(LIMITS, &[]), refused(2, 0));
    assert_eq!(check(LIMITS, &[0; ROWS_LEN + 1]), refused(2, 0));
    assert_eq!(check(LIMITS, &[0; ROWS_LEN]), refused(12, 0));
    // A copy out of scope at term 1 does not come before a row left over.
    let mut rows = rows_of(&script(&[copy((0, 0))]));
    assert_eq!(check(LIMITS, &rows), refused(31, 1));
    rows[ROWS_LEN - 1] = 1;
    assert_eq!(check(LIMITS, &rows), refused(19, 511));
}

#[test]
fn a_number_is_declared_once_in_a_whole_script() {
    let twice = [let_(0, number(1)), let_(0, number(2)), number(0)];
    assert_eq!(judge(&twice), refused(30, 3));
    let apart = [
        block(&[let_(0, number(1)), number(0)]),
        let_(0, number(2)),
        number(0),
    ];
    assert_eq!(judge(&apart), refused(30, 5));
    let inside = [let_(0, block(&[let_(0, number(1)), number(2)])), number(0)];
    assert_eq!(judge(&inside), refused(30, 3));
    let others = [let_(0, block(&[let_(1, number(1)), number(2)])), number(0)];
    assert_eq!(judge(&others), Ok(()));
}

#[test]
fn scope_begins_after_the_let_and_ends_with_the_block() {
    assert_eq!(judge(&[let_(0, copy((0, 0))), number(0)]), refused(31, 2));
    let own = [let_(0, block(&[shared((0, 0))])), number(0)];
    assert_eq!(judge(&own), refused(31, 3));
    let after = [block(&[let_(0, number(1)), number(2)]), copy((0, 0))];
    assert_eq!(judge(&after), refused(31, 5));
    let within = [let_(0, number(1)), block(&[copy((0, 0))])];
    assert_eq!(judge(&within), Ok(()));
}

#[test]
fn chains_must_be_long_enough() {
    assert_eq!(judge(&[let_(0, number(1)), copy((0, 1))]), refused(32, 3));
    let two = |follows| [let_(0, boxes(2, number(1))), copy((0, follows))];
    assert_eq!(judge(&two(2)), Ok(()));
    assert_eq!(judge(&two(3)), refused(32, 5));
    // The length comes before what is moved away.
    let moved = [let_(0, number(1)), mov((0, 0)), copy((0, 1))];
    assert_eq!(judge(&moved), refused(32, 4));
}

#[test]
fn copy_needs_a_whole_number_or_shared_borrow() {
    assert_eq!(
        judge(&[let_(0, boxed(number(1))), copy((0, 0))]),
        refused(37, 4)
    );
    let exclusive_copied = [
        let_(0, number(1)),
        let_(1, exclusive((0, 0))),
        let_(2, copy((1, 0))),
        number(0),
    ];
    assert_eq!(judge(&exclusive_copied), refused(37, 6));
    let shared_copied = [
        let_(0, number(1)),
        let_(1, shared((0, 0))),
        let_(2, copy((1, 0))),
        copy((2, 1)),
    ];
    assert_eq!(judge(&shared_copied), Ok(()));
    // Not whole comes before not copied.
    let hollow = [let_(0, boxed(number(1))), mov((0, 1)), copy((0, 0))];
    assert_eq!(judge(&hollow), refused(33, 5));
}

#[test]
fn a_copied_borrow_borrows_the_same_place() {
    // v3 is a copy of what *v2 leads to, the borrow of v0 in v1.
    let terms = |last: Term| {
        [
            let_(0, number(1)),
            let_(1, shared((0, 0))),
            let_(2, shared((1, 0))),
            let_(3, copy((2, 1))),
            last,
            number(0),
        ]
    };
    assert_eq!(
        judge_in_use(&terms(assign((0, 0), number(2)))),
        refused(35, 9)
    );
    // v3 holds v0, not v2, so that v2 can be moved away.
    assert_eq!(judge_in_use(&terms(mov((2, 0)))), Ok(()));
    assert_eq!(judge_in_use(&terms(mov((1, 0)))), refused(35, 9));
}

#[test]
fn move_passes_boxes_only() {
    let through = |borrow: Term| {
        [
            let_(0, boxed(number(1))),
            let_(1, borrow),
            mov((1, 2)),
            number(0),
        ]
    };
    assert_eq!(judge(&through(exclusive((0, 0)))), refused(38, 6));
    assert_eq!(judge(&through(shared((0, 0)))), refused(38, 6));
    // A long enough chain comes first, moved away later.
    let far = [let_(0, number(1)), let_(1, shared((0, 0))), mov((1, 2))];
    assert_eq!(judge(&far), refused(32, 5));
    let gone = [
        let_(0, number(1)),
        let_(1, shared((0, 0))),
        mov((1, 0)),
        mov((1, 1)),
    ];
    assert_eq!(judge(&gone), refused(38, 6));
    let inner = [let_(0, boxes(2, number(1))), mov((0, 1)), mov((0, 2))];
    assert_eq!(judge(&inner), refused(33, 6));
    let outer = [let_(0, boxes(2, number(1))), mov((0, 2)), mov((0, 0))];
    assert_eq!(judge(&outer), refused(33, 6));
    let held = [
        let_(0, boxed(number(1))),
        let_(1, shared((0, 1))),
        mov((0, 0)),
        number(0),
    ];
    assert_eq!(judge_in_use(&held), refused(35, 6));
}

#[test]
fn a_moved_borrow_is_held_by_its_new_variable_only() {
    let terms = |last: &[Term]| {
        let first = [
            let_(0, number(1)),
            let_(1, exclusive((0, 0))),
            let_(2, mov((1, 0))),
        ];
        judge_in_use(&[&first[..], last].concat())
    };
    assert_eq!(terms(&[copy((0, 0))]), refused(34, 7));
    assert_eq!(terms(&[mov((2, 0)), copy((0, 0))]), Ok(()));
    assert_eq!(terms(&[copy((1, 1))]), refused(33, 7));
    assert_eq!(terms(&[copy((2, 1))]), Ok(()));
}

#[test]
fn shared_borrows() {
    let barred = [
        let_(0, number(1)),
        let_(1, exclusive((0, 0))),
        shared((0, 0)),
        number(0),
    ];
    assert_eq!(judge_in_use(&barred), refused(34, 5));
    let twice = [
        let_(0, number(1)),
        let_(1, shared((0, 0))),
        let_(2, shared((0, 0))),
        below((1, 1), (2, 1)),
    ];
    assert_eq!(judge(&twice), Ok(()));
    let full = [let_(0, boxes(8, number(1))), shared((0, 0)), number(0)];
    assert_eq!(judge(&full), refused(42, 11));
    let below_full = [let_(0, boxes(8, number(1))), shared((0, 1)), number(0)];
    assert_eq!(judge(&below_full), Ok(()));
    let hollow = [let_(0, boxes(2, number(1))), mov((0, 2)), shared((0, 0))];
    assert_eq!(judge(&hollow), refused(33, 6));
}

#[test]
fn exclusive_borrows() {
    let behind_shared = [
        let_(0, number(1)),
        let_(1, shared((0, 0))),
        exclusive((1, 1)),
        number(0),
    ];
    assert_eq!(judge(&behind_shared), refused(36, 5));
    let held = [
        let_(0, number(1)),
        let_(1, shared((0, 0))),
        exclusive((0, 0)),
        number(0),
    ];
    assert_eq!(judge_in_use(&held), refused(35, 5));
    let full = [let_(0, boxes(8, number(1))), exclusive((0, 0)), number(0)];
    assert_eq!(judge(&full), refused(42, 11));
    // An exclusive borrow through an exclusive one holds the latter.
    let through = |last: Term| {
        [
            let_(0, number(1)),
            let_(1, exclusive((0, 0))),
            let_(2, exclusive((1, 1))),
            last,
        ]
    };
    assert_eq!(judge_in_use(&through(copy((2, 1)))), Ok(()));
    assert_eq!(judge_in_use(&through(copy((1, 1)))), refused(34, 7));
    assert_eq!(judge_in_use(&through(copy((0, 0)))), refused(34, 7));
    assert_eq!(judge_in_use(&through(exclusive((1, 1)))), refused(35, 7));
    // The links passed are judged before what is held.
    let both = [
        let_(0, number(1)),
        let_(1, shared((0, 0))),
        let_(2, shared((1, 0))),
        exclusive((1, 1)),
        number(0),
    ];
    assert_eq!(judge(&both), refused(36, 7));
}

#[test]
fn what_has_no_value() {
    let lets = let_(1, number(1));
    assert_eq!(judge(&[boxed(lets.clone()), number(0)]), refused(41, 1));
    assert_eq!(judge(&[let_(0, lets.clone()), number(0)]), refused(41, 1));
    let assigned = [let_(0, number(1)), assign((0, 0), lets.clone()), number(0)];
    assert_eq!(judge(&assigned), refused(41, 3));
    // Before the place of an assign, which is out of scope here.
    let nowhere = [assign((9, 0), lets.clone()), number(0)];
    assert_eq!(judge(&nowhere), refused(41, 1));
    let blocked = [let_(0, block(&[number(1), lets.clone()])), number(0)];
    assert_eq!(judge(&blocked), refused(41, 1));
    assert_eq!(
        judge(&[block(std::slice::from_ref(&lets)), number(0)]),
        Ok(())
    );
    assert_eq!(judge(&[lets]), refused(43, 0));
}

#[test]
fn the_answer_is_a_number() {
    assert_eq!(judge(&[boxed(number(1))]), refused(43, 0));
    assert_eq!(
        judge(&[let_(0, number(1)), assign((0, 0), number(2))]),
        refused(43, 0)
    );
    // The end of the outermost block comes first.
    assert_eq!(judge(&[let_(0, number(1)), shared((0, 0))]), refused(40, 0));
}

#[test]
fn below_compares_numbers() {
    let first = [let_(0, boxed(number(1))), below((0, 0), (9, 0))];
    assert_eq!(judge(&first), refused(39, 4));
    let second = [let_(0, boxed(number(1))), below((0, 1), (9, 0))];
    assert_eq!(judge(&second), refused(31, 4));
    let second = [let_(0, boxed(number(1))), below((0, 1), (0, 0))];
    assert_eq!(judge(&second), refused(39, 4));
    let barred = [
        let_(0, boxed(number(1))),
        let_(1, exclusive((0, 0))),
        below((0, 0), (0, 0)),
    ];
    assert_eq!(judge_in_use(&barred), refused(34, 6));
}
