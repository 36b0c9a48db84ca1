//! The scripts about last uses that LANGUAGE 8.11 lists, in its order.

use crate::common::refused;
use crate::common::terms::*;
use crate::hand::*;

/// Accepted, with these answers for a first reading that is not 0 and for 0.
#[track_caller]
fn gives(terms: &[Term], answers: [i32; 2]) {
    assert_eq!(accepts(terms), Ok(()));
    let given = [READINGS, FIRST_0].map(|readings| runs_given(terms, &readings));
    assert_eq!(given.map(|ran| ran.map(|ran| ran.answer)), answers.map(Ok));
}

#[track_caller]
fn refuses(terms: &[Term], number: u32, term: u32) {
    assert_eq!(accepts(terms), refused(number, term));
}

/// `let v0=1; let v1=&mut v0`, and then these terms.
fn held(then: &[Term]) -> Vec<Term> {
    let before = [let_(0, number(1)), let_(1, exclusive((0, 0)))];
    [&before, then].concat()
}

/// `let v0=reading 0; let v1=1; let v2=2; let v3=&mut v1`, and then these terms.
fn chosen(then: &[Term]) -> Vec<Term> {
    let before = [
        let_(0, reading(0)),
        let_(1, number(1)),
        let_(2, number(2)),
        let_(3, exclusive((1, 0))),
    ];
    [&before, then].concat()
}

#[test]
fn listed_ends_of_borrows() {
    gives(
        &[
            let_(0, number(5)),
            let_(1, exclusive((0, 0))),
            assign((1, 1), number(6)),
            assign((0, 0), number(7)),
            copy((0, 0)),
        ],
        [7, 7],
    );
    gives(
        &[
            let_(0, boxed(number(1))),
            let_(1, shared((0, 1))),
            mov((0, 0)),
            number(0),
        ],
        [0, 0],
    );
    refuses(
        &[
            let_(0, boxed(number(1))),
            let_(1, shared((0, 1))),
            mov((0, 0)),
            copy((1, 1)),
        ],
        35,
        6,
    );
    refuses(
        &held(&[let_(2, exclusive((1, 0))), copy((0, 0)), copy((2, 2))]),
        34,
        7,
    );
    refuses(
        &held(&[
            let_(2, shared((1, 0))),
            let_(3, shared((2, 0))),
            copy((0, 0)),
            copy((3, 0)),
            number(0),
        ]),
        34,
        9,
    );
    refuses(&held(&[sum((0, 0), (1, 1))]), 34, 5);
}

#[test]
fn listed_names_around() {
    refuses(
        &held(&[assign((1, 0), exclusive((1, 1))), number(0)]),
        35,
        5,
    );
    gives(&held(&[assign((0, 0), copy((1, 1))), copy((0, 0))]), [1, 1]);
    refuses(&held(&[assign((1, 1), copy((0, 0))), number(0)]), 34, 6);
    refuses(
        &held(&[
            assign((1, 0), block(&[copy((0, 0)), exclusive((0, 0))])),
            number(0),
        ]),
        34,
        7,
    );
    refuses(
        &[
            let_(0, reading(0)),
            let_(1, number(1)),
            let_(2, exclusive((1, 0))),
            choice((0, 0), &[copy((1, 0))], &[copy((2, 1))]),
        ],
        34,
        9,
    );
    gives(
        &[
            let_(0, reading(0)),
            let_(1, number(1)),
            let_(2, exclusive((1, 0))),
            choice((0, 0), &[copy((2, 1))], &[copy((1, 0))]),
        ],
        [1, 1],
    );
}

#[test]
fn listed_branches_and_circles() {
    refuses(
        &[
            let_(0, reading(0)),
            let_(1, exclusive((0, 0))),
            choice((1, 1), &[copy((0, 0))], &[number(0)]),
        ],
        34,
        7,
    );
    gives(
        &chosen(&[
            let_(4, exclusive((2, 0))),
            choice(
                (0, 0),
                &[assign((3, 0), exclusive((4, 1))), number(1)],
                &[assign((4, 0), exclusive((3, 1))), number(1)],
            ),
            copy((1, 0)),
        ]),
        [1, 1],
    );
    refuses(
        &chosen(&[
            let_(4, exclusive((2, 0))),
            choice(
                (0, 0),
                &[assign((3, 0), exclusive((4, 1))), number(1)],
                &[assign((4, 0), exclusive((3, 1))), number(1)],
            ),
            copy((1, 0)),
            copy((4, 1)),
        ]),
        34,
        20,
    );
    refuses(
        &held(&[
            let_(2, exclusive((1, 1))),
            assign((1, 0), exclusive((2, 1))),
            number(0),
        ]),
        35,
        7,
    );
    refuses(
        &held(&[let_(2, exclusive((1, 1))), copy((0, 0)), copy((2, 1))]),
        34,
        7,
    );
    refuses(
        &[
            let_(0, reading(0)),
            let_(1, exclusive((0, 0))),
            choice((0, 0), &[copy((1, 1))], &[number(0)]),
        ],
        34,
        5,
    );
}

#[test]
fn listed_names() {
    refuses(
        &[
            let_(0, reading(0)),
            let_(1, exclusive((0, 0))),
            choice((1, 1), &[number(0)], &[copy((0, 0))]),
        ],
        34,
        9,
    );
    refuses(
        &[
            let_(0, number(1)),
            let_(1, number(2)),
            let_(2, exclusive((0, 0))),
            copy((0, 0)),
            assign((2, 0), exclusive((1, 0))),
            number(0),
        ],
        34,
        7,
    );
    refuses(
        &[
            let_(0, number(5)),
            let_(1, exclusive((0, 0))),
            copy((0, 0)),
            let_(1, number(2)),
            number(1),
        ],
        34,
        5,
    );
    refuses(
        &chosen(&[
            let_(4, number(3)),
            let_(5, exclusive((4, 0))),
            let_(6, exclusive((5, 0))),
            choice(
                (0, 0),
                &[assign((6, 0), exclusive((3, 0))), number(1)],
                &[assign((3, 0), exclusive((2, 0))), number(1)],
            ),
            copy((2, 0)),
            copy((6, 2)),
        ]),
        34,
        24,
    );
    refuses(
        &[
            let_(0, number(1)),
            let_(1, shared((0, 0))),
            block(&[
                let_(2, number(3)),
                assign((1, 0), shared((2, 0))),
                number(0),
            ]),
            number(0),
        ],
        40,
        8,
    );
}
