//! The line of the program (LANGUAGE 6.11).

mod common;

use common::*;
use reference::roomcheck;

fn line(readings: [i32; 8], script: &[u8]) -> String {
    let readings = readings.map(i32::to_be_bytes).concat();
    roomcheck(&[&readings[..], script].concat())
}

#[test]
fn lines_of_the_scope_document() {
    let e1 = script(&[
        let_(0, reading(0)),
        let_(1, reading(1)),
        let_(2, shared((0, 0))),
        below((2, 1), (1, 0)),
    ]);
    assert_eq!(
        line([185, 200, 0, 0, 0, 0, 0, 0], &e1),
        "accepted 8 call 1 cells 0"
    );
    assert_eq!(
        line([200, 200, 0, 0, 0, 0, 0, 0], &e1),
        "accepted 8 call 0 cells 0"
    );
    let e2 = script(&[let_(0, number(5)), let_(1, exclusive((0, 0))), copy((0, 0))]);
    assert_eq!(line([0; 8], &e2), "accepted 6 call 5 cells 0");
    let used_again = script(&[
        let_(0, number(5)),
        let_(1, exclusive((0, 0))),
        copy((0, 0)),
        copy((1, 1)),
    ]);
    assert_eq!(line([0; 8], &used_again), "refused 34 at 5");
}

#[test]
fn short_readings() {
    for length in 0..32 {
        assert_eq!(roomcheck(&vec![0; length]), "readings short");
    }
    assert_eq!(roomcheck(&[0; 32]), "refused 12 at 0");
    assert_eq!(roomcheck(&[0; 32 + 32_768]), "refused 10 at 0");
    assert_eq!(roomcheck(&[0; 32 + 32_769]), "refused 1 at 0");
}

#[test]
fn answers_are_signed_and_cells_are_counted() {
    let negative = script(&[boxed(number(1)), boxed(number(2)), reading(7)]);
    let readings = [0, 0, 0, 0, 0, 0, 0, i32::MIN];
    assert_eq!(
        line(readings, &negative),
        "accepted 6 call -2147483648 cells 2"
    );
}

#[test]
fn the_newest_version_is_read() {
    let terms = [let_(0, reading(0)), let_(1, number(5)), sum((0, 0), (1, 0))];
    let with = |first, version| line([first, 0, 0, 0, 0, 0, 0, 0], &script_of(version, &terms));
    assert_eq!(with(185, 2), "accepted 6 call 190 cells 0");
    assert_eq!(with(i32::MAX, 2), "accepted 6 call 2147483647 cells 0");
    assert_eq!(with(i32::MIN, 2), "accepted 6 call -2147483643 cells 0");
    assert_eq!(with(185, 1), "refused 13 at 18");
    assert_eq!(with(185, 3), "refused 11 at 3");
    assert_eq!(with(185, 0), "refused 11 at 3");
    assert_eq!(with(185, 258), "refused 11 at 3");
    let wrong = script_of(2, &[let_(0, number(5)), sum((0, 0), (1, 0))]);
    assert_eq!(line([0; 8], &wrong), "refused 31 at 3");
}
