//! Refusals of the length (LANGUAGE 5.8, 6.4), which are those of writing: each
//! with its place, and in their order. 5 is none of them.

use crate::common::sets::{set, LEAST, NAMED, SMALL, UNEVEN};
use crate::common::{refused, Answer};
use crate::given::*;
use crate::length::tells;
use crate::rewriting::NONE;
use roomscript::Limits;

const BASE: Limits = Limits::BASE;

const CHOICE: Row = [0x0C, 0, 0, 0, 0];
const SUM: Row = [0x0D, 0, 0, 0, 0];

/// Under the language's own set, in version 1 and in version 2.
#[track_caller]
fn in_each(first: &[Row]) -> [Answer; 2] {
    let rows = rows_of(first);
    [1, 2].map(|version| tells(BASE, version, &rows))
}

/// Alike in both versions.
#[track_caller]
fn refuses(first: &[Row], number: u32, row: u32) {
    assert_eq!(in_each(first), [refused(number, row); 2]);
}

/// As in version 2, but 13 in version 1.
#[track_caller]
fn unknown_or(first: &[Row], row: u32, second: Answer) {
    assert_eq!(in_each(first), [refused(13, row), second]);
}

/// Rows that are refused with each number, the number and the place, under a set
/// that has room for them.
fn wrong(limits: Limits) -> Vec<(Vec<u32>, u32, u32)> {
    let last = limits.terms - 1;
    let mut deep = vec![block(1); limits.levels as usize];
    deep.push(READING);
    let mut boxes = vec![block(255)];
    boxes.extend([BOX, READING].repeat(limits.boxes as usize + 1));
    let mut left = rows_under(limits, &[block(1), READING]);
    left[5 * last as usize + 4] = 1;
    let mut wrong: Vec<(Vec<u32>, u32, u32)> = [
        (vec![], 12, 0),
        (vec![block(2), READING], 12, 2),
        (vec![block(1), [UNKNOWN, 0, 0, 0, 0]], 13, 1),
        (vec![block(1), [0x03, limits.variables, 0, 0, 0]], 14, 1),
        (deep, 15, limits.levels),
        (boxes, 17, 1 + 2 * limits.boxes),
        (vec![READING], 18, 0),
        (vec![block(1), READING, READING], 19, 2),
    ]
    .into_iter()
    .map(|(first, number, place)| (rows_under(limits, &first), number, place))
    .collect();
    wrong.push((left, 19, last));
    wrong
}

/// Four things, each right or wrong, in every combination, with rows that are
/// wrong in each way: the first one that is wrong is told.
#[test]
fn in_their_order() {
    for limits in [SMALL, UNEVEN, BASE, Limits::LARGEST] {
        for (rows, number, place) in wrong(limits) {
            let numbers = [(74, 0), (2, 0), (11, 0), (number, place)];
            for wrong in 0..1usize << numbers.len() {
                let is_wrong = |at: usize| wrong >> at & 1;
                let mut handed = limits;
                handed.levels += 32 * is_wrong(0) as u32;
                let mut rows = match is_wrong(3) {
                    0 => rows_under(limits, &[block(1), READING]),
                    _ => rows.clone(),
                };
                rows.truncate(limits.row_numbers() - is_wrong(1));
                let due = match numbers.get(wrong.trailing_zeros() as usize) {
                    Some((number, place)) => refused(*number, *place),
                    None => Ok(9),
                };
                for version in [1, 2] {
                    let version = version + 2 * is_wrong(2) as u32;
                    let answer = tells(handed, version, &rows);
                    assert_eq!(answer, due, "{handed:?}, {number}, {wrong:b}");
                }
            }
        }
    }
}

/// Before the version and before whatever the rows hold.
#[test]
fn rows_of_other_lengths_2() {
    for limits in NAMED {
        let right = limits.row_numbers();
        let mut lengths = vec![0, 1, right - 1, right + 1, right + 5, 2 * right];
        lengths.extend(NAMED.map(Limits::row_numbers));
        lengths.retain(|length| *length != right);
        for length in lengths {
            let mut script = [block(1), READING].concat();
            script.resize(length, 0);
            for rows in [script, vec![0; length], vec![u32::MAX; length]] {
                for version in [0, 1, 2, 3, u32::MAX] {
                    let answer = tells(limits, version, &rows);
                    assert_eq!(answer, refused(2, 0), "{limits:?}, {length}");
                }
            }
        }
    }
}

/// Whatever rows of the right length hold.
#[test]
fn no_such_version_11() {
    for limits in NAMED {
        let mut all = vec![
            vec![0; limits.row_numbers()],
            vec![u32::MAX; limits.row_numbers()],
        ];
        if limits != LEAST {
            all.push(rows_under(limits, &E1_ROWS));
            all.push(rows_under(limits, &[block(1), SUM]));
            all.extend(wrong(limits).into_iter().map(|(rows, ..)| rows));
        }
        for rows in all {
            for version in NONE {
                let answer = tells(limits, version, &rows);
                assert_eq!(answer, refused(11, 0), "{limits:?}, {version}");
            }
        }
    }
}

/// Where kind 0 stands, and where the rows are used up.
#[test]
fn ended_12() {
    refuses(&[], 12, 0);
    refuses(&[[0, 1, 2, 3, 4]], 12, 0);
    for used in 0..E1_ROWS.len() {
        refuses(&E1_ROWS[..used], 12, used as u32);
    }
    let chosen = [block(1), CHOICE, block(1), READING, block(1)];
    for used in 2..=chosen.len() {
        unknown_or(&chosen[..used], 1, refused(12, used as u32));
    }
    // Blocks that are not full where the set's rows end.
    let full = [vec![block(255)], vec![READING; 255]].concat();
    let blocks = [vec![block(255)], full.repeat(16)].concat();
    for limits in [LEAST, SMALL, UNEVEN, BASE, Limits::LARGEST] {
        let rows = blocks[..limits.terms as usize].concat();
        for version in [1, 2] {
            let answer = tells(limits, version, &rows);
            assert_eq!(answer, refused(12, limits.terms), "{limits:?}");
        }
    }
}

#[test]
fn unknown_kinds_13() {
    for kind in [0x0E, 0xFF, 0x101, 0x10C, 0x0D00, 0x8000_000D, u32::MAX] {
        refuses(&[[kind, 0, 0, 0, 0]], 13, 0);
        refuses(&[block(1), [kind; 5]], 13, 1);
        refuses(&[block(2), READING, [kind, 0, 0, 0, 0]], 13, 2);
    }
}

/// In version 1 before anything else that is wrong with their row, and after
/// the rows before it.
#[test]
fn kinds_of_a_later_version_13() {
    let branches = [block(1), READING, block(1), READING];
    let chosen = |before: &[Row]| [before, &[CHOICE], &branches].concat();
    let branched = 3 + 2 * 4;
    unknown_or(&[block(1), SUM], 1, Ok(12));
    unknown_or(&chosen(&[block(1)]), 1, Ok(7 + branched));
    unknown_or(&[block(2), READING, SUM], 2, Ok(14));
    unknown_or(&chosen(&[block(2), READING]), 2, Ok(9 + branched));
    unknown_or(&[block(1), BOX, SUM], 2, Ok(13));
    unknown_or(&chosen(&[block(1), BOX]), 2, Ok(8 + branched));
    for row in [CHOICE, SUM] {
        unknown_or(&[row], 0, refused(18, 0));
        let mut beyond = row;
        beyond[2] = 9;
        unknown_or(&[block(1), beyond], 1, refused(14, 1));
        let deep = [vec![block(1); 16], vec![row]].concat();
        unknown_or(&deep, 16, refused(15, 16));
        refuses(&[block(2), [0x02, 8, 0, 0, 0], row], 14, 1);
        // Left over, a row is not asked for its kind.
        refuses(&[block(1), READING, row], 19, 2);
    }
    unknown_or(&[block(2), SUM], 1, refused(12, 2));
    unknown_or(&[block(1), SUM, READING], 1, refused(19, 2));
}

#[test]
fn operands_14() {
    let beyond: [Row; 12] = [
        [0x01, 0, 1, 0, 0],
        [0x02, 8, 0, 0, 0],
        [0x03, 64, 0, 0, 0],
        [0x04, 0, 9, 0, 0],
        [0x05, 0, 0, 1, 0],
        [0x06, 0, 0, 0, 1],
        [0x07, 1, 0, 0, 0],
        [0x08, 64, 0, 0, 0],
        [0x09, 63, 0x108, 0, 0],
        [0x0A, 63, 8, 64, 0],
        [0x0B, 0, 0, 0, 0],
        [0x0B, 256, 0, 0, 0],
    ];
    for row in beyond {
        refuses(&[block(1), row], 14, 1);
        refuses(&[block(2), READING, row, READING], 14, 2);
    }
    unknown_or(&[block(1), [0x0C, 64, 0, 0, 0]], 1, refused(14, 1));
    unknown_or(&[block(1), [0x0D, 0, 0, 0, 9]], 1, refused(14, 1));
    refuses(&[block(0)], 14, 0);
    refuses(&[block(256), READING], 14, 0);
    // A variable by the set's number.
    for variables in [1, 5, 65, 128] {
        let limits = set(9, variables, 0, 3);
        let copy = |root| rows_under(limits, &[block(1), [0x03, root, 0, 0, 0]]);
        assert_eq!(tells(limits, 1, &copy(variables - 1)), Ok(10));
        assert_eq!(tells(limits, 1, &copy(variables)), refused(14, 1));
    }
}

#[test]
fn too_deep_15_and_too_many_boxes_17() {
    for (levels, boxes) in [(2, 0), (3, 1), (16, 64), (32, 128)] {
        let limits = set(300, 1, boxes, levels);
        for version in [1, 2] {
            let tells = |first: &[Row]| tells(limits, version, &rows_under(limits, first));
            let deep = |count| [vec![block(1); count], vec![READING]].concat();
            assert_eq!(tells(&deep(levels as usize - 1)), Ok(5 + 2 * levels));
            assert_eq!(tells(&deep(levels as usize)), refused(15, levels));
            let boxed = |count: u32| {
                let boxed = [BOX, READING].repeat(count as usize);
                [&[block(count + 1)], &boxed[..], &[READING]].concat()
            };
            // What is in a box is on level 3: the set of two levels has none.
            assert_eq!(tells(&boxed(boxes)), Ok(9 + 3 * boxes));
            let row = 1 + 2 * boxes;
            assert_eq!(tells(&boxed(boxes + 1)), refused(17, row));
        }
    }
}

#[test]
fn no_block_18() {
    for kind in 0x01..=0x0A {
        refuses(&[[kind, u32::MAX, 0, 0, 0]], 18, 0);
    }
    for other in [READING, BOX, CHOICE] {
        let first = [block(1), CHOICE, other];
        unknown_or(&first, 1, refused(18, 2));
        let second = [block(1), CHOICE, block(1), READING, other];
        unknown_or(&second, 1, refused(18, 4));
    }
}

#[test]
fn rows_left_over_19() {
    for row in [2, 3, 100, 511] {
        for field in 0..5 {
            let mut rows = rows_of(&[block(1), READING]);
            rows[5 * row + field] = 1 << 31;
            for version in [1, 2] {
                let answer = tells(BASE, version, &rows);
                assert_eq!(answer, refused(19, row as u32));
            }
        }
    }
}
