//! The length of the script that rows describe (LANGUAGE 6.4), by hand: the
//! bytes of each kind, and each refusal before the one that comes next.

mod common;

use common::*;
use reference::{Limits, Refusal};

type Row = [u32; 5];

const READING: Row = [2, 0, 0, 0, 0];
const NUMBER: Row = [1, 5, 0, 0, 0];
const BOX: Row = [7, 0, 0, 0, 0];
const LET: Row = [8, 0, 0, 0, 0];
const CHOICE: Row = [12, 0, 0, 0, 0];
const SUM: Row = [13, 0, 0, 0, 0];

fn a_block(count: u32) -> Row {
    [11, count, 0, 0, 0]
}

/// Rows of a set with the given ones first and 0 after them.
fn laid_out(limits: Limits, first: &[Row]) -> Vec<u32> {
    let mut rows = first.concat();
    assert!(rows.len() <= limits.row_numbers());
    rows.resize(limits.row_numbers(), 0);
    rows
}

/// The length of these rows under the set of the program, in both versions.
fn by_version(first: &[Row]) -> [Result<u32, Refusal>; 2] {
    let rows = laid_out(LIMITS, first);
    [1, 2].map(|version| measured(LIMITS, version, &rows))
}

/// What stands inside a term, and how many bytes that takes.
fn inside(row: Row) -> (Vec<Row>, u32) {
    match row[0] {
        7..=9 => (vec![READING], 2),
        11 => (vec![READING; row[1] as usize], 2 * row[1]),
        12 => (vec![a_block(1), READING, a_block(1), READING], 8),
        _ => (vec![], 0),
    }
}

#[test]
fn each_kind_has_its_bytes_whatever_its_operands() {
    let kinds = [
        (1, [0; 4], [u32::MAX, 0, 0, 0], 5),
        (2, [0; 4], [7, 0, 0, 0], 2),
        (3, [0; 4], [63, 8, 0, 0], 3),
        (4, [0; 4], [63, 8, 0, 0], 3),
        (5, [0; 4], [63, 8, 0, 0], 3),
        (6, [0; 4], [63, 8, 0, 0], 3),
        (7, [0; 4], [0; 4], 1),
        (8, [0; 4], [63, 0, 0, 0], 2),
        (9, [0; 4], [63, 8, 0, 0], 3),
        (10, [0; 4], [63, 8, 63, 8], 5),
        (11, [1, 0, 0, 0], [255, 0, 0, 0], 2),
        (12, [0; 4], [63, 8, 0, 0], 3),
        (13, [0; 4], [63, 8, 63, 8], 5),
    ];
    for (kind, least, most, bytes) in kinds {
        for [a, b, c, d] in [least, most] {
            let row = [kind, a, b, c, d];
            let (inner, inner_bytes) = inside(row);
            let rows = [vec![a_block(1), row], inner].concat();
            // Mark, version and the outermost block take 7.
            let due = Ok(7 + bytes + inner_bytes);
            let first = if kind < 12 { due } else { refused(13, 1) };
            assert_eq!(by_version(&rows), [first, due], "{row:?}");
        }
    }
}

/// `let v0=reading 0; let v1=reading 1; let v2=&v0; below *v2, v1`.
fn e1() -> [Term; 4] {
    [
        let_(0, reading(0)),
        let_(1, reading(1)),
        let_(2, shared((0, 0))),
        below((2, 1), (1, 0)),
    ]
}

#[test]
fn whole_scripts() {
    // The shortest: of the terms with no term inside none has fewer than 2 bytes.
    assert_eq!(by_version(&[a_block(1), READING]), [Ok(9); 2]);
    assert_eq!(by_version(&[a_block(2), READING, NUMBER]), [Ok(14); 2]);
    // LANGUAGE 8.2 and 8.3, read in either version.
    let boxes = [
        let_(0, boxed(reading(0))),
        let_(1, boxed(number(21))),
        assign((1, 0), mov((0, 0))),
        assign((0, 0), boxed(number(4))),
        below((0, 1), (1, 1)),
    ];
    for (terms, bytes) in [(&e1()[..], 25), (&boxes, 40)] {
        for version in [1, 2] {
            let rows = rows_of(&script_of(version, terms));
            let both = [1, 2].map(|version| measured(LIMITS, version, &rows));
            assert_eq!(both, [Ok(bytes); 2]);
        }
    }
    // LANGUAGE 8.8.
    let [first, second, ..] = e1();
    let rows = rows_of(&script_of(2, &[first, second, sum((0, 0), (1, 0))]));
    assert_eq!(measured(LIMITS, 1, &rows), refused(13, 5));
    assert_eq!(measured(LIMITS, 2, &rows), Ok(20));
}

#[test]
fn rows_without_a_term_are_not_counted() {
    for limits in [set(8, 3, 0, 3), set(9, 3, 0, 3), LIMITS, Limits::LARGEST] {
        let rows = rows_under(limits, &script(&e1()));
        assert_eq!(measured(limits, 1, &rows), Ok(25));
    }
}

/// The terms of 5 bytes, with the oldest version that has them.
const LONG: [(Row, u32); 3] = [(NUMBER, 1), ([10, 0, 0, 0, 0], 1), (SUM, 2)];

/// Every term with terms inside is shorter than 5 bytes, so the longest script
/// has few of them. Of 512 terms 511 are inside others: two blocks have 510,
/// and an assign the last. A third block instead would make it a byte shorter.
#[test]
fn the_longest_script_of_the_program() {
    for (long, oldest) in LONG {
        let inner = [vec![a_block(255)], vec![long; 255]].concat();
        let assign = [9, 0, 0, 0, 0];
        let rows = [vec![a_block(255)], inner, vec![assign], vec![long; 254]].concat();
        assert_eq!(rows.len(), 512);
        assert_eq!(5 + 2 * 2 + 3 + 509 * 5, 2_557);
        for version in oldest..=2 {
            assert_eq!(measured(LIMITS, version, &rows.concat()), Ok(2_557));
        }
    }
}

/// Of 4,096 terms 4,095 are inside others, which takes 17 blocks. With one
/// fewer, 15 terms would have to be inside assigns or choices.
#[test]
fn the_longest_script_of_all() {
    for (long, oldest) in LONG {
        let inner = [vec![a_block(240)], vec![long; 240]].concat();
        let rows = [vec![a_block(255)], inner.repeat(16), vec![long; 239]].concat();
        assert_eq!(rows.len(), 4_096);
        assert_eq!(5 + 17 * 2 + 4_079 * 5, 20_434);
        for version in oldest..=2 {
            let answer = measured(Limits::LARGEST, version, &rows.concat());
            assert_eq!(answer, Ok(20_434));
        }
    }
}

#[test]
fn the_set_comes_before_all() {
    let good = laid_out(LIMITS, &[a_block(1), READING]);
    let ends = [
        set(0, 64, 64, 16),
        set(4_097, 64, 64, 16),
        set(512, 0, 64, 16),
        set(512, 129, 64, 16),
        set(512, 64, 129, 16),
        set(512, 64, 64, 0),
        set(512, 64, 64, 33),
        set(u32::MAX, u32::MAX, u32::MAX, u32::MAX),
    ];
    for limits in ends {
        for version in [0, 1, 2, 3, u32::MAX] {
            for rows in [&[][..], &[7; 9], &[7; ROWS_LEN], &good] {
                assert_eq!(measured(limits, version, rows), refused(74, 0));
            }
        }
    }
}

#[test]
fn then_the_number_of_rows() {
    let good = laid_out(LIMITS, &[a_block(1), READING]);
    for version in [0, 1, 2, 3, u32::MAX] {
        let more = [&good[..], &[0]].concat();
        for rows in [&[][..], &good[..10], &good[1..], &more, &[7; ROWS_LEN + 5]] {
            assert_eq!(measured(LIMITS, version, rows), refused(2, 0));
        }
    }
}

#[test]
fn then_the_version() {
    let good = laid_out(LIMITS, &[a_block(1), READING]);
    // The low parts of some are a version.
    for version in [0, 3, 4, 256, 257, 258, 0x1_0001, 0x1_0002, u32::MAX] {
        for rows in [&good[..], &[0; ROWS_LEN], &[7; ROWS_LEN]] {
            assert_eq!(measured(LIMITS, version, rows), refused(11, 0));
        }
    }
    for version in [1, 2] {
        assert_eq!(measured(LIMITS, version, &good), Ok(9));
        assert_eq!(measured(LIMITS, version, &[0; ROWS_LEN]), refused(12, 0));
        assert_eq!(measured(LIMITS, version, &[7; ROWS_LEN]), refused(18, 0));
    }
}

/// Each row is wrong in several ways, of which the one that comes first is told;
/// the next row given to it is right in that way.
#[test]
fn then_the_order_in_a_row() {
    let under = |limits: Limits, first: &[Row]| measured(limits, 2, &laid_out(limits, first));
    let two_levels = set(6, 1, 0, 2);
    let branch = |row| under(two_levels, &[a_block(1), CHOICE, row, READING]);
    assert_eq!(branch([0, 9, 9, 9, 9]), refused(12, 2));
    assert_eq!(branch([14, 9, 9, 9, 9]), refused(13, 2));
    assert_eq!(branch([7, 9, 9, 9, 9]), refused(18, 2));
    assert_eq!(branch([11, 0, 9, 9, 9]), refused(15, 2));
    let boxed = |limits, row| under(limits, &[a_block(1), LET, row]);
    let over = [7, 9, 9, 9, 9];
    assert_eq!(boxed(two_levels, over), refused(15, 2));
    assert_eq!(boxed(set(6, 1, 0, 3), over), refused(17, 2));
    assert_eq!(boxed(set(6, 1, 1, 3), over), refused(14, 2));
    assert_eq!(boxed(set(6, 1, 1, 3), BOX), refused(12, 3));
    let whole = |last| under(set(6, 1, 1, 4), &[a_block(1), LET, BOX, READING, last]);
    for field in 0..5 {
        let mut last = [0; 5];
        last[field] = 14;
        assert_eq!(whole(last), refused(19, 4));
    }
    assert_eq!(whole([0; 5]), Ok(12));
}

#[test]
fn then_the_order_of_rows() {
    let bad = [13, 64, 9, 64, 9];
    let both = |number, place| [refused(number, place); 2];
    // An earlier row comes first, whatever its number.
    assert_eq!(by_version(&[a_block(0), bad]), both(14, 0));
    assert_eq!(by_version(&[READING, bad]), both(18, 0));
    assert_eq!(by_version(&[a_block(2), [14; 5], bad]), both(13, 1));
    assert_eq!(by_version(&[a_block(2), [0; 5], bad]), both(12, 1));
    // After the end only 19 is met, at the first row that is not all 0.
    assert_eq!(by_version(&[a_block(1), READING, bad]), both(19, 2));
    let late = [a_block(1), READING, [0; 5], [0, 0, 0, 0, 1], bad];
    assert_eq!(by_version(&late), both(19, 3));
    // No row is left for the next term: 12, never 16.
    let full = laid_out(set(2, 1, 0, 2), &[a_block(2), READING]);
    assert_eq!(measured(set(2, 1, 0, 2), 1, &full), refused(12, 2));
}

#[test]
fn a_kind_of_version_2_in_version_1() {
    let choice = [CHOICE, a_block(1), READING, a_block(1), READING];
    let rows = [&[a_block(2), NUMBER], &choice[..]].concat();
    assert_eq!(by_version(&rows), [refused(13, 2), Ok(5 + 2 + 5 + 11)]);
    let rows = [a_block(2), NUMBER, SUM];
    assert_eq!(by_version(&rows), [refused(13, 2), Ok(5 + 2 + 5 + 5)]);
    // It comes before what version 2 refuses in the same row and after it.
    assert_eq!(by_version(&[SUM]), [refused(13, 0), refused(18, 0)]);
    let over = [12, 64, 0, 0, 0];
    assert_eq!(
        by_version(&[a_block(1), over]),
        [refused(13, 1), refused(14, 1)]
    );
    assert_eq!(
        by_version(&[a_block(2), SUM]),
        [refused(13, 1), refused(12, 2)]
    );
    let more = [a_block(1), SUM, READING];
    assert_eq!(by_version(&more), [refused(13, 1), refused(19, 2)]);
}
