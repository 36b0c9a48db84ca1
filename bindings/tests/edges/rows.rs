//! Judging rows, and the writer with them: each refusal by the rows
//! (LANGUAGE 5.12, 5.13).

use crate::common::refused;
use crate::given::*;

/// Every bit pattern is a number.
const ANY: u32 = u32::MAX;

/// Each kind with its largest operands, an unused field having 0.
const LARGEST: [Row; 13] = [
    [0x01, ANY, 0, 0, 0],
    [0x02, 7, 0, 0, 0],
    [0x03, 63, 8, 0, 0],
    [0x04, 63, 8, 0, 0],
    [0x05, 63, 8, 0, 0],
    [0x06, 63, 8, 0, 0],
    [0x07, 0, 0, 0, 0],
    [0x08, 63, 0, 0, 0],
    [0x09, 63, 8, 0, 0],
    [0x0A, 63, 8, 63, 8],
    [0x0B, 255, 0, 0, 0],
    [0x0C, 63, 8, 0, 0],
    [0x0D, 63, 8, 63, 8],
];

#[test]
fn accepted_rows() {
    assert_eq!(judges_first(&E1_ROWS), Ok(8));
    assert_eq!(judges_first(&[block(1), READING]), Ok(2));
    assert_eq!(judges_first(&[block(1), [0x01, ANY, 0, 0, 0]]), Ok(2));
}

#[test]
fn other_lengths() {
    for length in [0, 1, 5, 2559, 2561, 5120] {
        assert_eq!(judges(&vec![0; length]), refused(2, 0));
        assert_eq!(judges(&vec![ANY; length]), refused(2, 0));
    }
    // A whole script in them does not help.
    let mut rows = rows_of(&E1_ROWS);
    rows.push(0);
    assert_eq!(judges(&rows), refused(2, 0));
    rows.truncate(2559);
    assert_eq!(judges(&rows), refused(2, 0));
}

#[test]
fn ended_rows() {
    assert_eq!(judges_first(&[]), refused(12, 0));
    for used in 0..E1_ROWS.len() {
        assert_eq!(judges_first(&E1_ROWS[..used]), refused(12, used as u32));
    }
    // Kind 0 has ended, whatever its other fields are.
    let rest = [0, 1, 2, 3, 4];
    assert_eq!(judges_first(&[rest]), refused(12, 0));
    assert_eq!(judges_first(&[block(1), rest]), refused(12, 1));
}

#[test]
fn unknown_kinds() {
    for kind in [
        0x0E,
        0xFF,
        0x100,
        0x10B,
        0x10C,
        0x10D,
        0x0C00,
        0x0D00,
        0x8000_000C,
        0x8000_000D,
        0x0B00,
        0x0B00_0000,
        0x8000_000B,
        ANY,
    ] {
        let row = [kind, 1, 0, 0, 0];
        // Also before 18, and before the operands.
        assert_eq!(judges_first(&[row]), refused(13, 0));
        assert_eq!(judges_first(&[block(1), row]), refused(13, 1));
        assert_eq!(judges_first(&[block(1), [kind; 5]]), refused(13, 1));
    }
}

/// A row in a block, with inner terms where it takes some.
fn in_block(row: Row) -> Vec<Row> {
    let inner = match row[0] {
        0x07..=0x09 => vec![READING],
        0x0B => vec![READING; row[1] as usize],
        0x0C => [block(1), READING].repeat(2),
        _ => vec![],
    };
    [vec![block(1), row], inner].concat()
}

#[test]
fn each_operand_of_each_kind() {
    for largest in LARGEST {
        let rows = in_block(largest);
        assert_eq!(judges_first(&rows), Ok(rows.len() as u32));
        for (field, most) in largest[1..].iter().enumerate() {
            // Too large by one, by the highest bit, and in the low byte not
            // at all.
            for beyond in [most.wrapping_add(1), most | 1 << 31, most | 1 << 8, ANY] {
                let mut rows = rows.clone();
                rows[1][field + 1] = beyond;
                if *most < ANY {
                    assert_eq!(judges_first(&rows), refused(14, 1));
                }
            }
        }
    }
}

#[test]
fn operands_of_the_outermost_block() {
    assert_eq!(judges_first(&[block(0)]), refused(14, 0));
    assert_eq!(judges_first(&[block(256), READING]), refused(14, 0));
    assert_eq!(judges_first(&[block(ANY), READING]), refused(14, 0));
    for field in 2..5 {
        let mut row = block(1);
        row[field] = 1;
        assert_eq!(judges_first(&[row, READING]), refused(14, 0));
    }
    assert_eq!(judges_first(&[block(1), block(0)]), refused(14, 1));
}

#[test]
fn operands_come_before_later_rows() {
    let bad = [0x03, 64, 0, 0, 0];
    assert_eq!(judges_first(&[block(2), bad, [ANY; 5]]), refused(14, 1));
    assert_eq!(judges_first(&[block(2), READING, bad]), refused(14, 2));
    assert_eq!(judges_first(&[block(2), bad]), refused(14, 1));
}

#[test]
fn the_outermost_row_is_a_block() {
    for kind in (0x01..=0x0A).chain([0x0C, 0x0D]) {
        assert_eq!(judges_first(&[[kind, 0, 0, 0, 0]]), refused(18, 0));
        // Before the operands.
        assert_eq!(judges_first(&[[kind, ANY, ANY, ANY, ANY]]), refused(18, 0));
    }
}

#[test]
fn rows_after_the_end() {
    let whole = [block(1), READING];
    assert_eq!(judges_first(&[whole, whole].concat()), refused(19, 2));
    for row in [2, 3, 100, 511] {
        for field in 0..5 {
            for value in [1, 0x100, 1 << 31] {
                let mut rows = rows_of(&whole);
                rows[5 * row + field] = value;
                assert_eq!(judges(&rows), refused(19, row as u32));
            }
        }
    }
    // The first of several.
    let mut rows = rows_of(&whole);
    rows[5 * 200..].fill(ANY);
    assert_eq!(judges(&rows), refused(19, 200));
}
