//! Variable operands (LANGUAGE 2.4): out of range from the set's number of
//! variables on (14). The other operands have the same ranges under every set.

use crate::common::refused;
use crate::common::sets::set;
use crate::given::*;
use roomscript::Limits;

const COUNTS: [u32; 9] = [1, 2, 5, 63, 64, 65, 70, 127, 128];

/// A set with so many variables, which has room for all scripts below.
fn with(variables: u32) -> Limits {
    set(300, variables, 3, 4)
}

#[test]
fn in_bytes() {
    for count in COUNTS {
        let (limits, last) = (with(count), count as u8 - 1);
        for kind in [0x03, 0x04, 0x05, 0x06, 0x0A, 0x0D] {
            let reads = |root, second| {
                let body = [0x0B, 1, kind, root, 8, second, 8];
                match kind {
                    0x0A => reads_body_under(limits, &body),
                    // Of version 2 only.
                    0x0D => reads_under(limits, &script_in(2, &body)),
                    _ => reads_body_under(limits, &body[..5]),
                }
            };
            assert_eq!(reads(last, last), Ok(2), "{count}");
            for beyond in [last + 1, 128, 200, 255] {
                assert_eq!(reads(beyond, last), refused(14, 8), "{count}");
                if kind == 0x0A || kind == 0x0D {
                    assert_eq!(reads(last, beyond), refused(14, 10), "{count}");
                }
            }
        }
        for (kind, follows) in [(0x08, &[][..]), (0x09, &[8])] {
            let reads = |root| {
                let body = [&[0x0B, 1, kind, root], follows, &[0x02, 0]].concat();
                reads_body_under(limits, &body)
            };
            assert_eq!(reads(last), Ok(3), "{count}");
            for beyond in [last + 1, 128, 200, 255] {
                assert_eq!(reads(beyond), refused(14, 8), "{count}");
            }
        }
    }
}

/// A term of a kind on one variable, or on two, in a block.
fn rows_with(kind: u32, first: u32, second: u32) -> Vec<Row> {
    let row = match kind {
        0x08 => [kind, first, 0, 0, 0],
        0x0A | 0x0D => [kind, first, 8, second, 8],
        _ => [kind, first, 8, 0, 0],
    };
    let inner = match kind {
        0x08 | 0x09 => vec![READING],
        0x0C => [block(1), READING].repeat(2),
        _ => vec![],
    };
    [vec![block(1), row], inner].concat()
}

#[test]
fn in_rows() {
    for count in COUNTS {
        let (limits, last) = (with(count), count - 1);
        // Also with low bytes that are in range.
        let beyond = [
            count,
            128,
            255,
            256 + last,
            0x1_0000 + last,
            0x8000_0000,
            u32::MAX,
        ];
        for kind in [0x03, 0x04, 0x05, 0x06, 0x08, 0x09, 0x0A, 0x0C, 0x0D] {
            let rows = |first, second| rows_with(kind, first, second);
            let right = rows(last, last);
            assert_eq!(judges_first_under(limits, &right), Ok(right.len() as u32));
            for beyond in beyond {
                let rows_beyond = rows(beyond, last);
                let answer = judges_first_under(limits, &rows_beyond);
                assert_eq!(answer, refused(14, 1), "{count}, {beyond}");
                if kind == 0x0A || kind == 0x0D {
                    let answer = judges_first_under(limits, &rows(last, beyond));
                    assert_eq!(answer, refused(14, 1), "{count}, {beyond}");
                }
            }
        }
    }
}

#[test]
fn other_operands_are_as_under_every_set() {
    for count in COUNTS {
        let limits = with(count);
        let reads = |body: &[u8]| reads_body_under(limits, body);
        assert_eq!(reads(&[0x0B, 1, 0x02, 7]), Ok(2));
        assert_eq!(reads(&[0x0B, 1, 0x02, 8]), refused(14, 8));
        assert_eq!(reads(&[0x0B, 1, 0x03, 0, 8]), Ok(2));
        assert_eq!(reads(&[0x0B, 1, 0x03, 0, 9]), refused(14, 9));
        assert_eq!(reads(&[0x0B, 0]), refused(14, 6));
        let wide = [&[0x0B, 255][..], &[0x02, 0].repeat(255)].concat();
        assert_eq!(reads(&wide), Ok(256));
        let judges = |row: Row| judges_first_under(limits, &[block(1), row]);
        assert_eq!(judges([0x02, 7, 0, 0, 0]), Ok(2));
        assert_eq!(judges([0x02, 8, 0, 0, 0]), refused(14, 1));
        assert_eq!(judges([0x03, 0, 8, 0, 0]), Ok(2));
        assert_eq!(judges([0x03, 0, 9, 0, 0]), refused(14, 1));
        assert_eq!(judges([0x03, 0, 0, 1, 0]), refused(14, 1));
        assert_eq!(judges_first_under(limits, &[block(256)]), refused(14, 0));
    }
}
