//! The length of a script, from its rows (LANGUAGE 6.4): mark and version, the
//! bytes of each kind, the shortest and the longest script, and outputs of just
//! that length, in every version and under every set that the rows are within.

use crate::asked::write;
use crate::common::examples::*;
use crate::common::guarded::Guarded;
use crate::common::sets::{fitting, set, SMALL, UNEVEN};
use crate::common::terms::{self, choice, let_, mov, number, reading, sum, Term};
use crate::common::{refused, Answer};
use crate::full::full;
use crate::given::*;
use crate::larger::nowhere_smaller;
use roomscript::Limits;

const BASE: Limits = Limits::BASE;

/// The length, and writing to outputs around it: as many bytes where there is
/// room, with those after them unchanged, and else 5 with all unchanged. A
/// refusal is that of writing, whatever the output.
#[track_caller]
pub fn tells(limits: Limits, version: u32, rows: &[u32]) -> Answer {
    let told = length_under(limits, version, rows);
    let near = told.map_or(9, |length| length as usize);
    for room in [0, 1, near - 1, near, near + 1, near + 40] {
        let shown = format!("{limits:?}, version {version}, output of {room}");
        let mut output = Guarded::junk(room, 91);
        let written = write(limits, version, rows, output.lent_mut());
        let due = match told {
            Ok(_) if room < near => refused(5, 0),
            _ => told,
        };
        assert_eq!(written, due, "{shown}");
        let end = written.map_or(0, |length| length as usize);
        assert!(output.junk_from(end) && output.guards_hold(), "{shown}");
        if written.is_ok() {
            let script = terms::bytes_of_all(version, rows);
            assert_eq!(output.lent()[..end], script, "{shown}");
        }
    }
    told
}

/// What is told of the rows given in version 1 and in version 2.
#[track_caller]
fn in_each(limits: Limits, first: &[Row]) -> [Answer; 2] {
    let rows = rows_under(limits, first);
    [1, 2].map(|version| tells(limits, version, &rows))
}

/// Five bytes of mark and version, a block of two and a reading of two: there is
/// no shorter script.
#[test]
fn the_shortest_script() {
    let shortest = [block(1), READING];
    for limits in [set(2, 1, 0, 2), SMALL, UNEVEN, BASE, Limits::LARGEST] {
        assert_eq!(in_each(limits, &shortest), [Ok(9); 2], "{limits:?}");
    }
}

#[test]
fn e1_in_each_version() {
    assert_eq!(in_each(BASE, &E1_ROWS), [Ok(25); 2]);
}

/// Each kind with its bytes, the kind's own included, its largest operands, and
/// what has to be inside it.
fn kinds() -> [(u32, Row, Vec<Row>); 13] {
    let branch = [block(1), READING];
    [
        (5, [0x01, u32::MAX, 0, 0, 0], vec![]),
        (2, [0x02, 7, 0, 0, 0], vec![]),
        (3, [0x03, 63, 8, 0, 0], vec![]),
        (3, [0x04, 63, 8, 0, 0], vec![]),
        (3, [0x05, 63, 8, 0, 0], vec![]),
        (3, [0x06, 63, 8, 0, 0], vec![]),
        (1, [0x07, 0, 0, 0, 0], vec![READING]),
        (2, [0x08, 63, 0, 0, 0], vec![READING]),
        (3, [0x09, 63, 8, 0, 0], vec![READING]),
        (5, [0x0A, 63, 8, 63, 8], vec![]),
        (2, [0x0B, 255, 0, 0, 0], vec![READING; 255]),
        (3, [0x0C, 63, 8, 0, 0], [branch, branch].concat()),
        (5, [0x0D, 63, 8, 63, 8], vec![]),
    ]
}

/// The bytes of what is inside those: readings and blocks have two each.
fn bytes_inside(rows: &[Row]) -> u32 {
    2 * rows.len() as u32
}

#[test]
fn the_bytes_of_each_kind() {
    for (bytes, row, inner) in kinds() {
        let whole = [&[block(1), row], &inner[..]].concat();
        let due = Ok(5 + 2 + bytes + bytes_inside(&inner));
        let first = match row[0] {
            0x0C | 0x0D => refused(13, 1),
            _ => due,
        };
        assert_eq!(in_each(BASE, &whole), [first, due], "kind {}", row[0]);
    }
}

/// Operands take the same bytes whatever they are.
#[test]
fn the_bytes_of_small_operands() {
    for (bytes, row, inner) in kinds() {
        let (row, inner) = match row[0] {
            0x0B => (block(1), vec![READING]),
            kind => ([kind, 0, 0, 0, 0], inner),
        };
        let whole = rows_of(&[&[block(1), row], &inner[..]].concat());
        let due = Ok(5 + 2 + bytes + bytes_inside(&inner));
        assert_eq!(tells(BASE, 2, &whole), due, "kind {}", row[0]);
    }
}

#[test]
fn every_kind_in_one_script() {
    let kinds = kinds();
    let mut whole = vec![block(kinds.len() as u32)];
    for (_, row, inner) in kinds {
        whole.push(row);
        whole.extend(inner);
    }
    // The kinds have 40. Inside are three readings, 255, and two branches.
    let due = 5 + 2 + 40 + 3 * 2 + 255 * 2 + 2 * 4;
    assert_eq!(tells(BASE, 2, &rows_of(&whole)), Ok(due));
}

/// A block of blocks with so many of one row in each.
fn filled(blocks: &[u32], row: Row) -> Vec<Row> {
    let mut rows = vec![block(blocks.len() as u32)];
    for count in blocks {
        rows.push(block(*count));
        rows.extend(vec![row; *count as usize]);
    }
    rows
}

const NUMBER: Row = [0x01, 0x89AB_CDEF, 0, 0, 0];
const BELOW: Row = [0x0A, 1, 2, 3, 4];
const SUM: Row = [0x0D, 1, 2, 3, 4];

/// Two blocks have room for 509 other terms, of five bytes each; the one term
/// left is an assign around one of these.
#[test]
fn the_longest_script_of_the_language_s_own_set() {
    let longest = |row| {
        let assign = [0x09, 1, 0, 0, 0];
        let first = [vec![block(255), assign], vec![row; 254]].concat();
        [first, vec![block(255)], vec![row; 255]].concat()
    };
    for row in [NUMBER, BELOW] {
        assert_eq!(longest(row).len(), 512);
        assert_eq!(in_each(BASE, &longest(row)), [Ok(2557); 2]);
    }
    assert_eq!(in_each(BASE, &longest(SUM)), [refused(13, 2), Ok(2557)]);
}

/// 17 blocks have room for the other 4,079 terms. With a block less, 15 assigns
/// would stand around others, and be shorter.
#[test]
fn the_longest_script_of_the_largest_set() {
    let blocks = [[255; 15].as_slice(), &[254]].concat();
    for row in [NUMBER, BELOW] {
        let rows = filled(&blocks, row);
        assert_eq!(rows.len(), 4096);
        assert_eq!(in_each(Limits::LARGEST, &rows), [Ok(20_434); 2]);
    }
    let rows = filled(&blocks, SUM);
    let due = [refused(13, 2), Ok(20_434)];
    assert_eq!(in_each(Limits::LARGEST, &rows), due);
}

/// Lets of 5 bytes with what is in them, blocks down to level 32 round a number,
/// 15 blocks of copies, and the last copy.
#[test]
fn at_every_limit_of_the_largest_set() {
    let rows = terms::block(&full(terms::copy((127, 1))));
    let deep = 30 * 2 + 5;
    let copies = 15 * 2 + 3 * (14 * 255 + 94);
    let due = 5 + 2 + 128 * 5 + deep + copies + 3;
    assert_eq!(due, 11_737);
    assert_eq!(in_each(Limits::LARGEST, &rows), [Ok(due); 2]);
}

/// Scripts with their bytes, whether the check accepts them or not.
fn scripts() -> Vec<(Vec<Term>, u32)> {
    let one = || number(1);
    vec![
        (e1(), 25),
        (e3(), 23),
        (e4(), 31),
        (e5(), 31),
        (e10(9), 28),
        (vec![mov((5, 8))], 10),
        (vec![let_(0, reading(0)), sum((0, 0), (0, 0))], 16),
        (vec![choice((3, 0), &[one()], &[one(), one()])], 29),
    ]
}

/// The same rows, with rows of 0 behind them where the set has more terms.
#[test]
fn the_same_under_larger_sets() {
    for (terms, bytes) in scripts() {
        let rows = terms::block(&terms);
        assert_eq!(terms::script_of(&terms).len(), bytes as usize);
        let version = terms::version_of(&rows.concat());
        for limits in nowhere_smaller(fitting(&terms)) {
            for version in version..=2 {
                let answer = tells(limits, version, &rows_under(limits, &rows));
                assert_eq!(answer, Ok(bytes), "{limits:?}, {version}");
            }
        }
    }
}

#[test]
fn each_number_of_terms_in_a_block() {
    for count in 1..=255 {
        let rows = [vec![block(count)], vec![NUMBER; count as usize]].concat();
        assert_eq!(in_each(BASE, &rows), [Ok(7 + 5 * count); 2]);
    }
}
