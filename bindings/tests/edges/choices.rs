//! The form of choices: their bytes and rows, the versions that have them, and
//! the order of refusals at a branch that is no block (18).

use crate::asked::{read, write};
use crate::common::guarded::Guarded;
use crate::common::sets::set;
use crate::common::terms::{self, bytes_in, choice, number, Row, Term};
use crate::common::{read_as, refused, Answer};
use crate::given::*;
use roomscript::{Limits, NEWEST};

const BASE: Limits = Limits::BASE;

/// A choice on variable 0.
const CHOICE: Row = [0x0C, 0, 0, 0, 0];

/// The same in bytes.
const BYTES: [u8; 3] = [0x0C, 0, 0];

/// A block of one reading.
const BRANCH: [u8; 4] = [0x0B, 1, 0x02, 3];

/// The byte of a choice is an unknown kind in version 1; this in version 2.
#[track_caller]
fn unknown_or(body: &[u8], place: u32, second: Answer) {
    assert_eq!(reads_in_each(body), [refused(13, place), second]);
}

/// A choice takes its number, then the first branch and all in it, then the
/// second.
#[test]
fn a_choice_gives_its_rows() {
    let body = [
        0x0B, 2, 0x0C, 63, 8, 0x0B, 2, 0x02, 3, 0x07, 0x02, 4, 0x0B, 1, 0x02, 5, 0x0C, 0, 1, 0x0B,
        1, 0x02, 6, 0x0B, 1, 0x02, 7,
    ];
    let rows = [
        block(2),
        [0x0C, 63, 8, 0, 0],
        block(2),
        [0x02, 3, 0, 0, 0],
        BOX,
        [0x02, 4, 0, 0, 0],
        block(1),
        [0x02, 5, 0, 0, 0],
        [0x0C, 0, 1, 0, 0],
        block(1),
        [0x02, 6, 0, 0, 0],
        block(1),
        [0x02, 7, 0, 0, 0],
    ];
    let mut lent = Guarded::junk(BASE.row_numbers(), 6);
    let answer = read(BASE, NEWEST, &script_in(2, &body), lent.lent_mut());
    assert_eq!(answer, read_as(2, 13));
    assert_eq!(lent.lent(), rows_of(&rows));
    assert!(lent.guards_hold());
    unknown_or(&body, 7, Ok(13));
    assert_eq!(judges_first(&rows), Ok(13));
}

#[test]
fn at_each_place() {
    let whole = [&BYTES[..], &BRANCH, &BRANCH].concat();
    let around: [(&[u8], u32); 7] = [
        (&[0x0B, 1], 1),
        (&[0x0B, 2, 0x02, 3], 2),
        (&[0x0B, 1, 0x07], 2),
        (&[0x0B, 1, 0x08, 5], 2),
        (&[0x0B, 1, 0x09, 5, 0], 2),
        (&[0x0B, 2, 0x0A, 0, 0, 0, 0, 0x0B, 1], 3),
        (&[0x0B, 2, 0x0B, 1, 0x02, 3], 3),
    ];
    for (before, terms) in around {
        let place = 5 + before.len() as u32;
        unknown_or(&[before, &whole].concat(), place, Ok(terms + 5));
        // Cut short it has ended, at each of its bytes.
        for length in 1..whole.len() {
            let ended = refused(12, place + length as u32);
            unknown_or(&[before, &whole[..length]].concat(), place, ended);
        }
        // A third block is none of its branches.
        let left = refused(19, place + whole.len() as u32);
        unknown_or(&[before, &whole, &BRANCH].concat(), place, left);
    }
}

#[test]
fn operands() {
    let body = |operands: &[u8]| [&[0x0B, 1, 0x0C], operands].concat();
    unknown_or(&body(&[64, 9]), 7, refused(14, 8));
    unknown_or(&body(&[63, 9]), 7, refused(14, 9));
    unknown_or(&body(&[63, 8]), 7, refused(12, 10));
    unknown_or(&body(&[255, 255]), 7, refused(14, 8));
    // The first one is judged before the next is there, and both before a
    // branch.
    unknown_or(&body(&[64]), 7, refused(14, 8));
    unknown_or(&body(&[63, 9, 0x02, 3]), 7, refused(14, 9));
    for count in [1, 2, 65, 128] {
        let limits = set(9, count, 0, 4);
        let reads = |root| {
            let body = [&[0x0B, 1, 0x0C, root, 8][..], &BRANCH, &BRANCH].concat();
            reads_under(limits, &script_in(2, &body))
        };
        assert_eq!(reads(count as u8 - 1), Ok(6), "{count}");
        for beyond in [count as u8, 200, 255] {
            assert_eq!(reads(beyond), refused(14, 8), "{count}");
        }
    }
    // In rows before the branches too.
    assert_eq!(
        judges_first(&[block(1), [0x0C, 64, 0, 0, 0]]),
        refused(14, 1)
    );
    assert_eq!(
        judges_first(&[block(1), [0x0C, 0, 0, 1, 0]]),
        refused(14, 1)
    );
}

#[test]
fn as_the_outermost_term() {
    unknown_or(&[0x0C], 5, refused(18, 5));
    unknown_or(&[0x0C, 255, 255], 5, refused(18, 5));
    let whole = [&BYTES[..], &BRANCH, &BRANCH].concat();
    unknown_or(&whole, 5, refused(18, 5));
    assert_eq!(judges_first(&[CHOICE]), refused(18, 0));
}

/// Every kind byte but that of a block, whatever comes after it.
#[test]
fn a_branch_that_is_no_block_in_bytes() {
    let first = [&[0x0B, 2], &BYTES[..]].concat();
    let second = [&first[..], &BRANCH].concat();
    for kind in (0..=0xFF).filter(|kind| *kind != 0x0B) {
        let number = match kind {
            0x01..=0x0D => 18,
            _ => 13,
        };
        for more in [&[][..], &[0xFF; 9], &BRANCH] {
            let body = [&first[..], &[kind], more].concat();
            unknown_or(&body, 7, refused(number, 10));
            let body = [&second[..], &[kind], more].concat();
            unknown_or(&body, 7, refused(number, 14));
        }
    }
}

#[test]
fn a_branch_that_is_no_block_in_rows() {
    let second = [block(2), CHOICE, block(1), READING];
    let kinds = (0..0x20).chain([0xFF, 0x10B, 0x0B00, 0x8000_000B, u32::MAX]);
    for kind in kinds.filter(|kind| *kind != 0x0B) {
        let number = match kind {
            0 => 12,
            0x01..=0x0D => 18,
            _ => 13,
        };
        for fields in [0, 9, u32::MAX] {
            let row = [kind, fields, fields, fields, fields];
            let first = [block(2), CHOICE, row];
            assert_eq!(judges_first(&first), refused(number, 2), "{kind}");
            let second = [&second[..], &[row]].concat();
            assert_eq!(judges_first(&second), refused(number, 4), "{kind}");
        }
    }
    // A block is judged by its count, as anywhere.
    for count in [0, 256] {
        let first = [block(2), CHOICE, block(count)];
        assert_eq!(judges_first(&first), refused(14, 2));
    }
}

/// Only the branch itself must be a block, and what is round a block is none.
#[test]
fn inside_and_round_a_branch() {
    let reads = |term: Term| reads(&bytes_in(2, &terms::block(&[term])));
    let one = || vec![number(1)];
    let nested = || choice((0, 0), &one(), &one());
    assert_eq!(reads(choice((1, 0), &[nested()], &[nested()])), Ok(14));
    let blocks = [terms::block(&one())];
    assert_eq!(reads(choice((1, 0), &blocks, &blocks)), Ok(8));
    let wraps: [fn(Term) -> Term; 3] = [
        terms::boxed,
        |term| terms::let_(5, term),
        |term| terms::assign((5, 0), term),
    ];
    for wrap in wraps {
        assert_eq!(reads(wrap(nested())), Ok(7));
        let wrapped = [vec![CHOICE], wrap(terms::block(&one()))].concat();
        assert_eq!(reads(wrapped), refused(18, 10));
    }
    let second = [vec![CHOICE], terms::block(&one()), nested()].concat();
    assert_eq!(reads(second), refused(18, 17));
}

/// What is answered at the first branch of a choice on variable 0 in a block,
/// in bytes and in rows, where the kind is this. No term is left in the first
/// set, no level in the second, no box in the third, and nothing in the last.
#[track_caller]
fn at_a_branch(kind: u32) -> [[Answer; 2]; 4] {
    let limits = [
        set(2, 1, 9, 9),
        set(9, 1, 9, 2),
        set(9, 1, 0, 9),
        set(2, 1, 0, 2),
    ];
    limits.map(|limits| {
        let body = [0x0B, 1, 0x0C, 0, 0, kind as u8, 1, 0x02];
        let script = script_in(2, &body);
        let mut rows = vec![block(1), CHOICE, [kind, 1, 0, 0, 0]];
        rows.truncate(limits.terms as usize);
        let bytes = reads_under(limits, &script);
        [bytes, judges_first_under(limits, &rows)]
    })
}

/// 12, 13, 18, 16, 15, 17 in bytes; in rows 12 comes where no row is left.
#[test]
fn the_order_at_a_branch() {
    let used_up = refused(12, 2);
    let (byte, row) = (10, 2);
    let each = |number| [refused(number, byte), refused(number, row)];
    for kind in [0x07, 0x02, 0x08, 0x0C, 0x0D] {
        let used_up = [refused(18, byte), used_up];
        let due = [used_up, each(18), each(18), used_up];
        assert_eq!(at_a_branch(kind), due, "{kind}");
    }
    let unknown = [refused(13, byte), used_up];
    assert_eq!(at_a_branch(0x0E), [unknown, each(13), each(13), unknown]);
    let ended = [refused(12, 13), refused(12, 3)];
    let many = [refused(16, byte), used_up];
    assert_eq!(at_a_branch(0x0B), [many, each(15), ended, many]);
    // Without a byte it has ended, whatever is left.
    for limits in [set(2, 1, 0, 2), set(9, 1, 0, 2), BASE] {
        let script = script_in(2, &[0x0B, 1, 0x0C, 0, 0]);
        assert_eq!(reads_under(limits, &script), refused(12, 10));
        let rows = [block(1), CHOICE];
        assert_eq!(judges_first_under(limits, &rows), refused(12, 2));
    }
}

/// `let v0=reading 0`, and then a choice whose first branch is a box, where
/// there are no boxes.
#[test]
fn a_box_for_a_branch_where_there_are_none() {
    for levels in [3, 4, 16] {
        let limits = set(512, 64, 0, levels);
        let opening = [0x0B, 2, 0x08, 0, 0x02, 0, 0x0C, 0, 0];
        let body = [&opening[..], &[0x07, 0x01, 0, 0, 0, 1], &BRANCH].concat();
        let answer = reads_under(limits, &script_in(2, &body));
        assert_eq!(answer, refused(18, 14), "{levels}");
        let opening = [block(2), [0x08, 0, 0, 0, 0], [0x02, 0, 0, 0, 0], CHOICE];
        let rows = [&opening[..], &[BOX, READING, block(1), READING]].concat();
        let answer = judges_first_under(limits, &rows);
        assert_eq!(answer, refused(18, 4), "{levels}");
    }
}

#[test]
fn written_in_each_version() {
    let rows = rows_of(&[
        block(2),
        READING,
        [0x0C, 63, 8, 0, 0],
        block(1),
        READING,
        block(1),
        READING,
    ]);
    assert_eq!(judges(&rows), Ok(7));
    let choice = [0x0C, 63, 8];
    let body = [&[0x0B, 2, 0x02, 3], &choice[..], &BRANCH, &BRANCH].concat();
    let script = script_in(2, &body);
    for room in 0..script.len() + 3 {
        let mut output = Guarded::junk(room, 84);
        let answer = write(BASE, 1, &rows, output.lent_mut());
        assert_eq!(answer, refused(13, 2));
        assert!(output.junk_from(0) && output.guards_hold());
        let answer = write(BASE, 2, &rows, output.lent_mut());
        if room < script.len() {
            assert_eq!(answer, refused(5, 0));
            assert!(output.junk_from(0) && output.guards_hold());
        } else {
            assert_eq!(answer, Ok(script.len() as u32));
            assert_eq!(output.lent()[..script.len()], script);
            assert!(output.junk_from(script.len()) && output.guards_hold());
        }
    }
}

/// In version 1 its kind comes before its operands and its branches.
#[test]
fn the_order_of_refusals_in_each_version() {
    let writes = |first: &[Row]| {
        let rows = rows_of(first);
        [1, 2].map(|version| write(BASE, version, &rows, &mut []))
    };
    let beyond = [block(1), [0x0C, 64, 0, 0, 0]];
    assert_eq!(writes(&beyond), [refused(13, 1), refused(14, 1)]);
    let no_block = [block(1), CHOICE, READING];
    assert_eq!(writes(&no_block), [refused(13, 1), refused(18, 2)]);
    assert_eq!(writes(&[CHOICE]), [refused(13, 0), refused(18, 0)]);
    let left = [block(1), READING, CHOICE];
    assert_eq!(writes(&left), [refused(19, 2); 2]);
}

/// So many choices in each other, with a reading in the innermost branch.
fn nested(count: u32) -> Term {
    let one = terms::reading(3);
    (0..count).fold(one, |inner, _| {
        choice((0, 0), &[inner], &[terms::reading(4)])
    })
}

/// A choice and its branch take two levels.
#[test]
fn as_deep_as_the_levels() {
    for (limits, most) in [(BASE, 7), (Limits::LARGEST, 15), (set(40, 1, 0, 5), 1)] {
        let script = |term: Term| terms::block(&[term]);
        let deepest = script(nested(most));
        let answer = reads_under(limits, &bytes_in(2, &deepest));
        assert_eq!(answer, Ok(2 + 4 * most));
        assert_eq!(judges_first_under(limits, &deepest), Ok(2 + 4 * most));
        // One choice more: its branch is too deep, or the term in it. Each of
        // the first rows is a level further in.
        let beyond = script(nested(most + 1));
        let row = limits.levels;
        let place = bytes_in(2, &beyond[..row as usize]).len() as u32;
        let answer = reads_under(limits, &bytes_in(2, &beyond));
        assert_eq!(answer, refused(15, place), "{limits:?}");
        assert_eq!(judges_first_under(limits, &beyond), refused(15, row));
    }
}

/// As many choices as there can be terms for.
#[test]
fn full_of_choices() {
    let choices = |count: usize| {
        let each = choice((63, 8), &[terms::reading(3)], &[terms::reading(4)]);
        terms::block(&vec![each; count])
    };
    let rows = choices(102);
    assert_eq!(judges_first(&rows), Ok(511));
    assert_eq!(reads(&bytes_in(2, &rows)), Ok(511));
    let beyond = bytes_in(2, &choices(103));
    assert_eq!(reads(&beyond), refused(16, 7 + 102 * 11 + 3));
}
