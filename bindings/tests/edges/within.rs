//! The limits of other sets than the language's own (LANGUAGE 2.8), from bytes
//! and from rows: terms, levels and boxes at the limit and one beyond, and
//! their order (5.10, 5.12).

use crate::common::refused;
use crate::common::sets::{set, LEAST, NAMED};
use crate::common::terms;
use crate::given::*;
use roomscript::Limits;

/// The rows of a script of so many terms, all but the blocks readings. The
/// last row is a reading's.
fn of_terms(count: usize) -> Vec<Row> {
    let mut blocks = Vec::new();
    let mut left = count - 1;
    while blocks.len() + left > 255 {
        blocks.push(terms::block(&vec![terms::reading(3); 254]));
        left -= 255;
    }
    blocks.extend(vec![terms::reading(3); left]);
    terms::block(&blocks)
}

#[test]
fn terms_at_the_limit_and_one_beyond() {
    for count in [2, 3, 24, 200, 255, 256, 257, 511, 512, 513, 4095, 4096] {
        let rows = of_terms(count);
        assert_eq!(rows.len(), count);
        let bytes = terms::bytes_of(&rows);
        let limits = set(count as u32, 1, 0, 3);
        assert_eq!(reads_under(limits, &bytes), Ok(count as u32));
        assert_eq!(judges_first_under(limits, &rows), Ok(count as u32));
        // What is left over is not judged as a term.
        let left = [&bytes[..], &[0x02]].concat();
        assert_eq!(reads_under(limits, &left), refused(19, bytes.len() as u32));
        // One fewer: the last term, a reading, is one too many.
        let limits = set(count as u32 - 1, 1, 0, 3);
        let place = bytes.len() as u32 - 2;
        assert_eq!(reads_under(limits, &bytes), refused(16, place));
        let fewer = &rows[..count - 1];
        assert_eq!(
            judges_first_under(limits, fewer),
            refused(12, count as u32 - 1)
        );
    }
}

#[test]
fn one_term_too_many_of_the_largest_set() {
    let rows = of_terms(4097);
    let bytes = terms::bytes_of(&rows);
    let place = bytes.len() as u32 - 2;
    assert_eq!(reads_under(Limits::LARGEST, &bytes), refused(16, place));
    // 4,096 rows are used up.
    let answer = judges_first_under(Limits::LARGEST, &rows[..4096]);
    assert_eq!(answer, refused(12, 4096));
    // 13 and 12 come before 16.
    let mut other = bytes.clone();
    other[place as usize] = 0x0E;
    assert_eq!(reads_under(Limits::LARGEST, &other), refused(13, place));
    other.truncate(place as usize);
    assert_eq!(reads_under(Limits::LARGEST, &other), refused(12, place));
}

#[test]
fn levels_at_the_limit_and_one_beyond() {
    let wrappers: [(Row, &[u8]); 4] = [
        (block(1), &[0x0B, 1]),
        ([0x07, 0, 0, 0, 0], &[0x07]),
        ([0x08, 0, 0, 0, 0], &[0x08, 0]),
        ([0x09, 0, 8, 0, 0], &[0x09, 0, 8]),
    ];
    for levels in [2, 3, 5, 15, 16, 17, 31, 32] {
        let limits = set(40, 1, 40, levels);
        for (row, bytes) in wrappers {
            // The outermost block and the reading are levels too.
            let rows = |count| [&[block(1)], &vec![row; count][..], &[READING]].concat();
            let body = |count| [&[0x0B, 1], &bytes.repeat(count)[..], &[0x02, 3]].concat();
            let most = levels as usize - 2;
            assert_eq!(reads_body_under(limits, &body(most)), Ok(levels));
            assert_eq!(judges_first_under(limits, &rows(most)), Ok(levels));
            let place = 5 + 2 + bytes.len() * (most + 1);
            let beyond = reads_body_under(limits, &body(most + 1));
            assert_eq!(beyond, refused(15, place as u32));
            let beyond = judges_first_under(limits, &rows(most + 1));
            assert_eq!(beyond, refused(15, levels));
        }
    }
}

#[test]
fn boxes_at_the_limit_and_one_beyond() {
    for boxes in [0, 1, 2, 3, 63, 64, 65, 127, 128] {
        let limits = set(512, 1, boxes, 3);
        let rows = |count: u32| {
            let boxed = vec![[BOX, READING]; count as usize].concat();
            [&[block(count + 1)], &boxed[..], &[READING]].concat()
        };
        let most = rows(boxes);
        assert_eq!(
            judges_first_under(limits, &most),
            Ok(most.len() as u32),
            "{boxes}"
        );
        let bytes = terms::bytes_of(&most);
        assert_eq!(reads_under(limits, &bytes), Ok(most.len() as u32));
        let beyond = rows(boxes + 1);
        let row = 1 + 2 * boxes;
        assert_eq!(judges_first_under(limits, &beyond), refused(17, row));
        let bytes = terms::bytes_of(&beyond);
        let place = 5 + 2 + 3 * boxes;
        assert_eq!(reads_under(limits, &bytes), refused(17, place));
    }
}

#[test]
fn without_boxes_any_box_is_17() {
    let limits = set(9, 9, 0, 9);
    // As a term of a block, in a let, in an assign, in an inner block.
    let around: [(&[Row], &[u8]); 4] = [
        (&[], &[]),
        (&[[0x08, 8, 0, 0, 0]], &[0x08, 8]),
        (&[[0x09, 8, 8, 0, 0]], &[0x09, 8, 8]),
        (&[block(1)], &[0x0B, 1]),
    ];
    for (rows, bytes) in around {
        let rows = [&[block(1)], rows, &[BOX, READING]].concat();
        let row = rows.len() as u32 - 2;
        assert_eq!(judges_first_under(limits, &rows), refused(17, row));
        let body = [&[0x0B, 1], bytes, &[0x07, 0x02, 3]].concat();
        let place = 5 + body.len() as u32 - 3;
        assert_eq!(reads_body_under(limits, &body), refused(17, place));
        // Before the inner term is looked at.
        let ended = &body[..body.len() - 2];
        assert_eq!(reads_body_under(limits, ended), refused(17, place));
    }
    // As the outermost term it is 18.
    assert_eq!(reads_body_under(limits, &[0x07]), refused(18, 5));
    assert_eq!(judges_first_under(limits, &[BOX]), refused(18, 0));
    assert_eq!(judges_first_under(limits, &[block(1), READING]), Ok(2));
}

/// One term, and one level: the outermost block is both, and its inner term is
/// beyond.
#[test]
fn sets_without_room_for_a_script() {
    let body = [0x0B, 1, 0x02, 3];
    let rows = [block(1), READING];
    for (limits, number) in [(LEAST, 16), (set(1, 1, 0, 2), 16), (set(2, 1, 0, 1), 15)] {
        assert_eq!(reads_body_under(limits, &body), refused(number, 7));
        assert_eq!(reads_body_under(limits, &body[..2]), refused(12, 7));
        assert_eq!(reads_body_under(limits, &[0x0B, 0]), refused(14, 6));
        assert_eq!(reads_body_under(limits, &[0x0B]), refused(12, 6));
    }
    assert_eq!(judges_first_under(LEAST, &rows[..1]), refused(12, 1));
    assert_eq!(judges_first_under(LEAST, &[block(0)]), refused(14, 0));
    assert_eq!(judges_first_under(LEAST, &[BOX]), refused(18, 0));
    let flat = set(2, 1, 0, 1);
    assert_eq!(judges_first_under(flat, &rows), refused(15, 1));
    assert_eq!(judges_first_under(flat, &rows[..1]), refused(12, 1));
    // The smallest set that takes a script, and the smallest with a box.
    let smallest = set(2, 1, 0, 2);
    assert_eq!(reads_body_under(smallest, &body), Ok(2));
    assert_eq!(judges_first_under(smallest, &rows), Ok(2));
    let boxed = [block(1), BOX, READING];
    assert_eq!(judges_first_under(set(3, 1, 1, 3), &boxed), Ok(3));
}

#[test]
fn terms_then_levels_then_boxes() {
    // { { box reading } }: the box is the third term, on the third level.
    let body = [0x0B, 1, 0x0B, 1, 0x07, 0x02, 3];
    let rows = [block(1), block(1), BOX, READING];
    let reads = |limits| reads_body_under(limits, &body);
    assert_eq!(reads(set(2, 1, 0, 2)), refused(16, 9));
    assert_eq!(reads(set(2, 1, 1, 4)), refused(16, 9));
    assert_eq!(reads(set(4, 1, 0, 2)), refused(15, 9));
    assert_eq!(reads(set(4, 1, 0, 4)), refused(17, 9));
    assert_eq!(reads(set(3, 1, 1, 3)), refused(16, 10));
    assert_eq!(reads(set(4, 1, 1, 3)), refused(15, 10));
    assert_eq!(reads(set(4, 1, 1, 4)), Ok(4));
    let judges = |limits: Limits| {
        let used = rows.len().min(limits.terms as usize);
        judges_first_under(limits, &rows[..used])
    };
    assert_eq!(judges(set(2, 1, 0, 2)), refused(12, 2));
    assert_eq!(judges(set(4, 1, 0, 2)), refused(15, 2));
    assert_eq!(judges(set(4, 1, 0, 4)), refused(17, 2));
    assert_eq!(judges(set(3, 1, 1, 3)), refused(12, 3));
    assert_eq!(judges(set(4, 1, 1, 3)), refused(15, 3));
    assert_eq!(judges(set(4, 1, 1, 4)), Ok(4));
}

#[test]
fn rows_after_the_end() {
    let whole = [block(1), READING];
    for limits in [set(3, 1, 0, 2), set(200, 1, 0, 2), Limits::LARGEST] {
        let last = limits.terms - 1;
        for row in [2, last / 2 + 1, last] {
            let mut rows = rows_under(limits, &whole);
            rows[5 * row as usize + 4] = 1 << 31;
            assert_eq!(judges_under(limits, &rows), refused(19, row));
        }
    }
}

/// No script is as long as 32,768 bytes, nor over 20,485.
#[test]
fn bytes_32768_under_each_set() {
    for limits in NAMED {
        let mut bytes = E1.to_vec();
        bytes.resize(32_768, 0);
        let due = match limits {
            LEAST => refused(16, 7),
            _ => refused(19, 25),
        };
        assert_eq!(reads_under(limits, &bytes), due);
        bytes.push(0);
        assert_eq!(reads_under(limits, &bytes), refused(1, 0));
    }
}

/// Of 4,096 terms at least 17 are blocks: 16 have room for 4,081 terms, the
/// outermost one among them. The others are numbers of 5 bytes.
#[test]
fn the_longest_accepted_script() {
    let numbers = |count: usize| terms::block(&vec![terms::number(0x89AB_CDEFu32 as i32); count]);
    let mut blocks = vec![numbers(255); 15];
    blocks.push(numbers(254));
    let mut bytes = terms::script_of(&blocks);
    assert_eq!(bytes.len(), 5 + 2 * 17 + 5 * 4079);
    assert_eq!(reads_under(Limits::LARGEST, &bytes), Ok(4096));
    for length in [20_435, 20_485, 20_486, 32_768] {
        bytes.resize(length, 0x0B);
        assert_eq!(reads_under(Limits::LARGEST, &bytes), refused(19, 20_434));
    }
    bytes.push(0x0B);
    assert_eq!(reads_under(Limits::LARGEST, &bytes), refused(1, 0));
}
