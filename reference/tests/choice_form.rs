//! The form of choices: bytes and rows, in which version, and the order of
//! refusals where a branch is no block.

mod common;

use common::*;
use reference::form::header;
use reference::{judge_rows, read, write, Limits, Refusal, NEWEST};

/// What reading a body in a version answers.
fn read_in(version: u32, body: &[u8]) -> Result<u32, Refusal> {
    let script = [&header(version)[..], body].concat();
    let mut rows = vec![7; ROWS_LEN];
    let answer = read(LIMITS, NEWEST, &script, &mut rows);
    if answer.is_err() {
        assert_eq!(rows, vec![0; ROWS_LEN]);
    }
    answer.map(|read| read.terms)
}

/// What judging these rows answers.
fn judged(first: &[[u32; 5]]) -> Result<u32, Refusal> {
    let mut rows = first.concat();
    rows.resize(ROWS_LEN, 0);
    judge_rows(LIMITS, &rows)
}

const ONE: [u32; 5] = [1, 1, 0, 0, 0];
const CHOICE: [u32; 5] = [12, 0, 0, 0, 0];

fn a_block(count: u32) -> [u32; 5] {
    [11, count, 0, 0, 0]
}

#[test]
fn rows_and_bytes() {
    let terms = [
        let_(63, reading(0)),
        choice((63, 8), &[number(1), number(2)], &[number(3)]),
    ];
    let script = script_of(2, &terms);
    let rows = rows_of(&script);
    let due = [
        a_block(2),
        [8, 63, 0, 0, 0],
        [2, 0, 0, 0, 0],
        [12, 63, 8, 0, 0],
        a_block(2),
        ONE,
        [1, 2, 0, 0, 0],
        a_block(1),
        [1, 3, 0, 0, 0],
    ];
    assert_eq!(rows[..45], due.concat());
    assert_eq!(judged(&due), Ok(9));
    let mut output = vec![0xA5; script.len() + 1];
    let written = write(LIMITS, 2, &rows, &mut output);
    assert_eq!(written, Ok(script.len() as u32));
    assert_eq!(output[..script.len()], script);
    assert_eq!(output[script.len()], 0xA5);
    // In version 1 it is no kind.
    assert_eq!(read_in(1, &script[5..]), refused(13, 11));
    assert_eq!(write(LIMITS, 1, &rows, &mut output), refused(13, 3));
    assert_eq!(write(LIMITS, 1, &rows, &mut []), refused(13, 3));
    assert_eq!(output[..script.len()], script);
}

#[test]
fn operands() {
    let inner = |bytes: &[u8]| read_in(2, &[&[0x0B, 1, 0x0C], bytes].concat());
    assert_eq!(inner(&[]), refused(12, 8));
    assert_eq!(inner(&[63]), refused(12, 9));
    assert_eq!(inner(&[64]), refused(14, 8));
    assert_eq!(inner(&[64, 9]), refused(14, 8));
    assert_eq!(inner(&[63, 9]), refused(14, 9));
    assert_eq!(inner(&[63, 8]), refused(12, 10));
    let row = |row: [u32; 5]| judged(&[a_block(1), row, a_block(1), ONE, a_block(1), ONE]);
    assert_eq!(row([12, 63, 8, 0, 0]), Ok(6));
    assert_eq!(row([12, 64, 8, 0, 0]), refused(14, 1));
    assert_eq!(row([12, 63, 9, 0, 0]), refused(14, 1));
    assert_eq!(row([12, 63, 8, 1, 0]), refused(14, 1));
    assert_eq!(row([12, 63, 8, 0, 1]), refused(14, 1));
}

#[test]
fn as_the_outermost_term() {
    let terms = choice((0, 0), &[number(1)], &[number(1)]);
    assert_eq!(read_in(2, &terms), refused(18, 5));
    assert_eq!(read_in(2, &[0x0C]), refused(18, 5));
    assert_eq!(read_in(1, &[0x0C]), refused(13, 5));
    assert_eq!(judged(&[CHOICE]), refused(18, 0));
}

/// Every kind but the block, at the kind byte and at the row of the branch.
#[test]
fn a_branch_that_is_no_block() {
    let good = [0x0B, 1, 0x02, 0];
    let first = [0x0B, 2, 0x0C, 0, 0];
    for kind in (0..=0xFF).filter(|kind| *kind != 0x0B) {
        let known = (0x01..=0x0D).contains(&kind);
        let number = if known { 18 } else { 13 };
        // Operands and inner terms are not looked at.
        for more in [&[][..], &[0xFF; 9], &good] {
            let bytes = [&first[..], &[kind], more].concat();
            assert_eq!(read_in(2, &bytes), refused(number, 10));
            let bytes = [&first[..], &good, &[kind], more].concat();
            assert_eq!(read_in(2, &bytes), refused(number, 14));
        }
        let number = match kind {
            0 => 12,
            _ if known => 18,
            _ => 13,
        };
        for fields in [[0; 4], [9; 4]] {
            let [a, b, c, d] = fields;
            let row = [kind as u32, a, b, c, d];
            assert_eq!(judged(&[a_block(2), CHOICE, row]), refused(number, 2));
            let second = [a_block(2), CHOICE, a_block(1), ONE, row];
            assert_eq!(judged(&second), refused(number, 4));
        }
    }
    // Missing is 12.
    assert_eq!(read_in(2, &first), refused(12, 10));
    assert_eq!(read_in(2, &[&first[..], &good].concat()), refused(12, 14));
    assert_eq!(judged(&[a_block(1), CHOICE]), refused(12, 2));
    // After both any term may stand.
    let all = [&first[..], &good, &good, &[0x02, 0]].concat();
    assert_eq!(read_in(2, &all), Ok(7));
    let left = [&first[..], &good, &good, &good, &[0x02]].concat();
    assert_eq!(read_in(2, &left), refused(19, 22));
}

#[test]
fn only_the_branch_itself_must_be_a_block() {
    let inner = |term: Term| read_in(2, &block(&[term]));
    let some = || vec![number(1)];
    assert_eq!(
        inner(choice((0, 0), &[boxed(number(1))], &[let_(0, number(1))])),
        Ok(8)
    );
    let nested = choice((0, 0), &[choice((1, 0), &some(), &some())], &some());
    assert_eq!(inner(nested), Ok(10));
    for wrap in [boxed, |term| let_(0, term), |term| assign((0, 0), term)] {
        assert_eq!(inner(wrap(choice((0, 0), &some(), &some()))), Ok(7));
        // A wrapped block is none.
        let bytes = [vec![0x0C, 0, 0], wrap(block(&some())), block(&some())].concat();
        assert_eq!(inner(bytes), refused(18, 10));
    }
    let inside = [
        vec![0x0C, 0, 0],
        block(&some()),
        choice((0, 0), &some(), &some()),
    ]
    .concat();
    assert_eq!(inner(inside), refused(18, 17));
}

/// A block is still judged by 15, as by 16.
#[test]
fn no_block_comes_before_too_deep() {
    // The choice is on level 16.
    let deep = [[0x0B, 1].repeat(15), vec![0x0C, 0, 0]].concat();
    let at = 5 + deep.len() as u32;
    for (kind, number) in [(0x0B, 15), (0x02, 18), (0x07, 18), (0x0C, 18), (0x0E, 13)] {
        let bytes = [&deep[..], &[kind]].concat();
        assert_eq!(read_in(2, &bytes), refused(number, at));
        let rows = [
            vec![a_block(1); 15],
            vec![CHOICE, [kind as u32, 0, 0, 0, 0]],
        ]
        .concat();
        assert_eq!(judged(&rows), refused(number, 16));
    }
    assert_eq!(read_in(2, &deep), refused(12, at));
    // On level 15 there is room for the blocks, not for what is in them.
    let less = [
        [0x0B, 1].repeat(14),
        choice((0, 0), &[reading(0)], &[reading(0)]),
    ]
    .concat();
    assert_eq!(read_in(2, &less), refused(15, 5 + 28 + 5));
}

#[test]
fn no_block_comes_before_too_many_terms_and_boxes() {
    // The choice is term 512.
    let mut many = [vec![0x0B, 2], block(&vec![reading(0); 255])].concat();
    many.extend([vec![0x0B, 255], reading(0).repeat(253), vec![0x0C, 0, 0]].concat());
    let at = 5 + many.len() as u32;
    for (kind, number) in [(0x0B, 16), (0x02, 18), (0x07, 18), (0x0E, 13)] {
        let bytes = [&many[..], &[kind]].concat();
        assert_eq!(read_in(2, &bytes), refused(number, at));
    }
    // All boxes are taken.
    let boxes = [
        vec![0x0B, 65],
        boxed(reading(0)).repeat(64),
        vec![0x0C, 0, 0],
    ]
    .concat();
    let at = 5 + boxes.len() as u32;
    assert_eq!(
        read_in(2, &[&boxes[..], &[7, 2, 0]].concat()),
        refused(18, at)
    );
    let inside = [&boxes[..], &[0x0B, 1, 7]].concat();
    assert_eq!(read_in(2, &inside), refused(17, at + 2));
}

#[test]
fn under_other_sets() {
    let limits = Limits {
        terms: 9,
        variables: 1,
        boxes: 0,
        levels: 4,
    };
    let with = |first: Term| {
        let chosen = choice((0, 0), &[first], &[number(2)]);
        [let_(0, reading(0)), chosen]
    };
    for run in RUNS {
        let (answer, store) = run_over_junk(run, limits, &with(number(1)));
        assert_eq!(answer, ran(1, 0));
        assert_eq!(store, [0; 3]);
    }
    let mut rows = vec![0; limits.row_numbers()];
    let mut read_with = |first| read(limits, NEWEST, &script_of(2, &with(first)), &mut rows);
    // Level 5, a box, and term 10.
    assert_eq!(read_with(block(&[number(1)])), refused(15, 18));
    assert_eq!(read_with(boxed(number(1))), refused(17, 16));
    let many = block(&[number(1)]);
    let script = script_of(2, &[with(number(1)).concat(), many]);
    let script = [&script[..6], &[3], &script[7..]].concat();
    assert_eq!(read(limits, NEWEST, &script, &mut rows), refused(16, 30));
}
