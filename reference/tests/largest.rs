//! A script at all four limits of the largest set, and beyond each.

mod common;

use common::*;
use reference::{check, judge_rows, read, run, write, Limits, Refusal, NEWEST};

const LARGEST: Limits = Limits::LARGEST;

/// 128 variables, each with a box, a term on each level down to the last, and
/// blocks of readings, 4,096 terms in all and so many more.
fn full(last_variable: u8, boxes: usize, levels: usize, more: usize) -> Vec<Term> {
    let mut terms: Vec<Term> = (0..127).map(|v| let_(v, boxed(reading(v % 8)))).collect();
    terms.push(let_(last_variable, boxed(reading(3))));
    terms.extend(vec![boxed(reading(1)); boxes - 128]);
    terms.push([[0x0B, 1].repeat(levels - 2), reading(1)].concat());
    let used = 1 + 3 * 128 + 2 * (boxes - 128) + (levels - 1) + 1;
    let left = 4096 + more - used;
    terms.extend(vec![block(&vec![reading(2); 255]); left / 256]);
    terms.push(block(&vec![reading(4); left % 256 - 1]));
    terms.push(copy((127, 1)));
    terms
}

fn read_full(terms: &[Term]) -> (Result<u32, Refusal>, Vec<u32>) {
    let mut rows = vec![7; LARGEST.row_numbers()];
    let answer = read(LARGEST, NEWEST, &script(terms), &mut rows);
    (answer.map(|read| read.terms), rows)
}

#[test]
fn a_script_at_every_limit_is_accepted_and_run() {
    let terms = full(127, 128, 32, 0);
    let (answer, rows) = read_full(&terms);
    assert_eq!(answer, Ok(4096));
    assert_eq!(judge_rows(LARGEST, &rows), Ok(4096));
    assert_eq!(check(LARGEST, &rows), Ok(4096));
    let mut output = vec![0; 32_768];
    let length = write(LARGEST, 1, &rows, &mut output).expect("rows of a script");
    assert_eq!(output[..length as usize], script(&terms));
    let mut store = vec![9; LARGEST.store_numbers()];
    assert_eq!(run(LARGEST, &rows, &READINGS, &mut store), ran(-1, 128));
    let tidy = [[0; 3]; 128].into_iter().chain([[2, 0, 0]; 128]);
    assert_eq!(store, tidy.flatten().collect::<Vec<u32>>());
}

#[test]
fn beyond_each_limit_it_is_refused() {
    let number = |terms: &[Term]| {
        let (answer, rows) = read_full(terms);
        assert!(rows.iter().all(|field| *field == 0));
        answer.expect_err("beyond a limit").number
    };
    assert_eq!(number(&full(128, 128, 32, 0)), 14);
    assert_eq!(number(&full(127, 129, 32, 0)), 17);
    assert_eq!(number(&full(127, 128, 33, 0)), 15);
    assert_eq!(number(&full(127, 128, 32, 1)), 16);
}

#[test]
fn each_variable_is_one_of_its_own() {
    // Each holds the one before, so that only the last can be written.
    let mut terms = vec![let_(0, number(7))];
    terms.extend((1..128).map(|v| let_(v, boxed(mov((v - 1, 0))))).take(8));
    terms.extend((9..128).map(|v| let_(v, shared((8, 8)))));
    for variable in 9..128 {
        let moved = [&terms[..], &[mov((variable, 0)), copy((variable, 1))]].concat();
        let (_, rows) = read_full(&moved);
        let answer = check(LARGEST, &rows);
        assert_eq!(answer.map_err(|refusal| refusal.number), Err(33));
        // Any other one that is used again.
        let used = copy((9 + (variable - 8) % 119, 1));
        let written = [mov((variable, 0)), assign((8, 8), number(1)), used];
        let held = [&terms[..], &written].concat();
        let (_, rows) = read_full(&held);
        let answer = check(LARGEST, &rows);
        assert_eq!(answer.map_err(|refusal| refusal.number), Err(35));
    }
}
