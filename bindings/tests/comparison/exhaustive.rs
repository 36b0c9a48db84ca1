//! All small scripts over a small alphabet, checked and run by both programs.

use crate::alphabet::{sequences, Alphabet};
use crate::common::case::{Case, Input};
use crate::common::terms::*;
use crate::layers::{Layers, Room, FAULTS};
use roomscript::Limits;

const LIMITS: Limits = Limits::BASE;

const READINGS: [i32; 8] = [1, 2, 3, 4, 5, 6, 7, 8];

/// Scripts that begin with the given terms, and then have every sequence of
/// at most so many terms in all. Answers how many there are.
fn compare(opening: &[Term], alphabet: &Alphabet, most: usize, layers: &mut Layers) -> u64 {
    let sizes = alphabet.terms(most);
    let mut rows = vec![0; LIMITS.row_numbers()];
    let mut number = 0;
    let mut first = block(opening);
    for size in 1..=most {
        let beside = opening.len() as u32;
        sequences(&sizes, size, beside, &mut first, &mut |beside, terms| {
            let used = terms.as_flattened();
            rows[..used.len()].copy_from_slice(used);
            rows[used.len()..][..5 * most].fill(0);
            rows[1] = beside;
            let case = Case {
                seed: None,
                number,
                limits: LIMITS,
                input: Input::Run(&rows, &READINGS),
            };
            let room = Room {
                length: LIMITS.store_numbers(),
                junk: number as u32,
            };
            layers.check_and_run(&case, &rows, &READINGS, room);
            number += 1;
        });
    }
    number
}

/// Compares every script of each opening, and answers how many there are.
fn compare_all(
    openings: &[Vec<Term>],
    alphabet: &Alphabet,
    most: usize,
    layers: &mut Layers,
) -> u64 {
    let each = |opening: &Vec<Term>| compare(opening, alphabet, most, layers);
    openings.iter().map(each).sum()
}

#[test]
fn all_scripts_of_up_to_five_terms() {
    let places = [(0, 0), (0, 1), (1, 0), (1, 1)];
    let alphabet = Alphabet::new(&places, &[0, 1]);
    let mut layers = Layers::new("up to five terms");
    // The outermost block is one of the five.
    let scripts = compare(&[], &alphabet, 4, &mut layers);
    assert_eq!(scripts, 411_103);
    let checked = [0, 30, 31, 32, 33, 37, 39, 40, 41, 43];
    layers.checked.report_all(&checked);
    layers.ran.report_all(&checked);
    layers.ran_unchecked.report_all(&[0, 60, 61, 62]);
}

// Most of those have nothing in scope, and five terms are too few for what a
// borrow bars. So these have one variable, or two, before the terms that vary.

#[test]
fn all_scripts_with_one_variable_and_up_to_four_terms_more() {
    let places = [(0, 0), (0, 1), (1, 0), (1, 1)];
    let alphabet = Alphabet::new(&places, &[1]);
    let mut layers = Layers::new("four terms more");
    let openings = [vec![let_(0, number(1))], vec![let_(0, boxed(number(1)))]];
    let scripts = compare_all(&openings, &alphabet, 4, &mut layers);
    assert_eq!(scripts, 737_922);
    let checked = [0, 30, 31, 32, 33, 34, 35, 36, 37, 38, 39, 40, 41, 43];
    layers.checked.report_all(&checked);
    layers.ran.report_all(&checked);
    layers.ran_unchecked.report_all(&FAULTS);
}

/// Two variables, one of which mostly borrows the other.
fn openings() -> Vec<Vec<Term>> {
    let one = || let_(0, number(1));
    let boxed_one = || let_(0, boxed(number(1)));
    vec![
        vec![one(), let_(1, number(2))],
        vec![one(), let_(1, shared((0, 0)))],
        vec![one(), let_(1, exclusive((0, 0)))],
        vec![one(), let_(1, boxed(shared((0, 0))))],
        vec![one(), let_(1, boxed(exclusive((0, 0))))],
        vec![boxed_one(), let_(1, boxed(number(2)))],
        vec![boxed_one(), let_(1, mov((0, 0)))],
        vec![boxed_one(), let_(1, mov((0, 1)))],
        vec![boxed_one(), let_(1, shared((0, 0)))],
        vec![boxed_one(), let_(1, shared((0, 1)))],
        vec![boxed_one(), let_(1, exclusive((0, 0)))],
        vec![boxed_one(), let_(1, exclusive((0, 1)))],
    ]
}

#[test]
fn all_scripts_with_two_variables_and_up_to_three_terms_more() {
    let places = [(0, 0), (0, 1), (0, 2), (1, 0), (1, 1), (1, 2)];
    let alphabet = Alphabet::new(&places, &[2]);
    let mut layers = Layers::new("three terms more");
    let scripts = compare_all(&openings(), &alphabet, 3, &mut layers);
    assert_eq!(scripts, 440_640);
    let checked = [0, 30, 32, 33, 34, 35, 36, 37, 38, 39, 40, 41, 43];
    layers.checked.report_all(&checked);
    layers.ran.report_all(&checked);
    layers.ran_unchecked.report_all(&FAULTS);
}
