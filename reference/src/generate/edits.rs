//! Edits of a script's terms after which they are still of the right form.

use super::operands;
use crate::form::*;
use crate::limits::Limits;
use crate::random::Random;

/// Makes one edit, with the kinds of a version. Where the chosen edit is not
/// possible nothing changes.
pub(super) fn edit(random: &mut Random, limits: Limits, version: u32, terms: &mut Vec<Row>) {
    let variables = limits.variables;
    let at = random.index(terms.len());
    match random.below(18) {
        0..=5 => change_operand(random, variables, terms, at),
        6..=11 => change_kind(random, version, &mut terms[at..]),
        12 => replace_leaf(random, (variables, version), &mut terms[at]),
        13 => remove_statement(random, terms),
        14 => repeat_statement(random, limits, terms),
        15 | 16 => swap_branches(terms, at),
        _ => swap_statements(random, terms),
    }
}

fn has_place(kind: u32) -> bool {
    matches!(kind, COPY..=EXCLUSIVE | ASSIGN | BELOW | CHOICE | SUM)
}

/// Another variable, mostly one that the script uses, or another number of
/// follows.
fn change_operand(random: &mut Random, variables: u32, terms: &mut [Row], at: usize) {
    // A term not far before, so that its variable is likely in scope.
    let other = terms[at - random.index(at.min(12) + 1)];
    let used = matches!(other[0], LET) || has_place(other[0]);
    let variable = if used && random.percent(90) {
        other[1]
    } else {
        operands::variable(random, variables)
    };
    let row = &mut terms[at];
    let first = if matches!(row[0], BELOW | SUM) {
        random.pick(&[1, 3])
    } else {
        1
    };
    match row[0] {
        LET => row[1] = variable,
        NUMBER => row[1] = operands::number(random),
        READING => row[1] = random.below(MAX_READING + 1),
        kind if !has_place(kind) => (),
        _ if random.percent(50) => row[first] = variable,
        _ => {
            let follows = &mut row[first + 1];
            let change = random.pick(&[1, 1, u32::MAX, 2]);
            *follows = follows.wrapping_add(change).min(MAX_FOLLOWS);
        }
    }
}

/// Another use of the same place or places, for the first term that has any
/// but does not write there, nor chooses by it.
fn change_kind(random: &mut Random, version: u32, terms: &mut [Row]) {
    let uses_place = |row: &&mut Row| has_place(row[0]) && !matches!(row[0], ASSIGN | CHOICE);
    if let Some(row) = terms.iter_mut().find(uses_place) {
        row[0] = match row[0] {
            BELOW | SUM => operands::of_two_places(random, version),
            _ => random.between(COPY, EXCLUSIVE),
        };
    }
}

fn replace_leaf(random: &mut Random, (variables, version): (u32, u32), row: &mut Row) {
    if inner_terms(row) == 0 {
        *row = operands::leaf(random, variables, version);
    }
}

/// A block, and one of the terms directly in it.
fn statement(random: &mut Random, terms: &[Row]) -> Option<(usize, usize)> {
    let near = random.index(terms.len());
    let block = (0..=near).rev().find(|at| terms[*at][0] == BLOCK)?;
    let mut at = block + 1;
    for _ in 0..random.below(terms[block][1]) {
        at = end_of(terms, at);
    }
    Some((block, at))
}

fn remove_statement(random: &mut Random, terms: &mut Vec<Row>) {
    let Some((block, at)) = statement(random, terms) else {
        return;
    };
    if terms[block][1] > 1 {
        terms[block][1] -= 1;
        terms.drain(at..end_of(terms, at));
    }
}

/// Writes a statement a second time, directly after itself.
fn repeat_statement(random: &mut Random, limits: Limits, terms: &mut Vec<Row>) {
    let Some((block, at)) = statement(random, terms) else {
        return;
    };
    let end = end_of(terms, at);
    let boxes = terms
        .iter()
        .chain(&terms[at..end])
        .filter(|row| row[0] == BOX);
    let fits =
        terms.len() + (end - at) <= limits.terms as usize && boxes.count() <= limits.boxes as usize;
    if fits && terms[block][1] < MAX_COUNT {
        terms[block][1] += 1;
        terms.extend_from_within(at..end);
        let length = end - at;
        terms[end..].rotate_right(length);
    }
}

/// Exchanges a statement with the one after it.
fn swap_statements(random: &mut Random, terms: &mut [Row]) {
    let Some((block, at)) = statement(random, terms) else {
        return;
    };
    let end = end_of(terms, at);
    if end < end_of(terms, block) {
        let next = end_of(terms, end);
        terms[at..next].rotate_left(end - at);
    }
}

/// Exchanges the two blocks of the nearest choice before `at`, if there is one.
fn swap_branches(terms: &mut [Row], at: usize) {
    let Some(choice) = (0..=at).rev().find(|at| terms[*at][0] == CHOICE) else {
        return;
    };
    let second = end_of(terms, choice + 1);
    let end = end_of(terms, second);
    terms[choice + 1..end].rotate_left(second - choice - 1);
}
