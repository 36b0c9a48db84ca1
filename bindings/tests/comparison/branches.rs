//! Rows of the right form, looked at by their choices.

use crate::common::terms::inner_terms;
use roomscript::FIELDS;
use std::ops::RangeInclusive;

const BOX: u32 = 0x07;
const CHOICE: u32 = 0x0C;

/// How many box terms a run that ends may come to, whichever branches it takes.
pub fn boxes(rows: &[u32]) -> RangeInclusive<u32> {
    let (fewest, most) = boxes_of(&mut rows.chunks(FIELDS));
    fewest..=most
}

/// The fewest and the most of the next term.
fn boxes_of<'a>(rows: &mut impl Iterator<Item = &'a [u32]>) -> (u32, u32) {
    let row = rows.next().expect("the row of a term");
    let own = u32::from(row[0] == BOX);
    let inner: Vec<(u32, u32)> = (0..inner_terms(row)).map(|_| boxes_of(rows)).collect();
    let fewest = inner.iter().map(|inner| inner.0);
    let most = inner.iter().map(|inner| inner.1);
    match row[0] {
        CHOICE => (fewest.min().unwrap_or(0), most.max().unwrap_or(0)),
        _ => (own + fewest.sum::<u32>(), own + most.sum::<u32>()),
    }
}

/// The rows with something else for each choice, given its row and its two
/// branches.
pub fn with_each(rows: &[u32], change: &dyn Fn(&[u32], [Vec<u32>; 2]) -> Vec<u32>) -> Vec<u32> {
    let mut changed = changed_term(&mut rows.chunks(FIELDS), change);
    changed.resize(rows.len(), 0);
    changed
}

fn changed_term<'a>(
    rows: &mut impl Iterator<Item = &'a [u32]>,
    change: &dyn Fn(&[u32], [Vec<u32>; 2]) -> Vec<u32>,
) -> Vec<u32> {
    let row = rows.next().expect("the row of a term");
    if row[0] == CHOICE {
        let first = changed_term(rows, change);
        return change(row, [first, changed_term(rows, change)]);
    }
    let mut changed = row.to_vec();
    for _ in 0..inner_terms(row) {
        changed.extend(changed_term(rows, change));
    }
    changed
}

/// The rows with the branches of each choice in the other order.
pub fn swapped(rows: &[u32]) -> Vec<u32> {
    with_each(rows, &|row, [first, second]| {
        [row, &second, &first].concat()
    })
}

/// The rows with the first branch, or the second, for each choice.
pub fn alone(rows: &[u32], taken: usize) -> Vec<u32> {
    with_each(rows, &|_, branches| branches[taken].clone())
}

/// How many choices of a script stand in each other.
pub fn nested(rows: &[u32]) -> u32 {
    nested_in(&mut rows.chunks(FIELDS))
}

fn nested_in<'a>(rows: &mut impl Iterator<Item = &'a [u32]>) -> u32 {
    let row = rows.next().expect("the row of a term");
    let inner = (0..inner_terms(row)).map(|_| nested_in(rows));
    let inner = inner.max().unwrap_or(0);
    inner + u32::from(row[0] == CHOICE)
}

/// Whether a choice stands directly in a term of a kind that has one inner
/// term: its row is then the next one.
pub fn directly_in(kind: u32, rows: &[u32]) -> bool {
    let mut kinds = rows.chunks(FIELDS).map(|row| row[0]);
    let mut before = kinds.next();
    kinds.any(|next| {
        let found = before == Some(kind) && next == CHOICE;
        before = Some(next);
        found
    })
}
