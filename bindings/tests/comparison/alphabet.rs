//! Every sequence of terms of a given size over a small alphabet.

use crate::common::terms::{Place, Row, Term};

/// What terms are made of. Blocks have one or two terms.
pub struct Alphabet {
    /// Terms without inner terms.
    pub leaves: Vec<Row>,
    /// First rows of terms with one inner term, blocks of one among them.
    pub around: Vec<Row>,
}

impl Alphabet {
    /// Numbers, one below, one sum, and every use of these places; boxes, lets
    /// of these variables, assigns to the places, and blocks.
    pub fn new(places: &[Place], lets: &[u32]) -> Self {
        let mut leaves = vec![[0x01, 7, 0, 0, 0], [0x0A, 0, 0, 1, 0], [0x0D, 0, 0, 1, 0]];
        let mut around = vec![[0x07, 0, 0, 0, 0], [0x0B, 1, 0, 0, 0]];
        for (variable, follows) in places {
            leaves.extend((0x03..=0x06).map(|kind| [kind, *variable, *follows, 0, 0]));
            around.push([0x09, *variable, *follows, 0, 0]);
        }
        around.extend(lets.iter().map(|variable| [0x08, *variable, 0, 0, 0]));
        Alphabet { leaves, around }
    }

    /// All terms by their size, up to the largest size given.
    pub fn terms(&self, largest: usize) -> Vec<Vec<Term>> {
        let mut sizes: Vec<Vec<Term>> = vec![Vec::new()];
        for size in 1..=largest {
            let terms = match size {
                1 => self.leaves.iter().map(|row| vec![*row]).collect(),
                _ => self.with_inner(&sizes),
            };
            sizes.push(terms);
        }
        sizes
    }

    /// All terms of the next size, from those of the sizes before.
    fn with_inner(&self, sizes: &[Vec<Term>]) -> Vec<Term> {
        let inner = sizes.len() - 1;
        let mut terms = Vec::new();
        for first in &self.around {
            for term in &sizes[inner] {
                terms.push([&[*first], &term[..]].concat());
            }
        }
        for size in 1..inner {
            for first in &sizes[size] {
                for second in &sizes[inner - size] {
                    terms.push([&[[0x0B, 2, 0, 0, 0]], &first[..], second].concat());
                }
            }
        }
        terms
    }
}

/// Shows every sequence of terms with so many terms in all, one after the
/// other, behind the rows that are there already: how many stand side by side,
/// and the rows.
pub fn sequences(
    sizes: &[Vec<Term>],
    left: usize,
    beside: u32,
    rows: &mut Vec<Row>,
    show: &mut dyn FnMut(u32, &[Row]),
) {
    if left == 0 {
        return show(beside, rows);
    }
    for size in 1..=left {
        for term in &sizes[size] {
            let before = rows.len();
            rows.extend_from_slice(term);
            sequences(sizes, left - size, beside + 1, rows, show);
            rows.truncate(before);
        }
    }
}
