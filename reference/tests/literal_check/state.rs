//! What the literal check knows of values and variables.

use std::collections::BTreeSet;

pub type Place = (u32, usize);
pub type Places = BTreeSet<Place>;

#[derive(Clone, Copy, Debug, PartialEq)]
pub enum Link {
    Box,
    Shared,
    Exclusive,
}
use Link::*;

#[derive(Clone, Debug)]
pub struct Value {
    pub chain: Vec<Link>,
    /// The places that the first borrow link may stand for.
    pub borrowed: Places,
}

#[derive(Clone)]
pub struct Variable {
    pub number: u32,
    pub chain: Vec<Link>,
    pub borrowed: Places,
    pub moved: Option<usize>,
    pub block: usize,
}

impl Variable {
    pub fn first_borrow(&self) -> Option<usize> {
        self.chain.iter().position(|link| *link != Box)
    }

    pub fn is_moved(&self, link: usize) -> bool {
        self.moved.is_some_and(|from| from <= link)
    }

    /// Whether it holds a borrow of a place with this root, and exclusively.
    pub fn holds(&self, root: u32) -> Option<Link> {
        let link = self.first_borrow()?;
        let borrows = self.borrowed.iter().any(|place| place.0 == root);
        (borrows && !self.is_moved(link)).then_some(self.chain[link])
    }

    /// What it is after either of two blocks.
    pub fn join(&mut self, other: &Variable) {
        self.moved = match (self.moved, other.moved) {
            (Some(one), Some(two)) => Some(one.min(two)),
            (one, two) => one.or(two),
        };
        self.borrowed.extend(&other.borrowed);
        let roots: BTreeSet<u32> = self.borrowed.iter().map(|place| place.0).collect();
        assert_eq!(roots.len(), self.borrowed.len(), "one place for each root");
    }
}
