//! Which variables are in use, by the words of the rule: the terms listed in
//! the order in which they finish, and the least set that has what it must.

use super::Judge;
use std::collections::BTreeSet;

/// Until when variables are in use: by the rule, or as it could be misread.
#[derive(Clone, Copy, Debug, PartialEq, Eq)]
pub enum Using {
    Rule,
    /// As long as they are in scope, which was the rule before.
    Scope,
    /// Only those that are named, whoever holds a borrow of them.
    NamedOnly,
    /// Those that are named and what these hold, and nothing beyond.
    OneHolder,
    /// Two that only hold each other keep each other in use.
    Circles,
    /// An assign finishes before its right side, and a choice before its
    /// blocks.
    RowOrder,
    /// What the term that is judged names itself does not count.
    OthersOnly,
    /// A let does not name its variable.
    LetsNameNothing,
}

/// A term and the variables that it names.
type Named = (usize, Vec<u32>);

/// Lists the term at `at`, which is moved past it, and all inside it, in the
/// order in which they finish.
fn list(using: Using, rows: &[&[u32]], at: &mut usize, order: &mut Vec<Named>) {
    let term = *at;
    let row = rows[term];
    *at += 1;
    let (names, inner) = match row[0] {
        3..=6 => (vec![row[1]], 0),
        7 => (vec![], 1),
        8 if using == Using::LetsNameNothing => (vec![], 1),
        8 | 9 => (vec![row[1]], 1),
        10 | 13 => (vec![row[1], row[3]], 0),
        11 => (vec![], row[1]),
        12 => (vec![row[1]], 2),
        _ => (vec![], 0),
    };
    let place = order.len();
    (0..inner).for_each(|_| list(using, rows, at, order));
    match using {
        Using::RowOrder => order.insert(place, (term, names)),
        _ => order.push((term, names)),
    }
}

pub fn finishing_order(using: Using, rows: &[&[u32]]) -> Vec<Named> {
    let mut order = Vec::new();
    list(using, rows, &mut 0, &mut order);
    order
}

impl Judge<'_> {
    /// The variables that a term which has not finished names.
    fn named(&self, judged: usize) -> BTreeSet<u32> {
        let others_only = self.using == Using::OthersOnly;
        let unfinished = self.order.iter().filter(|(term, _)| match self.using {
            // All before the judged one in this order count as finished.
            Using::RowOrder => *term >= judged,
            _ => !self.finished.contains(term),
        });
        let counted = unfinished.filter(|(term, _)| !others_only || *term != judged);
        counted.flat_map(|(_, names)| names.clone()).collect()
    }

    /// Whether a variable holds a borrow of a place with another's root.
    fn holds(&self, holder: u32, root: u32) -> bool {
        let holder = self.find(holder);
        holder.is_some_and(|holder| holder.holds(root).is_some())
    }

    /// With those in scope that are held by one of a set.
    fn with_held(&self, set: &BTreeSet<u32>) -> BTreeSet<u32> {
        let scope = self.in_scope.iter().map(|variable| variable.number);
        let held = scope.filter(|root| set.iter().any(|holder| self.holds(*holder, *root)));
        held.chain(set.iter().copied()).collect()
    }

    /// The variables in use while a term is judged.
    pub fn in_use(&self, judged: usize) -> BTreeSet<u32> {
        let named = self.named(judged);
        let scope = self.in_scope.iter().map(|variable| variable.number);
        match self.using {
            Using::Scope => scope.collect(),
            Using::NamedOnly => named,
            Using::OneHolder => self.with_held(&named),
            Using::Circles => self.greatest(&named, scope.collect()),
            _ => self.least(named),
        }
    }

    fn least(&self, mut set: BTreeSet<u32>) -> BTreeSet<u32> {
        loop {
            let more = self.with_held(&set);
            if more == set {
                return set;
            }
            set = more;
        }
    }

    /// Leaves out those that are neither named nor held by one in the set, until
    /// there is none.
    fn greatest(&self, named: &BTreeSet<u32>, mut set: BTreeSet<u32>) -> BTreeSet<u32> {
        loop {
            let mut fewer = set.clone();
            fewer.retain(|root| {
                named.contains(root) || set.iter().any(|holder| self.holds(*holder, *root))
            });
            if fewer == set {
                return set;
            }
            set = fewer;
        }
    }
}
