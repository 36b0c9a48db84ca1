//! What shared borrows are recorded against (LANGUAGE 3.21).

use super::state::Link::Shared;
use super::state::{Place, Places};
use super::Judge;

/// What a shared borrow is recorded against: by the rule, or as it could be
/// misread.
#[derive(Clone, Copy, Debug, PartialEq, Eq)]
pub enum Recording {
    /// What the last shared link passed borrows, with the follows that remain.
    Rule,
    /// The place that is named, as exclusive borrows are.
    Named,
    /// What the first shared link passed borrows, with the follows that remain.
    FirstLink,
    /// What the last shared link passed borrows, without any more follows.
    WithoutFollows,
}

impl Judge<'_> {
    /// The places that a shared borrow of a whole place is recorded against.
    /// Going along the named place link by link, a shared link puts what it
    /// borrows in the stead of all that was before it, and every other link is
    /// one more to follow.
    pub fn recorded(&mut self, named: Place) -> Places {
        let passed = self.passed(named);
        let mut recorded = Places::from([(named.0, 0)]);
        let mut met = 0;
        for (at, link) in passed.iter().enumerate() {
            let counts = match self.recording {
                Recording::Named => false,
                Recording::FirstLink => met == 0,
                _ => true,
            };
            met += u32::from(*link == Shared);
            recorded = if *link == Shared && counts {
                let ends = self.follow((named.0, at)).expect("a whole place");
                let borrowed = ends.iter().map(|(root, _)| &self.variable(*root).borrowed);
                borrowed.flatten().copied().collect()
            } else {
                let forgotten = met > 0 && self.recording == Recording::WithoutFollows;
                let more = usize::from(!forgotten);
                let places = recorded.into_iter();
                places.map(|(root, at)| (root, at + more)).collect()
            };
        }
        self.seen.through_shared += u32::from(met > 0);
        self.seen.through_several += u32::from(met > 1);
        self.seen.follows_remain += u32::from(met > 0 && passed.last() != Some(&Shared));
        self.seen.recorded_several += u32::from(recorded.len() > 1);
        recorded
    }
}
