//! Where places lead (LANGUAGE 3.13 to 3.15). Beyond a borrow link each place
//! that it may stand for is followed. A place met again adds nothing, so that
//! following ends also where borrows lead round in a circle, which joining two
//! blocks can bring about.

use super::environment::{Environment, Place, NOTHING};
use super::roots::Roots;

impl<const VARIABLES: usize> Environment<'_, VARIABLES> {
    /// The variables of which one finally owns what is at a place with a long
    /// enough chain. Nothing if something is moved away on the own path of a
    /// place that is met.
    #[inline]
    pub(crate) fn locate(&self, place: Place) -> Option<Roots> {
        // All places met lead to the same type, so each root is met with as
        // many follows as leave the links of that type.
        let links = self.chain(place.root).after(place.follows).links();
        let mut met = Roots::one(place.root);
        let mut waiting = met;
        let mut owners = Roots::NONE;
        while let Some(root) = waiting.next() {
            let variable = self.variable(root);
            let follows = (variable.chain.links() - links) as u8;
            let condition = variable.condition();
            if variable.chain.passes_borrow(follows) {
                // The first borrow link is moved away with whatever is.
                if condition.moved != NOTHING {
                    return None;
                }
                let unmet = condition.borrowed.without(met);
                met = met.with(unmet);
                waiting = waiting.with(unmet);
            } else {
                if condition.moved < follows {
                    return None;
                }
                owners = owners.with(Roots::one(root));
            }
        }
        Some(owners)
    }

    /// Whether nothing is moved away of a variable, nor of what it borrows, to
    /// the ends of all chains that are followed.
    #[inline]
    pub(crate) fn is_whole(&self, root: u8) -> bool {
        let mut met = Roots::one(root);
        let mut waiting = met;
        while let Some(root) = waiting.next() {
            let condition = self.variable(root).condition();
            if condition.moved != NOTHING {
                return false;
            }
            let unmet = condition.borrowed.without(met);
            met = met.with(unmet);
            waiting = waiting.with(unmet);
        }
        true
    }
}
