//! Sets of variables, a bit for each.
//!
//! A borrow link may stand for several places after a choice. They are kept by
//! their roots alone, since all of them lead to values of one type: the chain
//! of a root is fixed by its let, so how many links it has before that type
//! says the follows.

use crate::limits::Limits;

#[derive(Clone, Copy, Debug, PartialEq, Eq)]
pub(crate) struct Roots(u128);

// There is a bit for each variable of every set of limits.
const _: () = assert!(Limits::LARGEST.variables <= u128::BITS);

impl Roots {
    pub(crate) const NONE: Roots = Roots(0);

    #[inline]
    pub(crate) fn one(root: u8) -> Roots {
        Roots(1 << root)
    }

    #[inline]
    pub(crate) fn with(self, other: Roots) -> Roots {
        Roots(self.0 | other.0)
    }

    #[inline]
    pub(crate) fn without(self, other: Roots) -> Roots {
        Roots(self.0 & !other.0)
    }

    #[inline]
    pub(crate) fn within(self, other: Roots) -> Roots {
        Roots(self.0 & other.0)
    }

    #[inline]
    pub(crate) fn contains(self, root: u8) -> bool {
        self.0 >> root & 1 != 0
    }

    /// The only one there is, if it is one.
    #[inline]
    pub(crate) fn single(self) -> Option<u8> {
        self.0
            .is_power_of_two()
            .then(|| self.0.trailing_zeros() as u8)
    }
}

/// From the lowest number on.
impl Iterator for Roots {
    type Item = u8;

    #[inline]
    fn next(&mut self) -> Option<u8> {
        let root = (self.0 != 0).then(|| self.0.trailing_zeros() as u8)?;
        self.0 &= self.0 - 1;
        Some(root)
    }
}

#[cfg(test)]
mod tests {
    use super::*;

    #[test]
    fn sets_of_variables() {
        let set = |roots: &[u8]| {
            roots
                .iter()
                .fold(Roots::NONE, |set, root| set.with(Roots::one(*root)))
        };
        for roots in [&[][..], &[0], &[127], &[0, 1, 63, 64, 126, 127]] {
            assert_eq!(set(roots).collect::<Vec<u8>>(), roots);
            let single = if roots.len() == 1 {
                Some(roots[0])
            } else {
                None
            };
            assert_eq!(set(roots).single(), single);
        }
        let (first, second) = (set(&[3, 64, 70]), set(&[64, 5]));
        assert_eq!(first.with(second), set(&[3, 5, 64, 70]));
        assert_eq!(first.without(second), set(&[3, 70]));
        assert_eq!(first.without(first), Roots::NONE);
        assert_eq!(first.within(second), set(&[64]));
        let found = (0..128).filter(|root| first.contains(*root));
        assert_eq!(found.collect::<Vec<u8>>(), [3, 64, 70]);
    }
}
