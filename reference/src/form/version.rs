//! The versions of scripts: which there are, and the kinds that each has.

use super::kind::{BLOCK, CHOICE, SUM};

/// The newest version there is. The oldest is 1.
pub const NEWEST: u32 = 2;

/// Whether a reader that knows the versions up to `newest`, as far as there
/// are any, knows this one.
#[inline]
pub(super) fn is_known(newest: u32, version: u32) -> bool {
    (1..=newest.min(NEWEST)).contains(&version)
}

/// The kinds of a version, a bit for each.
#[derive(Clone, Copy)]
pub(super) struct Kinds(u32);

impl Kinds {
    /// The kinds of a version that there is: those up to the block, from
    /// version 2 on the choice and the sum as well.
    #[inline]
    pub(super) fn of(version: u32) -> Self {
        let first = (2 << BLOCK) - 2;
        let second = 1 << CHOICE | 1 << SUM;
        Kinds(if version < 2 { first } else { first | second })
    }

    #[inline(always)]
    pub(super) fn has(self, kind: u32) -> bool {
        kind < u32::BITS && self.0 >> kind & 1 == 1
    }
}

#[cfg(test)]
mod tests {
    use super::*;

    #[test]
    fn kinds_by_version() {
        for kind in (0..300).chain([0x1_000D, u32::MAX - 18, u32::MAX]) {
            let first = (1..=11).contains(&kind);
            assert_eq!(Kinds::of(1).has(kind), first, "{kind}");
            let second = [12, 13].contains(&kind);
            assert_eq!(Kinds::of(2).has(kind), first || second, "{kind}");
        }
    }

    #[test]
    fn versions_by_the_newest_known() {
        for version in [0, 1, 2, 3, 256, u32::MAX] {
            assert!(!is_known(0, version));
            assert_eq!(is_known(1, version), version == 1);
            for newest in [2, 3, 256, u32::MAX] {
                assert_eq!(is_known(newest, version), [1, 2].contains(&version));
            }
        }
    }
}
