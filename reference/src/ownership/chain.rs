//! The link kinds of a type (LANGUAGE 3.2), packed into 16 bits: two bits per
//! link, the first link lowest, 0 after the last link. Two types have equal
//! link kinds exactly if the packed forms are equal.

/// What one link of a type is.
#[derive(Clone, Copy, Debug, PartialEq, Eq)]
#[repr(u16)]
pub(crate) enum Link {
    Box = 1,
    Shared = 2,
    Exclusive = 3,
}

/// The most links of a type.
const MAX_LINKS: u32 = 8;

/// In each pair the high bit, which is set for both borrow links only.
const HIGH: u16 = 0xAAAA;

#[derive(Clone, Copy, Debug, PartialEq, Eq)]
pub(crate) struct Chain(u16);

impl Chain {
    /// The type without links.
    pub(crate) const NUMBER: Chain = Chain(0);

    #[inline]
    pub(crate) fn is_number(self) -> bool {
        self.0 == 0
    }

    #[inline]
    pub(crate) fn links(self) -> u32 {
        (17 - self.0.leading_zeros()) / 2
    }

    /// The type with one more link in front, if that is allowed.
    #[inline]
    pub(crate) fn behind(self, link: Link) -> Option<Chain> {
        (self.links() < MAX_LINKS).then_some(Chain(self.0 << 2 | link as u16))
    }

    /// The type after following so many links.
    #[inline]
    pub(crate) fn after(self, follows: u8) -> Chain {
        Chain((self.0 as u32 >> (2 * follows as u32)) as u16)
    }

    /// Only the first so many links, those that a place passes.
    #[inline]
    fn passed(self, follows: u8) -> u16 {
        (self.0 as u32 & ((1 << (2 * follows as u32)) - 1)) as u16
    }

    #[inline]
    pub(crate) fn passes_borrow(self, follows: u8) -> bool {
        self.passed(follows) & HIGH != 0
    }

    /// Of the shared links that a place passes, the high bits.
    #[inline]
    fn shared_passed(self, follows: u8) -> u16 {
        let passed = self.passed(follows);
        // A shared link is a pair with its high bit set and its low bit not.
        passed & HIGH & !(passed << 1)
    }

    #[inline]
    pub(crate) fn passes_shared(self, follows: u8) -> bool {
        self.shared_passed(follows) != 0
    }

    /// The number of the last shared link that a place passes, if it passes
    /// one.
    #[inline]
    pub(crate) fn last_shared(self, follows: u8) -> Option<u8> {
        let shared = self.shared_passed(follows);
        (shared != 0).then(|| ((15 - shared.leading_zeros()) / 2) as u8)
    }

    #[inline]
    pub(crate) fn starts_shared(self) -> bool {
        self.0 & 3 == Link::Shared as u16
    }

    #[inline]
    pub(crate) fn has_borrow(self) -> bool {
        self.0 & HIGH != 0
    }

    /// The number of the first borrow link, if there is one.
    #[inline]
    pub(crate) fn first_borrow(self) -> Option<u8> {
        let borrows = self.0 & HIGH;
        (borrows != 0).then(|| (borrows.trailing_zeros() / 2) as u8)
    }

    /// Whether the first borrow link, if there is one, is exclusive.
    #[inline]
    pub(crate) fn borrows_exclusively(self) -> bool {
        match self.first_borrow() {
            Some(link) => self.0 >> (2 * link) & 3 == Link::Exclusive as u16,
            None => false,
        }
    }
}

#[cfg(test)]
mod tests {
    use super::*;

    fn chain(links: &[Link]) -> Chain {
        let number = Some(Chain::NUMBER);
        links
            .iter()
            .rev()
            .fold(number, |chain, link| chain?.behind(*link))
            .expect("at most 8 links")
    }

    #[test]
    fn questions_about_every_chain_of_up_to_five_links() {
        let kinds = [Link::Box, Link::Shared, Link::Exclusive];
        let mut all: Vec<Vec<Link>> = vec![vec![]];
        for from in 0.. {
            let Some(links) = all.get(from).cloned() else {
                break;
            };
            let packed = chain(&links);
            assert_eq!(packed.links() as usize, links.len());
            assert_eq!(packed.is_number(), links.is_empty());
            assert_eq!(packed.starts_shared(), links.first() == Some(&Link::Shared));
            let borrow = links.iter().position(|link| *link != Link::Box);
            assert_eq!(packed.first_borrow(), borrow.map(|link| link as u8));
            assert_eq!(packed.has_borrow(), borrow.is_some());
            let exclusive = borrow.is_some_and(|link| links[link] == Link::Exclusive);
            assert_eq!(packed.borrows_exclusively(), exclusive);
            for follows in 0..=links.len() {
                let (passed, rest) = links.split_at(follows);
                let follows = follows as u8;
                assert_eq!(packed.after(follows), chain(rest));
                let borrow = passed.iter().any(|link| *link != Link::Box);
                assert_eq!(packed.passes_borrow(follows), borrow);
                let shared = passed.contains(&Link::Shared);
                assert_eq!(packed.passes_shared(follows), shared);
                let last = passed.iter().rposition(|link| *link == Link::Shared);
                assert_eq!(packed.last_shared(follows), last.map(|link| link as u8));
            }
            if links.len() < 5 {
                all.extend(kinds.map(|kind| [&links[..], &[kind]].concat()));
            }
        }
        assert_eq!(all.len(), 1 + 3 + 9 + 27 + 81 + 243);
    }

    #[test]
    fn eight_links_are_the_most() {
        for link in [Link::Box, Link::Shared, Link::Exclusive] {
            let full = chain(&[link; 8]);
            assert_eq!(full.links(), 8);
            assert_eq!(full.after(8), Chain::NUMBER);
            assert_eq!(full.passes_borrow(8), link != Link::Box);
            let last = (link == Link::Shared).then_some(7);
            assert_eq!(full.last_shared(8), last);
            assert_eq!(full.behind(Link::Box), None);
        }
    }
}
