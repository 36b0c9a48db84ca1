//! Statements about borrows that end at their last use. The author gives
//! variables up, which are then named no more, and does with what they hold
//! borrows of what would be barred if they were used again.

use super::author::{row_at, Author, Written};
use super::choices::place_of;
use crate::form::*;
use crate::ownership::chain::Chain;
use crate::ownership::environment::Place;
use crate::ownership::roots::Roots;

/// The statements that begin a script about such borrows.
pub(super) const HOLDERS: u32 = 6;

/// A choice, a block of it, an assign in it and its right side.
pub(super) const BRANCH_LEVELS: u32 = 4;

impl Author<'_> {
    /// One of the first statements: a reading to choose by, two variables of
    /// one type, a reference to each, and one more behind one of these.
    fn holders(&mut self, index: u32, levels: u32) -> Option<()> {
        let scope = self.environment.variables_in_scope();
        let (last, before) = match scope {
            [.., before, last] if index > 2 => (*last, *before),
            [.., last] if index == 2 => (*last, *last),
            _ => return self.declare_as(levels, Self::reading),
        };
        let links = self.environment.chain(last).links();
        self.declare_as(levels, |author| match index {
            2 => author.number_in_boxes(None, levels - 1),
            3 => author.number_in_boxes(Some(links), levels - 1),
            // The variables of one type, one after the other.
            4 | 5 => author.reference_of(before),
            _ => author.reference_behind(last),
        })
    }

    /// The first statements, or in the stead of the last one a choice after
    /// which two may hold each other.
    pub(super) fn holders_or_round(&mut self, index: u32, levels: u32) -> Option<()> {
        match index == HOLDERS && self.random.percent(20) {
            true => self.lead_round(levels),
            false => self.holders(index, levels),
        }
    }

    /// A reference to a variable, exclusive more often than not.
    fn reference_of(&mut self, root: u8) -> Written {
        let kind = self.random.pick(&[EXCLUSIVE, EXCLUSIVE, SHARED]);
        self.at_place(kind, place_of(root))
    }

    /// A reference by way of another one: to it, or to what it borrows.
    fn reference_behind(&mut self, root: u8) -> Written {
        let kind = self.random.pick(&[EXCLUSIVE, EXCLUSIVE, SHARED]);
        let chain = self.environment.chain(root);
        let through = chain.first_borrow()? + 1;
        let follows = match self.random.percent(60) {
            true => through,
            false => 0,
        };
        self.at_place(kind, Place { root, follows })
    }

    /// A statement about such borrows.
    pub(super) fn ending_statement(&mut self, levels: u32) -> Option<()> {
        match self.random.below(16) {
            0..=4 => self.use_held(levels),
            5..=8 => self.one_more_holder(levels),
            9 => self.lead_round(levels),
            10 | 11 => self.used_in_one_block(levels),
            12 => self.used_on_the_right(levels),
            13 => self.bind_again(levels),
            14 => self.write_through(levels),
            _ => self.look_through(),
        }
    }

    /// A variable that may still be named, with holders of its own, each one
    /// equally likely.
    pub(super) fn held_variable(&mut self) -> Option<u8> {
        let mut found = None;
        let mut count = 0;
        for root in self.environment.variables_to_name() {
            if self.environment.holders(root) != Roots::NONE {
                count += 1;
                if self.random.below(count) == 0 {
                    found = Some(root);
                }
            }
        }
        found
    }

    /// Gives up all that keep the holders of a variable in use, unless it is
    /// one of them itself.
    fn give_up_keepers(&mut self, root: u8) -> Option<()> {
        let keepers = self.environment.keepers(root);
        for keeper in keepers {
            self.environment.give_up(keeper);
        }
        (!keepers.contains(root)).then_some(())
    }

    /// The holders of a variable are given up, and then it is used.
    fn use_held(&mut self, levels: u32) -> Option<()> {
        let root = self.held_variable()?;
        self.give_up_keepers(root)?;
        self.use_now(root, levels)
    }

    /// Something that asks whether reading or writing a variable is barred.
    pub(super) fn use_now(&mut self, root: u8, levels: u32) -> Option<()> {
        let links = self.environment.chain(root).links();
        let place = match self.random.percent(40) {
            true => Place {
                root,
                follows: self.random.below(links + 1) as u8,
            },
            false => place_of(root),
        };
        match self.random.below(10) {
            0 | 1 => self.at_place(COPY, place).map(|_| ()),
            2 => self.at_place(MOVE, place).map(|_| ()),
            3 => self.declare_as(levels, |author| author.at_place(MOVE, place)),
            4 => self.declare_as(levels, |author| author.at_place(SHARED, place)),
            5 | 6 => self.declare_as(levels, |author| author.at_place(EXCLUSIVE, place)),
            7 => self.compare(root),
            _ => self.assign_as(place, levels, |author, chain| {
                author.value_like(chain, levels - 1)
            }),
        }
    }

    /// A below or a sum of the number at the end of a variable and of another.
    fn compare(&mut self, root: u8) -> Option<()> {
        let follows = self.environment.chain(root).links() as u8;
        let mut places = [Place { root, follows }, self.place_like(Chain::NUMBER)?];
        if self.random.percent(50) {
            places.reverse();
        }
        if places
            .iter()
            .any(|place| self.environment.number_at(*place).is_err())
        {
            return None;
        }
        self.of_places(places)
    }

    /// The row of a below or a sum, whether it is refused or not.
    pub(super) fn of_places(&mut self, [first, second]: [Place; 2]) -> Option<()> {
        let mut row = row_at(self.random.pick(&[BELOW, SUM]), first);
        row[3..].copy_from_slice(&[second.root as u32, second.follows as u32]);
        self.push(row)
    }

    /// The chain of holders gets longer by one.
    fn one_more_holder(&mut self, levels: u32) -> Option<()> {
        let any = self.variable_with(Chain::has_borrow)?;
        let references = self.environment.variables_to_name();
        let latest = references
            .filter(|root| self.environment.chain(*root).has_borrow())
            .last();
        let root = match self.random.percent(70) {
            true => latest?,
            false => any,
        };
        self.declare_as(levels, |author| author.reference_behind(root))
    }

    /// Two exclusive references of one type, the later first.
    fn two_alike(&mut self) -> Option<[u8; 2]> {
        let first = self.variable_with(|chain| {
            chain.first_borrow() == Some(0) && chain.borrows_exclusively()
        })?;
        let chain = self.environment.chain(first);
        let second = self.variable_with(|of| of == chain)?;
        (first != second).then_some([first, second])
    }

    /// A choice that binds one reference through another in its first block
    /// and that one through the first in its second: they may hold each other
    /// afterwards. Given up most often, they do not keep themselves in use.
    fn lead_round(&mut self, levels: u32) -> Option<()> {
        let [one, two] = self.two_alike()?;
        self.give_up_keepers(one)?;
        self.give_up_keepers(two)?;
        let place = self.choosing_place(levels)?;
        let bind = |author: &mut Self, [to, through]: [u8; 2]| {
            author.push([BLOCK, 2, 0, 0, 0])?;
            author.assign_as(place_of(to), levels - 2, |author, _| {
                let follows = 1;
                author.at_place(
                    EXCLUSIVE,
                    Place {
                        root: through,
                        follows,
                    },
                )
            })?;
            author.reading()
        };
        self.chosen(
            place,
            |author| bind(author, [one, two]),
            |author| bind(author, [two, one]),
        )?;
        if self.random.percent(80) {
            self.environment.give_up(one);
            self.environment.give_up(two);
        }
        Some(())
    }

    /// A place to choose by, where there is room for a choice.
    pub(super) fn choosing_place(&mut self, levels: u32) -> Option<Place> {
        let place = self.place_like(Chain::NUMBER)?;
        let possible = levels >= BRANCH_LEVELS && self.may_choose(levels);
        (possible && self.environment.number_at(place).is_ok()).then_some(place)
    }

    /// A choice with blocks as they are written.
    pub(super) fn chosen(
        &mut self,
        place: Place,
        first: impl FnOnce(&mut Self) -> Written,
        second: impl FnOnce(&mut Self) -> Written,
    ) -> Option<()> {
        self.push(row_at(CHOICE, place))?;
        let before = self.environment.uses.begin(place.root);
        let mut conditions = self.environment.conditions();
        first(self)?;
        self.environment.exchange(&mut conditions);
        second(self)?;
        self.environment.join(&conditions);
        self.environment.uses.finish(before);
        Some(())
    }

    /// One that keeps a holder of a variable in use, one that nobody holds more
    /// often than not.
    pub(super) fn holder_of(&mut self, root: u8) -> Option<u8> {
        let outermost = self.random.percent(60);
        let mut found = None;
        let mut count = 0;
        for holder in self.environment.keepers(root) {
            let held = self.environment.holders(holder) != Roots::NONE;
            if outermost && held {
                continue;
            }
            count += 1;
            if self.random.below(count) == 0 {
                found = Some(holder);
            }
        }
        found
    }

    /// A copy of the number at the end of a variable.
    pub(super) fn copy_through(&mut self, root: u8) -> Written {
        let follows = self.environment.chain(root).links() as u8;
        self.at_place(COPY, Place { root, follows })
    }

    /// References are looked through at the end of a script, so that they are
    /// in use before.
    pub(super) fn used_at_the_end(&mut self) {
        for _ in 0..self.random.below(8) {
            let written = self.tried(2, |author| {
                let root = author.variable_with(Chain::has_borrow)?;
                author.copy_through(root).map(|_| ())
            });
            self.terms[0][1] += u32::from(written.is_some());
        }
    }

    /// A choice whose first block still uses a holder. Its second block uses
    /// what is held, or the terms after it do.
    fn used_in_one_block(&mut self, levels: u32) -> Option<()> {
        let root = self.held_variable()?;
        let holder = self.holder_of(root)?;
        let place = self.choosing_place(levels)?;
        let within = self.random.percent(60);
        let first = |author: &mut Self| {
            author.push([BLOCK, 1, 0, 0, 0])?;
            author.copy_through(holder)
        };
        let second = |author: &mut Self| {
            author.push([BLOCK, 2, 0, 0, 0])?;
            let entered = author.environment.enter();
            if within {
                author.give_up_keepers(root)?;
                author.use_now(root, levels - 2)?;
            } else {
                author.reading()?;
            }
            let value = author.reading();
            author.environment.leave(entered);
            value
        };
        self.chosen(place, first, second)?;
        if within {
            return Some(());
        }
        self.give_up_keepers(root)
    }

    /// An assign whose right side uses a holder of what is written for the last
    /// time.
    fn used_on_the_right(&mut self, levels: u32) -> Option<()> {
        let root = self.held_variable()?;
        let holder = self.holder_of(root)?;
        let chain = self.environment.chain(root);
        if chain.has_borrow() {
            return None;
        }
        let follows = chain.links() as u8;
        let in_a_block = levels > 2 && self.random.percent(40);
        self.assign_as(Place { root, follows }, levels, |author, _| {
            if in_a_block {
                author.push([BLOCK, 1, 0, 0, 0])?;
            }
            let value = author.copy_through(holder)?;
            author.give_up_keepers(root)?;
            Some(value)
        })
    }
}
