//! Shared borrows through shared links, and statements by which it shows what
//! they are recorded against: what is done with the variable that is passed,
//! which is free, and with those that are recorded, which are not.

use super::author::{row_at, Author, Written};
use super::choices::place_of;
use super::statements::Last;
use crate::form::*;
use crate::ownership::chain::{Chain, Link};
use crate::ownership::environment::{Place, Value};
use crate::ownership::roots::Roots;

/// The statements that begin a script about such borrows.
pub(super) const LINKS: u32 = 7;

/// A block, a let in it and what is declared.
const HELPER_LEVELS: u32 = 3;

/// A choice, a block of it, an assign in it and its right side.
const PART_LEVELS: u32 = 4;

impl Author<'_> {
    /// One of the first statements: a reading to choose by, two variables of
    /// one type, references to them and to each other, and a borrow through
    /// these.
    pub(super) fn links(&mut self, index: u32, levels: u32) -> Option<()> {
        let last = self.environment.variables_in_scope().last().copied();
        let Some(last) = last.filter(|_| index > 1) else {
            return self.declare_as(levels, Self::reading);
        };
        let chain = self.environment.chain(last);
        let links = chain.links();
        match self.step(index) {
            step if step > LINKS => self.passing_statement(levels),
            2 => self.declare_as(levels, |author| author.number_in_boxes(None, levels - 1)),
            3 => self.declare_as(levels, |author| {
                author.number_in_boxes(Some(links), levels - 1)
            }),
            LINKS => self.borrow_through(levels),
            // A reference that may lead to several places.
            5 | 6 if chain.starts_shared() && self.random.percent(40) => self
                .declare_as(levels, |author| {
                    author.choice_if_possible(levels - 1, Last::Like(chain))
                }),
            _ => {
                let root = match self.random.percent(70) {
                    true => last,
                    false => self.variable_with(|_| true)?,
                };
                self.declare_as(levels, |author| author.link_to(root, levels - 1))
            }
        }
    }

    /// Which of the first statements comes at an index. With few variables only
    /// the reading, two references and the borrow through them do.
    fn step(&self, index: u32) -> u32 {
        match index {
            _ if self.variables > LINKS + 2 => index,
            2 | 3 => 4,
            4 => LINKS,
            _ => LINKS + 1,
        }
    }

    /// A borrow of what a variable owns, shared more often than not, in a box
    /// now and then.
    fn link_to(&mut self, root: u8, levels: u32) -> Written {
        let chain = self.environment.chain(root);
        let boxes = chain.first_borrow().map_or(chain.links(), u32::from);
        let follows = match self.random.percent(60) {
            true => 0,
            false => self.random.below(boxes + 1) as u8,
        };
        let kind = self
            .random
            .pick(&[SHARED, SHARED, SHARED, EXCLUSIVE, EXCLUSIVE]);
        self.perhaps_boxed(levels, |author| {
            author.at_place(kind, Place { root, follows })
        })
    }

    fn perhaps_boxed(&mut self, levels: u32, write: impl FnOnce(&mut Self) -> Written) -> Written {
        if levels < 2 || self.boxes == 0 || !self.random.percent(15) {
            return write(self);
        }
        self.boxes -= 1;
        self.push([BOX, 0, 0, 0, 0])?;
        let value = write(self)?;
        let chain = value.chain.behind(Link::Box)?;
        Some(Value { chain, ..value })
    }

    /// A place that passes a shared link, of a given type or of any, each one
    /// equally likely.
    fn place_through(&mut self, like: Option<Chain>) -> Option<Place> {
        let mut found = None;
        let mut count = 0;
        for root in self.environment.variables_to_name() {
            let chain = self.environment.chain(root);
            for follows in 1..=chain.links() as u8 {
                let wanted = like.is_none_or(|like| chain.after(follows) == like);
                if wanted && chain.passes_shared(follows) {
                    count += 1;
                    if self.random.below(count) == 0 {
                        found = Some(Place { root, follows });
                    }
                }
            }
        }
        found
    }

    /// A shared borrow of a given type through a shared link: of a variable in
    /// scope, or of one of a block that gives it.
    pub(super) fn through_like(&mut self, chain: Chain, levels: u32) -> Written {
        if levels >= HELPER_LEVELS && self.random.percent(50) {
            return self.helper(chain, levels);
        }
        let place = self.place_through(Some(chain.after(1)))?;
        self.passed = Some(place.root);
        self.at_place(SHARED, place)
    }

    /// A block that borrows an outer place in variables of its own, one from
    /// the other, and gives a shared borrow of that place through them.
    fn helper(&mut self, chain: Chain, levels: u32) -> Written {
        let behind = chain.after(1);
        let mut place = self.place_like(behind)?;
        let count = self.random.pick(&[1, 1, 2, 2, 3]);
        self.push([BLOCK, count + 1, 0, 0, 0])?;
        let entered = self.environment.enter();
        for index in 0..count {
            let kind = match index {
                0 => SHARED,
                _ => self.random.pick(&[SHARED, SHARED, EXCLUSIVE, MOVE]),
            };
            self.declare_as(levels - 1, |author| {
                author.perhaps_boxed(levels - 2, |author| author.at_place(kind, place))
            })?;
            place = place_of(*self.environment.variables_in_scope().last()?);
        }
        let links = self.environment.chain(place.root).links();
        place.follows = (links - behind.links()) as u8;
        let value = self.at_place(SHARED, place)?;
        if self.environment.live_innermost(value.borrowed) {
            return None;
        }
        self.environment.leave(entered);
        Some(value)
    }

    /// A variable gets a shared borrow through a shared link.
    fn borrow_through(&mut self, levels: u32) -> Option<()> {
        let place = self.place_through(None)?;
        let chain = self.environment.chain(place.root).after(place.follows);
        let chain = chain.behind(Link::Shared)?;
        match self.random.below(10) {
            0..=6 => self.declare_as(levels, |author| author.through_like(chain, levels - 1)),
            7 => {
                let root = self.variable_with(|of| of == chain)?;
                self.assign_as(place_of(root), levels, |author, chain| {
                    author.through_like(chain, levels - 1)
                })
            }
            _ => self.declare_as(levels, |author| {
                author.choice_if_possible(levels - 1, Last::Through(chain))
            }),
        }
    }

    fn choice_if_possible(&mut self, levels: u32, last: Last) -> Written {
        match self.may_choose(levels) {
            true => self.choice(levels, last),
            false => None,
        }
    }

    /// A statement about such borrows.
    pub(super) fn passing_statement(&mut self, levels: u32) -> Option<()> {
        match self.random.below(10) {
            0..=3 => self.borrow_through(levels),
            4..=6 => self.use_passed(levels),
            7 => self.bind_again(levels),
            8 => self.part(levels),
            _ => self.use_owned(levels),
        }
    }

    /// A choice with a block in which the last reference is bound to another
    /// place and the variable that was passed is moved away. What was recorded
    /// is still borrowed afterwards; the variable that was passed holds nothing.
    pub(super) fn part(&mut self, levels: u32) -> Option<()> {
        let place = self.place_like(Chain::NUMBER)?;
        let passed = self.passed?;
        let readable = self.environment.number_at(place).is_ok();
        if !readable || levels < PART_LEVELS || !self.environment.in_scope(passed) {
            return None;
        }
        let mut latest = self.environment.variables_in_scope().iter().rev();
        let reference = *latest.find(|root| self.environment.chain(**root).starts_shared())?;
        self.push(row_at(CHOICE, place))?;
        let conditions = self.environment.conditions();
        self.push([BLOCK, 3, 0, 0, 0])?;
        self.assign_as(place_of(reference), levels - 2, |author, chain| {
            author.borrow_like(chain)
        })?;
        self.at_place(MOVE, place_of(passed))?;
        self.reading()?;
        self.environment.join(&conditions);
        self.push([BLOCK, 1, 0, 0, 0])?;
        self.reading().map(|_| ())
    }

    /// What can be done with a variable only while it is not borrowed, done
    /// with the one that was passed last, or with any that could be passed.
    fn use_passed(&mut self, levels: u32) -> Option<()> {
        let in_scope = |root: &u8| self.environment.in_scope(*root);
        let root = match self.passed.filter(in_scope) {
            Some(root) if self.random.percent(60) => root,
            _ => self.variable_with(|chain| chain.passes_shared(chain.links() as u8))?,
        };
        self.change(root, levels)
    }

    /// The same with a variable that could be recorded.
    fn use_owned(&mut self, levels: u32) -> Option<()> {
        let root = self.variable_with(|chain| !chain.has_borrow())?;
        self.change(root, levels)
    }

    fn change(&mut self, root: u8, levels: u32) -> Option<()> {
        let place = place_of(root);
        match self.random.below(8) {
            0..=2 => self.at_place(MOVE, place).map(|_| ()),
            3 => self.declare_as(levels, |author| author.at_place(MOVE, place)),
            4..=6 => self.assign_as(place, levels, |author, chain| {
                author.value_like(chain, levels - 1)
            }),
            _ => self.at_place(EXCLUSIVE, place).map(|_| ()),
        }
    }

    /// A statement that is refused most often: a change of a variable that is
    /// borrowed, a write or an exclusive borrow through a shared link, a borrow
    /// that names a variable held exclusively, or a block that gives a borrow of
    /// what it owns.
    pub(super) fn against_record(&mut self, levels: u32) -> Option<()> {
        match self.random.below(13) {
            0..=7 => {
                let holder = self.variable_with(Chain::has_borrow)?;
                let mut borrowed = self.environment.borrowed(Roots::one(holder));
                let count = borrowed.count() as u32;
                let chosen = self.random.below(count.max(1)) as usize;
                let place = place_of(borrowed.nth(chosen)?);
                match self.random.below(3) {
                    0 => self.push(row_at(MOVE, place)),
                    1 => self.push(row_at(EXCLUSIVE, place)),
                    _ => self.write_all_the_same(place, levels),
                }
            }
            8 => {
                let place = self.place_through(None)?;
                self.push(row_at(EXCLUSIVE, place))
            }
            9 => {
                let place = self.place_through(None)?;
                self.write_all_the_same(place, levels)
            }
            10 => self.held_and_named(levels),
            _ => self.own_given(levels),
        }
    }

    /// A block with a shared borrow through a variable that another one of the
    /// block holds exclusively.
    fn held_and_named(&mut self, levels: u32) -> Option<()> {
        let place = self.place_through(None)?;
        if levels < HELPER_LEVELS {
            return None;
        }
        self.push([BLOCK, 2, 0, 0, 0])?;
        let entered = self.environment.enter();
        self.declare_as(levels - 1, |author| {
            author.at_place(EXCLUSIVE, place_of(place.root))
        })?;
        self.push(row_at(SHARED, place))?;
        self.environment.leave(entered);
        Some(())
    }

    /// An assign, whether it is refused or not.
    fn write_all_the_same(&mut self, place: Place, levels: u32) -> Option<()> {
        let chain = self.environment.chain(place.root).after(place.follows);
        self.push(row_at(ASSIGN, place))?;
        self.value_like(chain, levels.checked_sub(1)?).map(|_| ())
    }

    /// A block that gives a borrow through its own variable, which borrows
    /// something of the block, or has no shared link.
    fn own_given(&mut self, levels: u32) -> Option<()> {
        if levels < HELPER_LEVELS {
            return None;
        }
        let place = self.place_like(Chain::NUMBER)?;
        let count = self.random.pick(&[2, 3]);
        self.push([BLOCK, count, 0, 0, 0])?;
        let entered = self.environment.enter();
        self.declare_as(levels - 1, |author| match count {
            2 => author.at_place(EXCLUSIVE, place),
            _ => author.reading(),
        })?;
        let mut root = *self.environment.variables_in_scope().last()?;
        if count == 3 {
            self.declare_as(levels - 1, |author| author.at_place(SHARED, place_of(root)))?;
            root = *self.environment.variables_in_scope().last()?;
        }
        self.push(row_at(SHARED, Place { root, follows: 1 }))?;
        self.environment.leave(entered);
        Some(())
    }
}
