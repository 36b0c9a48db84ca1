//! Choices, and statements that make a difference where their two blocks are
//! joined: what is moved away in one of them, what a reference leads to after
//! one, after the other, or after both, and what is then done by way of it.

use super::author::{row_at, Author, Written};
use super::statements::{Last, NARROW};
use crate::form::*;
use crate::ownership::chain::{Chain, Link};
use crate::ownership::environment::{Place, Value};

/// The statements that begin a script in which much is joined.
pub(super) const OPENING: u32 = 6;

pub(super) fn place_of(root: u8) -> Place {
    Place { root, follows: 0 }
}

impl Author<'_> {
    /// Whether the next term is a choice, one time in so many of those when a
    /// statement would be one.
    pub(super) fn chooses(&mut self, levels: u32, seldom: u32) -> bool {
        self.may_choose(levels) && self.random.percent(self.habits.choosing / seldom)
    }

    pub(super) fn may_choose(&self, levels: u32) -> bool {
        // A block and a term in it are below the choice.
        self.version > 1 && levels > 2 && !self.crowded()
    }

    /// A choice whose value, if it has one, is dropped.
    pub(super) fn choice_dropped(&mut self, levels: u32) -> Option<()> {
        let last = if self.random.percent(60) {
            Last::Nothing
        } else {
            Last::Any
        };
        self.choice(levels, last).map(|_| ())
    }

    /// A choice whose blocks have last terms as they are asked for, both of
    /// one type. The environment goes the way of the check.
    pub(super) fn choice(&mut self, levels: u32, last: Last) -> Written {
        let place = self.place_like(Chain::NUMBER)?;
        if self.environment.number_at(place).is_err() && !self.careless() {
            return None;
        }
        self.push(row_at(CHOICE, place))?;
        let before = self.environment.uses.begin(place.root);
        let mut conditions = self.environment.conditions();
        // The second block and a term in it.
        self.owed += 2;
        let first = self.branch(levels - 1, last)?;
        self.owed -= 2;
        self.environment.exchange(&mut conditions);
        let alike = match last {
            _ if self.careless() => Last::Any,
            Last::Nothing => Last::Nothing,
            Last::Through(_) if self.random.percent(70) => Last::Through(first.chain),
            _ => Last::Like(first.chain),
        };
        let second = self.branch(levels - 1, alike)?;
        self.environment.join(&conditions);
        self.environment.uses.finish(before);
        Some(if first.chain == second.chain {
            first.or(second)
        } else {
            first
        })
    }

    fn branch(&mut self, levels: u32, last: Last) -> Written {
        self.block(levels, NARROW.min(self.habits.widest), last)
    }

    /// One of the first statements: a reading to choose by, two variables of
    /// one type, and references, of which some lead to both after a choice.
    pub(super) fn opening(&mut self, index: u32, levels: u32) -> Option<()> {
        let last = self.environment.variables_in_scope().last().copied();
        self.declare_as(levels, |author| {
            let Some(last) = last.filter(|_| index > 1) else {
                return author.reading();
            };
            let chain = author.environment.chain(last);
            match index {
                2 => author.number_in_boxes(None, levels - 1),
                3 => author.number_in_boxes(Some(chain.links()), levels - 1),
                4 => author.reference_to(last),
                // Exclusive and of the whole variable, which is one of two
                // alike most often.
                6 if author.random.percent(50) => author.at_place(EXCLUSIVE, place_of(last)),
                _ if chain.first_borrow() == Some(0) && author.random.percent(60) => {
                    author.borrow_like(chain)
                }
                _ => author.reference_to(last),
            }
        })
    }

    /// A number in so many boxes, or in a few.
    pub(super) fn number_in_boxes(&mut self, boxes: Option<u32>, levels: u32) -> Written {
        let few = self.random.pick(&[0, 0, 1, 1, 2]);
        let boxes = boxes.unwrap_or(few);
        if boxes >= levels {
            return None;
        }
        self.boxes = self.boxes.checked_sub(boxes)?;
        let mut value = Value::NUMBER;
        for _ in 0..boxes {
            self.push([BOX, 0, 0, 0, 0])?;
            value.chain = value.chain.behind(Link::Box)?;
        }
        self.reading().map(|_| value)
    }

    fn reference_to(&mut self, root: u8) -> Written {
        let links = self.environment.chain(root).links();
        let follows = self.random.below(links + 1) as u8;
        let kind = self.random.pick(&[SHARED, EXCLUSIVE, EXCLUSIVE]);
        self.at_place(kind, Place { root, follows })
    }

    /// A statement that makes a difference where two blocks are joined.
    pub(super) fn joining_statement(&mut self, levels: u32) -> Option<()> {
        match self.random.below(10) {
            0..=3 => self.bind_again(levels),
            4 | 5 => self.move_owned(levels),
            6..=8 => self.write_through(levels),
            _ => self.look_through(),
        }
    }

    /// A variable in scope with links as they are asked for, each one equally
    /// likely.
    pub(super) fn variable_with(&mut self, wanted: impl Fn(Chain) -> bool) -> Option<u8> {
        let mut found = None;
        let mut count = 0;
        for variable in self.environment.variables_to_name() {
            if wanted(self.environment.chain(variable)) {
                count += 1;
                if self.random.below(count) == 0 {
                    found = Some(variable);
                }
            }
        }
        found
    }

    /// A reference is to lead elsewhere: directly, or by way of a reference to
    /// it.
    pub(super) fn bind_again(&mut self, levels: u32) -> Option<()> {
        let root = self.variable_with(|chain| chain.first_borrow() == Some(0))?;
        let behind = self.environment.chain(root).after(1);
        let again = behind.first_borrow() == Some(0) && self.random.percent(50);
        let follows = again as u8;
        self.assign_as(Place { root, follows }, levels, |author, chain| {
            author.borrow_like(chain)
        })
    }

    /// Something that a variable owns is moved, into another one or nowhere.
    fn move_owned(&mut self, levels: u32) -> Option<()> {
        let root = self.variable_with(|chain| !chain.is_number())?;
        let boxes = self.environment.chain(root).first_borrow();
        let most = boxes.unwrap_or(self.environment.chain(root).links() as u8);
        let follows = self.random.below(most as u32 + 1) as u8;
        let place = Place { root, follows };
        if self.random.percent(30) {
            return self.declare_as(levels, |author| author.at_place(MOVE, place));
        }
        self.at_place(MOVE, place).map(|_| ())
    }

    /// A write by way of an exclusive reference.
    pub(super) fn write_through(&mut self, levels: u32) -> Option<()> {
        let root = self.variable_with(Chain::borrows_exclusively)?;
        let chain = self.environment.chain(root);
        let link = chain.first_borrow()? as u32;
        let follows = self.random.between(link + 1, chain.links()) as u8;
        self.assign_as(Place { root, follows }, levels, |author, chain| {
            author.value_like(chain, levels - 1)
        })
    }

    /// A use of what is at the end of a reference.
    pub(super) fn look_through(&mut self) -> Option<()> {
        let root = self.variable_with(Chain::has_borrow)?;
        let follows = self.environment.chain(root).links() as u8;
        let kind = self.random.pick(&[COPY, COPY, SHARED, EXCLUSIVE]);
        self.at_place(kind, Place { root, follows }).map(|_| ())
    }
}
