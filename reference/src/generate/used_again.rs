//! Statements that are refused most often because a borrow is used again: later
//! on, in the same term, by the term around, in the other block of a choice, or
//! by way of other holders.

use super::author::{row_at, Author};
use super::choices::place_of;
use super::last_uses::BRANCH_LEVELS;
use crate::form::*;
use crate::ownership::chain::Chain;
use crate::ownership::environment::Place;

impl Author<'_> {
    /// A use of a variable that is held, and a use of one that keeps its holder
    /// in use. Neither is judged.
    pub(super) fn used_again(&mut self, levels: u32) -> Option<()> {
        let root = self.held_variable()?;
        let holder = self.holder_of(root)?;
        match self.random.below(12) {
            0..=3 => self.and_then_used(root, holder, levels),
            4 => self.in_the_same_term(root, holder),
            5 | 6 => self.in_the_term_around(root, holder, levels),
            7 | 8 => self.in_either_block(root, holder, levels),
            9 => self.chosen_by_holder(root, holder, levels),
            10 => self.declared_again(root, holder, levels),
            _ => self.given_up_and_used(),
        }
    }

    /// A term that asks about a variable, whatever the answer is.
    fn ask(&mut self, root: u8, levels: u32) -> Option<()> {
        let place = place_of(root);
        match self.random.below(5) {
            0 => self.push(row_at(COPY, self.end_of(root))),
            1 => self.push(row_at(SHARED, place)),
            2 => self.push(row_at(EXCLUSIVE, place)),
            3 => self.push(row_at(MOVE, place)),
            _ => {
                let chain = self.environment.chain(root);
                self.push(row_at(ASSIGN, place))?;
                let levels = levels.checked_sub(1).filter(|levels| *levels > 0)?;
                self.value_like(chain, levels).map(|_| ())
            }
        }
    }

    /// The number at the end of a variable.
    fn end_of(&self, root: u8) -> Place {
        let follows = self.environment.chain(root).links() as u8;
        Place { root, follows }
    }

    /// In a block of its own, so that it is one statement.
    fn and_then_used(&mut self, root: u8, holder: u8, levels: u32) -> Option<()> {
        if levels < 3 {
            return None;
        }
        self.push([BLOCK, 2, 0, 0, 0])?;
        self.ask(root, levels - 1)?;
        let end = self.end_of(holder);
        self.push(row_at(COPY, end))
    }

    /// A below or a sum of both.
    fn in_the_same_term(&mut self, root: u8, holder: u8) -> Option<()> {
        let mut places = [self.end_of(root), self.end_of(holder)];
        if self.random.percent(50) {
            places.reverse();
        }
        self.of_places(places)
    }

    /// An assign to the holder, or by way of it, whose right side asks.
    fn in_the_term_around(&mut self, root: u8, holder: u8, levels: u32) -> Option<()> {
        if levels < 3 {
            return None;
        }
        let chain = self.environment.chain(holder);
        let like = chain.after(chain.first_borrow()? + 1);
        let direct = like == self.environment.chain(root) && self.random.percent(50);
        if direct {
            self.push(row_at(ASSIGN, place_of(holder)))?;
            let kind = match chain.borrows_exclusively() {
                true => EXCLUSIVE,
                false => SHARED,
            };
            return self.push(row_at(kind, place_of(root)));
        }
        let end = self.end_of(holder);
        self.push(row_at(ASSIGN, end))?;
        self.push([BLOCK, 2, 0, 0, 0])?;
        self.ask(root, levels - 2)?;
        self.reading().map(|_| ())
    }

    /// A choice that asks in one block and uses the holder in the other. It is
    /// in use in the first block where the second uses it, and not the other
    /// way round.
    fn in_either_block(&mut self, root: u8, holder: u8, levels: u32) -> Option<()> {
        let place = self.choosing_place(levels)?;
        let later = self.random.percent(60);
        self.push(row_at(CHOICE, place))?;
        for asks in [later, !later] {
            self.push([BLOCK, 2, 0, 0, 0])?;
            if asks {
                self.ask(root, levels - 2)?;
            } else {
                let end = self.end_of(holder);
                self.push(row_at(COPY, end))?;
            }
            self.reading()?;
        }
        Some(())
    }

    /// A choice by what the holder leads to, with a block that asks.
    fn chosen_by_holder(&mut self, root: u8, holder: u8, levels: u32) -> Option<()> {
        if levels < BRANCH_LEVELS {
            return None;
        }
        let end = self.end_of(holder);
        self.push(row_at(CHOICE, end))?;
        let first = self.random.percent(50);
        for asks in [first, !first] {
            self.push([BLOCK, 1 + asks as u32, 0, 0, 0])?;
            if asks {
                self.ask(root, levels - 2)?;
            }
            self.reading()?;
        }
        Some(())
    }

    /// Another let of the holder's number, which names it.
    fn declared_again(&mut self, root: u8, holder: u8, levels: u32) -> Option<()> {
        if levels < 3 {
            return None;
        }
        self.push([BLOCK, 2, 0, 0, 0])?;
        self.ask(root, levels - 1)?;
        self.push([LET, holder as u32, 0, 0, 0])?;
        self.reading().map(|_| ())
    }

    /// A variable that was given up is used all the same.
    fn given_up_and_used(&mut self) -> Option<()> {
        let scope = self.environment.variables_in_scope();
        let root = scope[self.random.index(scope.len())];
        if self.environment.chain(root) == Chain::NUMBER {
            return None;
        }
        let end = self.end_of(root);
        self.push(row_at(COPY, end))
    }
}
