//! What an author writes into blocks: lets, assigns and terms whose values
//! are dropped.

use super::author::{row_at, Author, Written};
use super::choices::OPENING;
use super::last_uses::HOLDERS;
use super::through_shared::LINKS;
use crate::form::*;
use crate::ownership::chain::Chain;
use crate::ownership::environment::{Place, Value};

/// The blocks that others need a value of have fewer statements, and so have
/// those in them. They are given up if their last term is.
pub(super) const NARROW: u32 = 4;

/// What the last term of a block is to give.
#[derive(Clone, Copy)]
pub(super) enum Last {
    Any,
    Like(Chain),
    /// A shared borrow of this type through a shared link.
    Through(Chain),
    Nothing,
}

impl Author<'_> {
    /// A whole script on so many levels: a block of statements, then the
    /// answer.
    pub(super) fn script(&mut self, levels: u32) {
        self.terms.clear();
        self.terms.push([BLOCK, 1, 0, 0, 0]);
        let entered = self.environment.enter();
        let levels = levels - 1;
        // The answer.
        self.owed = 1;
        while self.terms[0][1] <= self.habits.statements && self.free() > 0 {
            self.outermost_statement(levels);
            self.terms[0][1] += 1;
        }
        if self.habits.joining > 0 || self.habits.passing > 0 {
            self.used_at_the_end();
        }
        self.owed = 0;
        self.answer(levels);
        self.environment.leave(entered);
    }

    /// A statement of the outermost block, a long block if the terms to come
    /// are many for the statements to come.
    fn outermost_statement(&mut self, levels: u32) {
        let index = self.terms[0][1];
        if self.habits.joining > 0 && index <= OPENING + 2 {
            return self.or_number(|author| match index {
                0..=OPENING => author.opening(index, levels),
                _ if !author.may_choose(levels) => None,
                // A choice, and something by which it shows.
                _ if index == OPENING + 1 => author.choice_dropped(levels),
                _ => author.write_through(levels),
            });
        }
        if self.habits.passing > 0 && index <= LINKS {
            return self.or_number(|author| author.links(index, levels));
        }
        if self.habits.ending > 0 && index <= HOLDERS {
            return self.or_number(|author| author.holders_or_round(index, levels));
        }
        if self.habits.used_again && index == self.habits.statements {
            return self.or_number(|author| author.used_again(levels));
        }
        if self.habits.against_record && index == self.habits.statements {
            return self.or_number(|author| author.against_record(levels));
        }
        if self.habits.against_record && index + 1 == self.habits.statements {
            return self.or_number(|author| match author.random.percent(30) {
                true => author.part(levels),
                false => author.passing_statement(levels),
            });
        }
        let widest = self.habits.widest;
        let to_come = self.habits.statements + 1 - self.terms[0][1];
        let many = self.free() > 2 * to_come as usize;
        if widest > NARROW && many && levels > 1 {
            // There is room for it, and a long block is never given up.
            let written = self.block(levels, widest, Last::Any);
            debug_assert!(written.is_some());
        } else {
            self.statement(levels, widest);
        }
    }

    fn answer(&mut self, levels: u32) {
        if self.careless() {
            self.or_number(|author| author.any_value(levels).map(|_| ()));
        } else {
            self.or_number(|author| author.value_like(Chain::NUMBER, levels).map(|_| ()));
        }
    }

    /// Tries to write a term. After some tries a number stands in its place,
    /// and there is room for that.
    fn or_number(&mut self, write: impl FnMut(&mut Self) -> Option<()>) {
        if self.tried(8, write).is_none() {
            self.terms.push([NUMBER, 1, 0, 0, 0]);
        }
    }

    /// Tries to write a term so many times, if there is patience for it. What
    /// was written of a term given up is taken back.
    pub(super) fn tried(
        &mut self,
        times: u32,
        mut write: impl FnMut(&mut Self) -> Option<()>,
    ) -> Option<()> {
        for _ in 0..times {
            if self.given_up > self.habits.patience {
                break;
            }
            let (environment, boxes) = (self.environment.clone(), self.boxes);
            let owed = self.owed;
            let length = self.terms.len();
            if write(self).is_some() {
                return Some(());
            }
            self.given_up += self.terms.len() - length + 1;
            self.terms.truncate(length);
            self.environment = environment;
            self.boxes = boxes;
            self.owed = owed;
        }
        None
    }

    /// One term of a block whose value, if it has one, is dropped. If it is a
    /// block, it has fewer than so many statements.
    fn statement(&mut self, levels: u32, widest: u32) {
        // With few variables there is little to choose from.
        let few = self.environment.variables_in_scope().len() < 2;
        let lets = if few { 80 } else { 40 };
        self.or_number(|author| {
            if author.chooses(levels, 1) {
                return author.choice_dropped(levels);
            }
            if !few && author.random.percent(author.habits.joining) {
                return author.joining_statement(levels);
            }
            if author.habits.passing > 0 && author.random.percent(author.habits.passing) {
                return author.passing_statement(levels);
            }
            if author.habits.ending > 0 && author.random.percent(author.habits.ending) {
                return author.ending_statement(levels);
            }
            match author.random.below(100) {
                choice if choice < lets => author.declare(levels),
                0..=84 => author.assign_place(levels),
                85..=92 if levels > 1 && !author.crowded() => {
                    author.block(levels, widest, Last::Any).map(|_| ())
                }
                _ => author.any_value(levels).map(|_| ()),
            }
        });
    }

    /// A term without a value.
    fn without_value(&mut self, levels: u32) -> Option<()> {
        if self.random.percent(self.habits.joining) {
            return self.bind_again(levels);
        }
        match self.random.below(4) {
            0 => self.declare(levels),
            _ => self.assign_place(levels),
        }
    }

    fn declare(&mut self, levels: u32) -> Option<()> {
        self.declare_as(levels, |author| author.any_value(levels - 1))
    }

    /// A let of what is written.
    pub(super) fn declare_as(
        &mut self,
        levels: u32,
        write: impl FnOnce(&mut Self) -> Written,
    ) -> Option<()> {
        let variable = self.random.below(self.variables) as u8;
        let free = !self.environment.is_taken(variable);
        if levels <= 1 || !free && !self.careless() {
            return None;
        }
        self.push([LET, variable as u32, 0, 0, 0])?;
        self.environment.take(variable);
        let value = write(self)?;
        if free {
            self.environment.declare(variable, value);
        }
        Some(())
    }

    fn assign_place(&mut self, levels: u32) -> Option<()> {
        let place = self.place()?;
        self.assign_as(place, levels, |author, chain| {
            if author.careless() {
                author.any_value(levels - 1)
            } else {
                author.value_like(chain, levels - 1)
            }
        })
    }

    /// An assign to a place of what is written for its type.
    pub(super) fn assign_as(
        &mut self,
        place: Place,
        levels: u32,
        write: impl FnOnce(&mut Self, Chain) -> Written,
    ) -> Option<()> {
        if levels <= 1 {
            return None;
        }
        self.push(row_at(ASSIGN, place))?;
        let chain = self.environment.chain(place.root).after(place.follows);
        let around = self.environment.uses.begin(place.root);
        let value = write(self, chain)?;
        let before = self.environment.clone();
        let refused = self.environment.assign(place, value).is_err();
        if refused {
            // It may have been carried out already.
            self.environment = before;
        }
        self.environment.uses.finish(around);
        (!refused || self.careless()).then_some(())
    }

    /// The last term of a block that is too long to be given up for it.
    fn last_of_many(&mut self, levels: u32) -> Value {
        let mut last = Value::NUMBER;
        self.or_number(|author| {
            let value = author.any_value(levels)?;
            let refused = author.environment.live_innermost(value.borrowed);
            (!refused || author.careless()).then(|| last = value)
        });
        last
    }

    /// A block with fewer than so many statements and a last term as it is
    /// asked for. One without a value counts as a number here: it is only
    /// written where nobody needs it.
    pub(super) fn block(&mut self, levels: u32, widest: u32, last: Last) -> Written {
        // The block itself and its last term need room too.
        let free = self.free().checked_sub(2)? as u32;
        // The statements of a long one should have more than one term each.
        let most = if widest > NARROW { free / 6 } else { free };
        let count = self.random.below(widest).min(most);
        self.push([BLOCK, count + 1, 0, 0, 0])?;
        let entered = self.environment.enter();
        self.owed += count as usize;
        let narrower = (widest / 8).max(widest.min(NARROW));
        for _ in 0..count {
            self.statement(levels - 1, narrower);
            self.owed -= 1;
        }
        let value = match last {
            Last::Like(chain) => self.value_like(chain, levels - 1)?,
            Last::Through(chain) => self.through_like(chain, levels - 1)?,
            Last::Nothing => {
                self.tried(4, |author| author.without_value(levels - 1))?;
                Value::NUMBER
            }
            Last::Any if widest > NARROW => self.last_of_many(levels - 1),
            Last::Any => self.any_value(levels - 1)?,
        };
        let refused = self.environment.live_innermost(value.borrowed);
        // A long block has judged its last term before.
        if refused && widest <= NARROW && !self.careless() {
            return None;
        }
        self.environment.leave(entered);
        Some(if refused { Value::NUMBER } else { value })
    }
}
