//! An author of scripts that the ownership check accepts. It keeps the
//! environment of the check along with the terms and writes a term only where
//! the rules allow it. A careless author writes some terms all the same.

use super::operands;
use super::statements::{Last, NARROW};
use crate::form::*;
use crate::limits::Limits;
use crate::ownership::chain::{Chain, Link};
use crate::ownership::environment::{Environment, Place, Value};
use crate::ownership::roots::Roots;
use crate::random::Random;

/// What an author knows of all variables, under every set.
pub(super) type State = Environment<'static, { Limits::LARGEST.variables as usize }>;

pub(super) struct Author<'a> {
    pub(super) random: &'a mut Random,
    pub(super) terms: &'a mut Vec<Row>,
    pub(super) environment: State,
    pub(super) habits: Habits,
    /// The version whose kinds are used.
    pub(super) version: u32,
    /// How many variables there are.
    pub(super) variables: u32,
    /// Box terms that may still be written.
    pub(super) boxes: u32,
    /// Terms that the blocks around still have to write after the present one.
    pub(super) owed: usize,
    /// Terms that were taken back.
    pub(super) given_up: usize,
    /// The root of a place that a shared borrow through a shared link named,
    /// if there was one. It may be out of scope, or of a term taken back.
    pub(super) passed: Option<u8>,
}

/// What an author goes by in a whole script.
#[derive(Clone, Copy)]
pub(super) struct Habits {
    /// The most statements of the outermost block.
    pub(super) statements: u32,
    /// The most terms.
    pub(super) terms: usize,
    /// Beyond so many terms only short ones are written.
    pub(super) room: usize,
    /// How many terms are taken back before only numbers are written. Terms in
    /// terms are tried again on each level, which would take too long in deep
    /// ones.
    pub(super) patience: usize,
    /// Blocks that are statements have at most so many terms.
    pub(super) widest: u32,
    /// How often, in a hundred, a term is written that the rules refuse.
    pub(super) careless: u32,
    /// How often, in a hundred, a term of any type is a box.
    pub(super) boxing: u32,
    /// How often, in a hundred, one that is no box is a block.
    pub(super) nesting: u32,
    /// How often, in a hundred, a statement is a choice, where the version has
    /// it; of terms of any kind half as often.
    pub(super) choosing: u32,
    /// How often, in a hundred, a statement is one of those that make a
    /// difference where two blocks are joined.
    pub(super) joining: u32,
    /// How often, in a hundred, a statement is one about shared borrows through
    /// shared links.
    pub(super) passing: u32,
    /// Whether the last statement is one that is refused most often, for what
    /// such borrows are recorded against.
    pub(super) against_record: bool,
    /// How often, in a hundred, a statement is one about borrows that end at
    /// their last use.
    pub(super) ending: u32,
    /// Whether the last statement is one that is refused most often, as a
    /// borrow is used again.
    pub(super) used_again: bool,
}

/// What a term gives, or nothing if the author gives the term up. What was
/// written of it then still stands; the statement around takes it back.
pub(super) type Written = Option<Value>;

pub(super) fn row_at(kind: u32, place: Place) -> Row {
    [kind, place.root as u32, place.follows as u32, 0, 0]
}

impl Author<'_> {
    /// Whether a refused term is written nevertheless.
    pub(super) fn careless(&mut self) -> bool {
        self.habits.careless > 0 && self.random.percent(self.habits.careless)
    }

    pub(super) fn crowded(&self) -> bool {
        self.terms.len() >= self.habits.room
    }

    /// How many terms there is room for, with those that are owed left out.
    pub(super) fn free(&self) -> usize {
        let used = self.terms.len() + self.owed;
        self.habits.terms.saturating_sub(used)
    }

    /// Writes the row of a term if there is room for it.
    pub(super) fn push(&mut self, row: Row) -> Option<()> {
        (self.free() > 0).then(|| self.terms.push(row))
    }

    /// A variable in scope, a recent one more often than the others.
    fn variable(&mut self) -> Option<u8> {
        let variables = self.environment.variables_in_scope();
        let recent = variables.len().saturating_sub(4);
        let from = if self.random.percent(50) { recent } else { 0 };
        let count = variables.len() - from;
        let found = (count > 0).then(|| variables[from + self.random.index(count)]);
        found.filter(|variable| self.environment.may_be_named(*variable))
    }

    /// A place whose chain is long enough, of a careless author not always.
    pub(super) fn place(&mut self) -> Option<Place> {
        let root = self.variable()?;
        let mut links = self.environment.chain(root).links();
        if self.careless() && self.random.percent(20) {
            links = MAX_FOLLOWS.min(links + 1);
        }
        let follows = match self.random.below(3) {
            0 => links,
            _ => self.random.below(links + 1),
        } as u8;
        Some(Place { root, follows })
    }

    /// A place of a given type, each one equally likely.
    pub(super) fn place_like(&mut self, chain: Chain) -> Option<Place> {
        let mut found = None;
        let mut count = 0;
        for root in self.environment.variables_to_name() {
            let whole = self.environment.chain(root);
            let Some(follows) = whole.links().checked_sub(chain.links()) else {
                continue;
            };
            let follows = follows as u8;
            if whole.after(follows) == chain {
                count += 1;
                if self.random.below(count) == 0 {
                    found = Some(Place { root, follows });
                }
            }
        }
        found
    }

    /// A copy, move or borrow of a place.
    pub(super) fn at_place(&mut self, kind: u32, place: Place) -> Written {
        let environment = &mut self.environment;
        let judged = match kind {
            COPY => environment.copy(place),
            MOVE => environment.move_out(place),
            SHARED => environment.borrow_shared(place),
            _ => environment.borrow_exclusive(place),
        };
        let value = match judged {
            Ok(value) => value,
            Err(_) if self.careless() => self.value_all_the_same(kind, place),
            Err(_) => return None,
        };
        self.push(row_at(kind, place))?;
        Some(value)
    }

    /// What a refused term would give, as far as its type makes sense.
    fn value_all_the_same(&self, kind: u32, place: Place) -> Value {
        let chain = self.environment.chain(place.root).after(place.follows);
        let borrow = |link, borrowed| chain.behind(link).map(|chain| Value { chain, borrowed });
        let root = Roots::one(place.root);
        let value = match kind {
            SHARED => {
                let recorded = self.environment.recorded(place);
                borrow(Link::Shared, recorded.unwrap_or(root))
            }
            EXCLUSIVE => borrow(Link::Exclusive, root),
            _ if chain.is_number() => None,
            _ => self.environment.locate(place).map(|owners| Value {
                chain,
                borrowed: self.environment.borrowed(owners),
            }),
        };
        value.unwrap_or(Value::NUMBER)
    }

    fn number(&mut self) -> Written {
        if self.random.percent(50) {
            return self.reading();
        }
        let number = operands::number(self.random);
        self.push([NUMBER, number, 0, 0, 0])?;
        Some(Value::NUMBER)
    }

    pub(super) fn reading(&mut self) -> Written {
        let index = self.random.below(MAX_READING + 1);
        self.push([READING, index, 0, 0, 0])?;
        Some(Value::NUMBER)
    }

    /// A below or a sum.
    fn of_two_places(&mut self) -> Written {
        let first = self.place_like(Chain::NUMBER)?;
        let second = self.place_like(Chain::NUMBER)?;
        for place in [first, second] {
            if self.environment.number_at(place).is_err() && !self.careless() {
                return None;
            }
        }
        let kind = operands::of_two_places(self.random, self.version);
        let mut row = row_at(kind, first);
        row[3..].copy_from_slice(&[second.root as u32, second.follows as u32]);
        self.push(row)?;
        Some(Value::NUMBER)
    }

    /// A term of any type.
    pub(super) fn any_value(&mut self, levels: u32) -> Written {
        let inner = levels > 1 && !self.crowded();
        if inner && self.boxes > 0 && self.random.percent(self.habits.boxing) {
            return self.boxed(levels, None);
        }
        if self.chooses(levels, 2) {
            return self.choice(levels, Last::Any);
        }
        let choice = self.random.below(100);
        if inner && choice < self.habits.nesting {
            return self.block(levels, NARROW.min(self.habits.widest), Last::Any);
        }
        let kind = match choice {
            0..=21 => return self.number(),
            22..=29 => return self.of_two_places(),
            30..=44 => COPY,
            45..=59 => MOVE,
            60..=81 => SHARED,
            _ => EXCLUSIVE,
        };
        match self.place() {
            Some(place) => self.at_place(kind, place),
            None => self.number(),
        }
    }

    /// A term of a given type.
    pub(super) fn value_like(&mut self, chain: Chain, levels: u32) -> Written {
        let inner = levels > 1 && !self.crowded();
        if self.chooses(levels, 2) {
            return self.choice(levels, Last::Like(chain));
        }
        if inner && self.random.percent(self.habits.nesting + 5) {
            let widest = NARROW.min(self.habits.widest);
            return self.block(levels, widest, Last::Like(chain));
        }
        if chain.is_number() {
            return match self.random.below(9) {
                0..=2 => self.of_two_places(),
                3..=6 => self.moved_or_copied(chain),
                _ => self.number(),
            };
        }
        if self.random.percent(35) {
            return self.moved_or_copied(chain);
        }
        let rest = chain.after(1);
        if chain == rest.behind(Link::Box)? {
            return if levels > 1 {
                self.boxed(levels, Some(rest))
            } else {
                None
            };
        }
        self.borrow_like(chain)
    }

    /// A borrow of a given type.
    pub(super) fn borrow_like(&mut self, chain: Chain) -> Written {
        let place = self.place_like(chain.after(1))?;
        let kind = if chain.starts_shared() {
            SHARED
        } else {
            EXCLUSIVE
        };
        self.at_place(kind, place)
    }

    fn moved_or_copied(&mut self, chain: Chain) -> Written {
        let place = self.place_like(chain)?;
        let copied = chain.is_number() || chain.starts_shared() || self.careless();
        let kind = if copied && self.random.percent(60) {
            COPY
        } else {
            MOVE
        };
        self.at_place(kind, place)
    }

    /// A box round a term of a given type, or of any.
    fn boxed(&mut self, levels: u32, inner: Option<Chain>) -> Written {
        self.boxes = self.boxes.checked_sub(1)?;
        self.push([BOX, 0, 0, 0, 0])?;
        let value = match inner {
            Some(chain) => self.value_like(chain, levels - 1)?,
            None => self.any_value(levels - 1)?,
        };
        match value.chain.behind(Link::Box) {
            Some(chain) => Some(Value { chain, ..value }),
            None => self.careless().then_some(Value::NUMBER),
        }
    }
}
