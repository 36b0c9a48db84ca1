//! The ownership check (LANGUAGE 3): terms judged in order against an
//! environment.

pub(crate) mod chain;
pub(crate) mod environment;
mod following;
mod places;
pub(crate) mod roots;
pub(crate) mod uses;

use crate::form::*;
use crate::limits::Limits;
use crate::refusal::*;
use chain::Link;
use environment::{Environment, Place, Value};
use uses::Uses;

/// Judges term rows by 74, 2, then 12 to 19, then the ownership rules, and
/// answers the number of terms of an accepted script.
pub fn check(limits: Limits, rows: &[u32]) -> Result<u32, Refusal> {
    let rows = lent_rows(limits, rows)?;
    let judged = judge_all(limits, NEWEST, rows)?;
    check_judged(limits, &rows[..judged.terms])?;
    Ok(judged.terms as u32)
}

/// The same by the rule before borrows ended at their last use: every variable
/// in scope counts as one in use. For tests, which tell by it where the present
/// rule decides: a bar that is asked of a root with a holder is 34 or 35 here,
/// and up to there both rules go the same way.
pub fn check_by_scope(limits: Limits, rows: &[u32]) -> Result<u32, Refusal> {
    let rows = lent_rows(limits, rows)?;
    let judged = judge_all(limits, NEWEST, rows)?;
    let rows = &rows[..judged.terms];
    check_terms::<{ Limits::LARGEST.variables as usize }>(rows, Uses::unending())?;
    Ok(judged.terms as u32)
}

/// Judges rows of a right form by the ownership rules.
#[inline]
pub(crate) fn check_judged(limits: Limits, rows: &[Row]) -> Result<(), Refusal> {
    // A small set has a small environment, which is set up with each call.
    if limits.variables <= Limits::BASE.variables {
        check_terms::<{ Limits::BASE.variables as usize }>(rows, Uses::of(rows))
    } else {
        check_terms::<{ Limits::LARGEST.variables as usize }>(rows, Uses::of(rows))
    }
}

/// Judges all terms in an environment of so many variables.
fn check_terms<'a, const VARIABLES: usize>(
    rows: &'a [Row],
    uses: Uses<'a, VARIABLES>,
) -> Result<(), Refusal> {
    let mut judge = Judge::<VARIABLES> {
        rows,
        next: 0,
        environment: Environment::new(uses),
    };
    match judge.term()? {
        Some(answer) if answer.chain.is_number() => Ok(()),
        _ => Err(Refusal::new(ANSWER_NO_NUMBER, 0)),
    }
}

struct Judge<'a, const VARIABLES: usize> {
    rows: &'a [Row],
    /// The term that is judged next.
    next: usize,
    environment: Environment<'a, VARIABLES>,
}

/// The place in a row's operands from `field` on.
#[inline]
fn place(row: &Row, field: usize) -> Place {
    Place {
        root: row[field] as u8,
        follows: row[field + 1] as u8,
    }
}

impl<const VARIABLES: usize> Judge<'_, VARIABLES> {
    /// Judges the next term with everything inside it. Let, assign and blocks
    /// that end with them have no value.
    fn term(&mut self) -> Result<Option<Value>, Refusal> {
        let term = self.next;
        self.next += 1;
        let row = &self.rows[term];
        let environment = &mut self.environment;
        environment.uses.go_to(term);
        let judged = match row[0] {
            NUMBER | READING => Ok(Value::NUMBER),
            COPY => environment.copy(place(row, 1)),
            MOVE => environment.move_out(place(row, 1)),
            SHARED => environment.borrow_shared(place(row, 1)),
            EXCLUSIVE => environment.borrow_exclusive(place(row, 1)),
            BOX => return self.boxed(term).map(Some),
            LET => return self.declared(term, row[1] as u8).map(|()| None),
            ASSIGN => return self.assigned(term, place(row, 1)).map(|()| None),
            BELOW | SUM => environment
                .number_at(place(row, 1))
                .and_then(|()| environment.number_at(place(row, 3)))
                .map(|()| Value::NUMBER),
            CHOICE => return self.choice(term, place(row, 1)),
            _ => return self.block(term, row[1]),
        };
        judged
            .map(Some)
            .map_err(|number| Refusal::new(number, term))
    }

    /// Judges the term inside another one, which needs a value of it.
    fn inner(&mut self, outer: usize) -> Result<Value, Refusal> {
        self.term()?.ok_or(Refusal::new(NO_VALUE, outer))
    }

    fn boxed(&mut self, term: usize) -> Result<Value, Refusal> {
        let value = self.inner(term)?;
        match value.chain.behind(Link::Box) {
            Some(chain) => Ok(Value { chain, ..value }),
            None => Err(Refusal::new(TOO_MANY_LINKS, term)),
        }
    }

    fn declared(&mut self, term: usize, variable: u8) -> Result<(), Refusal> {
        // The number is taken before the inner term, which must not declare
        // it again.
        if !self.environment.take(variable) {
            return Err(Refusal::new(NUMBER_TAKEN, term));
        }
        let value = self.inner(term)?;
        self.environment.declare(variable, value);
        Ok(())
    }

    fn assigned(&mut self, term: usize, place: Place) -> Result<(), Refusal> {
        // The right side goes first: it may move away what the place passes.
        // The root is in use meanwhile, and what only the right side names is
        // no longer.
        let before = self.environment.uses.begin(place.root);
        let value = self.inner(term)?;
        self.environment.uses.go_to(self.next);
        self.environment
            .assign(place, value)
            .map_err(|number| Refusal::new(number, term))?;
        self.environment.uses.finish(before);
        Ok(())
    }

    fn block(&mut self, term: usize, count: u32) -> Result<Option<Value>, Refusal> {
        let entered = self.environment.enter();
        let mut last = None;
        for _ in 0..count {
            last = self.term()?;
        }
        if last.is_some_and(|value| self.environment.live_innermost(value.borrowed)) {
            return Err(Refusal::new(LIVES_TOO_SHORT, term));
        }
        self.environment.leave(entered);
        Ok(last)
    }

    /// Judges both blocks of a choice from the state before them, with the root
    /// of its place in use. Taken numbers are no part of what is gone back to.
    fn choice(&mut self, term: usize, place: Place) -> Result<Option<Value>, Refusal> {
        let refused = |number| Refusal::new(number, term);
        self.environment.number_at(place).map_err(refused)?;
        let before = self.environment.uses.begin(place.root);
        let mut conditions = self.environment.conditions();
        let first = self.term()?;
        self.environment.exchange(&mut conditions);
        let second = self.term()?;
        self.environment.join(&conditions);
        self.environment.uses.finish(before);
        match (first, second) {
            (None, None) => Ok(None),
            (Some(first), Some(second)) if first.chain == second.chain => {
                Ok(Some(first.or(second)))
            }
            _ => Err(refused(OTHER_TYPE)),
        }
    }
}
