//! The rules of the terms that are judged by places alone (LANGUAGE 3.16, 3.19
//! to 3.22, 3.25, 3.27). Errors are the refusal numbers, tested in the order in
//! which the rules list them (3.17).

use super::chain::{Chain, Link};
use super::environment::{Environment, Place, Value};
use super::roots::Roots;
use crate::refusal::*;

impl<const VARIABLES: usize> Environment<'_, VARIABLES> {
    /// Root in scope and long enough chain.
    #[inline]
    fn reachable(&self, place: Place) -> Result<(), u32> {
        if !self.in_scope(place.root) {
            return Err(OUT_OF_SCOPE);
        }
        if place.follows as u32 > self.chain(place.root).links() {
            return Err(CHAIN_SHORT);
        }
        Ok(())
    }

    /// Nothing moved away on the path nor of the value, which have the same
    /// number.
    #[inline]
    fn whole(&self, place: Place) -> Result<(), u32> {
        if self.is_whole(place.root) {
            Ok(())
        } else {
            Err(MOVED_AWAY)
        }
    }

    /// What copy, shared borrow, below, sum and choice have in common.
    #[inline]
    fn judge_read(&self, place: Place) -> Result<(), u32> {
        self.reachable(place)?;
        self.whole(place)?;
        if self.reading_barred(place.root) {
            return Err(READING_BARRED);
        }
        Ok(())
    }

    pub(crate) fn copy(&self, place: Place) -> Result<Value, u32> {
        self.judge_read(place)?;
        let chain = self.chain(place.root).after(place.follows);
        if chain.is_number() {
            return Ok(Value::NUMBER);
        }
        if !chain.starts_shared() {
            return Err(NOT_COPIED);
        }
        let borrowed = self.borrowed_at(place).ok_or(MOVED_AWAY)?;
        Ok(Value { chain, borrowed })
    }

    /// The roots of the places that the shared link at a place may stand for.
    /// It is the first borrow link of each variable that may own it.
    #[inline]
    fn borrowed_at(&self, place: Place) -> Option<Roots> {
        self.locate(place).map(|owners| self.borrowed(owners))
    }

    /// The roots of the places that a shared borrow of a place is recorded
    /// against (LANGUAGE 3.21): where shared links are passed, of what the last
    /// of them borrows. The follows that remain are known with each root, as
    /// the recorded places lead to the type that the named one leads to.
    #[inline]
    pub(crate) fn recorded(&self, place: Place) -> Option<Roots> {
        match self.chain(place.root).last_shared(place.follows) {
            Some(follows) => self.borrowed_at(Place { follows, ..place }),
            None => Some(Roots::one(place.root)),
        }
    }

    pub(crate) fn move_out(&mut self, place: Place) -> Result<Value, u32> {
        self.reachable(place)?;
        let chain = self.chain(place.root);
        if chain.passes_borrow(place.follows) {
            return Err(MOVE_BEHIND_BORROW);
        }
        self.whole(place)?;
        if self.writing_barred(place.root) {
            return Err(WRITING_BARRED);
        }
        self.move_away(place);
        Ok(Value {
            chain: chain.after(place.follows),
            borrowed: self.borrowed(Roots::one(place.root)),
        })
    }

    pub(crate) fn borrow_shared(&self, place: Place) -> Result<Value, u32> {
        self.judge_read(place)?;
        // All tests are about the named place, also where another one is
        // recorded.
        let chain = self.borrow_chain(place, Link::Shared)?;
        let borrowed = self.recorded(place).ok_or(MOVED_AWAY)?;
        Ok(Value { chain, borrowed })
    }

    pub(crate) fn borrow_exclusive(&self, place: Place) -> Result<Value, u32> {
        self.reachable(place)?;
        self.whole(place)?;
        if self.chain(place.root).passes_shared(place.follows) {
            return Err(BEHIND_SHARED);
        }
        if self.writing_barred(place.root) {
            return Err(WRITING_BARRED);
        }
        Ok(Value {
            chain: self.borrow_chain(place, Link::Exclusive)?,
            borrowed: Roots::one(place.root),
        })
    }

    /// The type of a borrow of a place.
    #[inline]
    fn borrow_chain(&self, place: Place, link: Link) -> Result<Chain, u32> {
        let chain = self.chain(place.root).after(place.follows);
        chain.behind(link).ok_or(TOO_MANY_LINKS)
    }

    /// The rules of an assign once its right side has given a value.
    pub(crate) fn assign(&mut self, place: Place, value: Value) -> Result<(), u32> {
        self.reachable(place)?;
        let written = self.locate(place).ok_or(MOVED_AWAY)?;
        let chain = self.chain(place.root);
        if chain.passes_shared(place.follows) {
            return Err(BEHIND_SHARED);
        }
        if chain.after(place.follows) != value.chain {
            return Err(OTHER_TYPE);
        }
        if !self.outlive(value.borrowed, written) {
            return Err(LIVES_TOO_SHORT);
        }
        self.put(written, value);
        if self.writing_barred(place.root) {
            return Err(WRITING_BARRED);
        }
        Ok(())
    }

    /// One of the two places of a below or a sum, or the place of a choice.
    pub(crate) fn number_at(&self, place: Place) -> Result<(), u32> {
        self.judge_read(place)?;
        if !self.chain(place.root).after(place.follows).is_number() {
            return Err(OTHER_TYPE);
        }
        Ok(())
    }
}
