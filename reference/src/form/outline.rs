//! The outline of a script while its terms are met one after the other: how
//! many there are so far, how many of them are boxes, and which terms around
//! the next one still wait for inner terms. Reader and row judge share it.

use super::kind::{inner_terms, BLOCK, BOX, CHOICE};
use super::version::Kinds;
use super::Row;
use crate::limits::Limits;
use crate::refusal::{NO_BLOCK, TOO_DEEP, TOO_MANY_BOXES, TOO_MANY_TERMS, UNKNOWN_KIND};

pub(super) struct Outline {
    limits: Limits,
    kinds: Kinds,
    pub(super) terms: usize,
    boxes: u32,
    /// How many terms are open around the next one.
    depth: usize,
    /// For each open term, the inner terms it still waits for.
    left: [u8; Limits::LARGEST.levels as usize],
    /// A bit for each depth at which nothing but a block may stand: the
    /// outermost one, and those inside a choice.
    only_blocks: u64,
}

impl Outline {
    /// Of a script of a version that there is.
    pub(super) fn new(limits: Limits, version: u32) -> Self {
        Outline {
            limits,
            kinds: Kinds::of(version),
            terms: 0,
            boxes: 0,
            depth: 0,
            left: [0; Limits::LARGEST.levels as usize],
            only_blocks: 1,
        }
    }

    /// Judges a kind that is there, in the order 13, 18, 16, 15, 17, and
    /// counts its term. The error is the refusal number; the caller knows the
    /// place.
    #[inline(always)]
    pub(super) fn begin(&mut self, kind: u32) -> Result<(), u32> {
        if !self.kinds.has(kind) {
            return Err(UNKNOWN_KIND);
        }
        if kind != BLOCK && self.only_blocks >> self.depth & 1 == 1 {
            return Err(NO_BLOCK);
        }
        if self.terms == self.limits.terms as usize {
            return Err(TOO_MANY_TERMS);
        }
        if self.depth == self.limits.levels as usize {
            return Err(TOO_DEEP);
        }
        if kind == BOX {
            if self.boxes == self.limits.boxes {
                return Err(TOO_MANY_BOXES);
            }
            self.boxes += 1;
        }
        self.terms += 1;
        Ok(())
    }

    /// The operands of the last term are through, and its inner terms follow.
    /// Answers whether the whole script is complete.
    #[inline(always)]
    pub(super) fn end(&mut self, row: &Row) -> bool {
        let inner = inner_terms(row);
        if inner > 0 {
            self.left[self.depth] = inner;
            self.depth += 1;
            let choice = (row[0] == CHOICE) as u64;
            self.only_blocks &= !(1 << self.depth);
            self.only_blocks |= choice << self.depth;
            return false;
        }
        // A term without inner terms completes every term that waited for
        // nothing but it.
        while self.depth > 0 {
            let left = &mut self.left[self.depth - 1];
            *left -= 1;
            if *left > 0 {
                return false;
            }
            self.depth -= 1;
        }
        true
    }
}
