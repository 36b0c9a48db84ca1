//! Until when variables are in use, and who bars reading and writing (LANGUAGE
//! 3.11, 3.12): only holders that are in use do.
//!
//! A variable is in use until the last term that names it has finished, and
//! for as long as one in use holds a borrow of a place with its root.

use super::environment::Environment;
use super::roots::Roots;
use crate::form::*;
use std::cell::OnceCell;

/// Which variables are still to be named, told at the term that is judged. The
/// terms not finished then are those from some row on, in the order of the
/// rows, and those around it.
#[derive(Clone)]
pub(crate) struct Uses<'a, const VARIABLES: usize> {
    rows: &'a [Row],
    /// The row after the last that names it, of each variable. Only looked for
    /// once it is asked.
    ends: OnceCell<[u16; VARIABLES]>,
    /// The first row of which no term has finished or is around.
    from: u16,
    /// The variables that the terms around name.
    around: Roots,
}

/// The row after the last that names a variable, of each, 0 if there is none.
fn ends_of<const VARIABLES: usize>(rows: &[Row]) -> [u16; VARIABLES] {
    let mut ends = [0; VARIABLES];
    for (term, row) in rows.iter().enumerate() {
        let end = term as u16 + 1;
        match row[0] {
            COPY..=EXCLUSIVE | LET | ASSIGN | CHOICE => ends[row[1] as usize] = end,
            BELOW | SUM => {
                ends[row[1] as usize] = end;
                ends[row[3] as usize] = end;
            }
            _ => {}
        }
    }
    ends
}

impl<'a, const VARIABLES: usize> Uses<'a, VARIABLES> {
    /// As these rows name variables.
    #[inline]
    pub(crate) fn of(rows: &'a [Row]) -> Self {
        Uses {
            rows,
            ends: OnceCell::new(),
            from: 0,
            around: Roots::NONE,
        }
    }

    /// Every variable in use for good, so that all in scope bar.
    pub(crate) fn unending() -> Self {
        Uses {
            ends: OnceCell::from([u16::MAX; VARIABLES]),
            ..Self::of(&[])
        }
    }

    /// The terms from this row on have not finished.
    #[inline]
    pub(crate) fn go_to(&mut self, row: usize) {
        self.from = row as u16;
    }

    /// A term that names a variable is now around what is judged. The answer
    /// is for `finish`.
    #[inline]
    pub(crate) fn begin(&mut self, variable: u8) -> Roots {
        let before = self.around;
        self.around = before.with(Roots::one(variable));
        before
    }

    /// The term of that `begin` has finished.
    #[inline]
    pub(crate) fn finish(&mut self, before: Roots) {
        self.around = before;
    }

    /// Whether a term that has not finished names a variable.
    #[inline]
    fn names(&self, variable: u8) -> bool {
        let ends = self.ends.get_or_init(|| ends_of(self.rows));
        ends[variable as usize] > self.from || self.around.contains(variable)
    }
}

impl<const VARIABLES: usize> Environment<'_, VARIABLES> {
    #[inline]
    pub(crate) fn reading_barred(&self, root: u8) -> bool {
        self.any_in_use(self.exclusive_holders(root))
    }

    #[inline]
    pub(crate) fn writing_barred(&self, root: u8) -> bool {
        self.any_in_use(self.holders(root))
    }

    /// Whether one of these variables is in use. From holder to holder it is
    /// looked for one that is named: a circle of holders of which none is does
    /// not keep itself in use.
    #[inline]
    fn any_in_use(&self, variables: Roots) -> bool {
        let mut met = variables;
        let mut waiting = variables;
        while let Some(variable) = waiting.next() {
            if self.uses.names(variable) {
                return true;
            }
            let unmet = self.holders(variable).without(met);
            met = met.with(unmet);
            waiting = waiting.with(unmet);
        }
        false
    }
}

/// What authors of scripts go by, who do not know the rows to come: every
/// variable is in use until they give it up.
impl<const VARIABLES: usize> Environment<'_, VARIABLES> {
    /// The variables that may still be named, in scope and not given up.
    pub(crate) fn variables_to_name(&self) -> impl Iterator<Item = u8> + '_ {
        let scope = self.variables_in_scope().iter().copied();
        scope.filter(|variable| self.may_be_named(*variable))
    }

    pub(crate) fn may_be_named(&self, variable: u8) -> bool {
        self.uses.names(variable)
    }

    /// From here on a variable is named no more.
    pub(crate) fn give_up(&mut self, variable: u8) {
        let ends = self.uses.ends.get_mut().expect("an author's");
        ends[variable as usize] = 0;
    }

    /// The holders of a root that may still be named, and those of its holders,
    /// and so on.
    pub(crate) fn keepers(&self, root: u8) -> Roots {
        let mut met = self.holders(root);
        let mut waiting = met;
        while let Some(variable) = waiting.next() {
            let unmet = self.holders(variable).without(met);
            met = met.with(unmet);
            waiting = waiting.with(unmet);
        }
        let named = met.filter(|variable| self.uses.names(*variable));
        named.fold(Roots::NONE, |all, one| all.with(Roots::one(one)))
    }
}
