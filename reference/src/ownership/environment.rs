//! The environment of the check (LANGUAGE 3.6 to 3.15): which variables there
//! are, what state each is in, and who holds borrows of whom.

use super::chain::Chain;
use super::roots::Roots;
use super::uses::Uses;

/// A variable and the links to follow from it.
#[derive(Clone, Copy, Debug, PartialEq, Eq)]
pub(crate) struct Place {
    pub(crate) root: u8,
    pub(crate) follows: u8,
}

/// What a term gives. `borrowed` has the roots of the places that the first
/// borrow link of the chain may stand for, none if there is no such link.
#[derive(Clone, Copy, Debug)]
pub(crate) struct Value {
    pub(crate) chain: Chain,
    pub(crate) borrowed: Roots,
}

impl Value {
    pub(crate) const NUMBER: Value = Value {
        chain: Chain::NUMBER,
        borrowed: Roots::NONE,
    };

    /// One of two values of the same type, whichever it is.
    pub(crate) fn or(self, other: Value) -> Value {
        Value {
            chain: self.chain,
            borrowed: self.borrowed.with(other.borrowed),
        }
    }
}

/// `Condition::moved` of a variable of which nothing is moved away. Larger
/// than every link number.
pub(super) const NOTHING: u8 = u8::MAX;

/// `Variable::level` of a number that no let has taken.
const FREE: u8 = 0;

/// `Variable::level` of a number that is taken, not yet or no longer in scope.
/// Larger than every level.
const TAKEN: u8 = u8::MAX;

/// What later terms may change of a variable.
#[derive(Clone, Copy, Debug, PartialEq, Eq)]
pub(crate) struct Condition {
    /// From which link on it is moved away.
    pub(super) moved: u8,
    /// As in a value.
    pub(super) borrowed: Roots,
}

impl Condition {
    fn whole(borrowed: Roots) -> Self {
        Condition {
            moved: NOTHING,
            borrowed,
        }
    }
}

#[derive(Clone, Copy)]
pub(super) struct Variable {
    /// The two parts of its condition. They stand apart, as a variable takes
    /// less room so.
    borrowed: Roots,
    moved: u8,
    pub(super) chain: Chain,
    /// The level of the block it lives in, while it is in scope. Of two
    /// variables in scope, one lives in the block of the other or in one
    /// around it exactly if its level is not the higher one.
    level: u8,
    /// The variables that hold a borrow of a place with this root.
    holders: Roots,
}

impl Variable {
    /// Of a number that no let was judged of yet.
    const UNUSED: Variable = Variable {
        borrowed: Roots::NONE,
        moved: 0,
        chain: Chain::NUMBER,
        level: FREE,
        holders: Roots::NONE,
    };

    #[inline]
    pub(super) fn condition(&self) -> Condition {
        Condition {
            moved: self.moved,
            borrowed: self.borrowed,
        }
    }
}

/// Of so many variables, or fewer. The generators keep one of their own and go
/// back to earlier copies of it.
#[derive(Clone)]
pub(crate) struct Environment<'a, const VARIABLES: usize> {
    variables: [Variable; VARIABLES],
    /// The variables in scope, in the order of their lets.
    order: [u8; VARIABLES],
    count: usize,
    level: u8,
    /// The variables whose first borrow link is exclusive.
    exclusive: Roots,
    pub(crate) uses: Uses<'a, VARIABLES>,
}

impl<'a, const VARIABLES: usize> Environment<'a, VARIABLES> {
    #[inline]
    pub(crate) fn new(uses: Uses<'a, VARIABLES>) -> Self {
        Environment {
            variables: [Variable::UNUSED; VARIABLES],
            order: [0; VARIABLES],
            count: 0,
            level: 0,
            exclusive: Roots::NONE,
            uses,
        }
    }

    #[inline]
    pub(super) fn variable(&self, number: u8) -> &Variable {
        &self.variables[number as usize]
    }

    #[inline]
    pub(crate) fn in_scope(&self, variable: u8) -> bool {
        (FREE + 1..TAKEN).contains(&self.variable(variable).level)
    }

    /// The variables in scope, in the order of their lets.
    pub(crate) fn variables_in_scope(&self) -> &[u8] {
        &self.order[..self.count]
    }

    pub(crate) fn is_taken(&self, variable: u8) -> bool {
        self.variable(variable).level != FREE
    }

    /// Takes a variable number for good; false if it was taken before.
    #[inline]
    pub(crate) fn take(&mut self, variable: u8) -> bool {
        let free = !self.is_taken(variable);
        if free {
            self.variables[variable as usize].level = TAKEN;
        }
        free
    }

    /// The link kinds of a variable as its let has fixed them.
    #[inline]
    pub(crate) fn chain(&self, variable: u8) -> Chain {
        self.variable(variable).chain
    }

    /// The roots of the places that the first borrow links of these variables
    /// may stand for.
    #[inline]
    pub(crate) fn borrowed(&self, variables: Roots) -> Roots {
        variables.fold(Roots::NONE, |borrowed, variable| {
            borrowed.with(self.variable(variable).borrowed)
        })
    }

    /// The variables that hold a borrow of a place with this root.
    #[inline]
    pub(crate) fn holders(&self, root: u8) -> Roots {
        self.variable(root).holders
    }

    /// Those of them that hold an exclusive one.
    #[inline]
    pub(super) fn exclusive_holders(&self, root: u8) -> Roots {
        self.holders(root).within(self.exclusive)
    }

    /// Whether each of these roots lives in the block of each of the variables
    /// or in one around it.
    #[inline]
    pub(crate) fn outlive(&self, mut roots: Roots, variables: Roots) -> bool {
        roots.all(|root| {
            let level = self.variable(root).level;
            let mut variables = variables;
            variables.all(|variable| level <= self.variable(variable).level)
        })
    }

    /// Whether one of these roots lives in the innermost block.
    #[inline]
    pub(crate) fn live_innermost(&self, mut roots: Roots) -> bool {
        roots.any(|root| self.variable(root).level == self.level)
    }

    /// The roots of the places that a variable holds borrows of.
    #[inline]
    fn held(&self, variable: u8) -> Roots {
        let condition = self.variable(variable).condition();
        // A move passes no borrow link, so it always takes the first one along.
        match condition.moved {
            NOTHING => condition.borrowed,
            _ => Roots::NONE,
        }
    }

    /// A variable is entered with each root that it holds a borrow of.
    #[inline]
    fn hold(&mut self, variable: u8) {
        let holder = Roots::one(variable);
        for root in self.held(variable) {
            let root = &mut self.variables[root as usize];
            root.holders = root.holders.with(holder);
        }
    }

    /// It is entered there no longer.
    #[inline]
    fn release(&mut self, variable: u8) {
        let holder = Roots::one(variable);
        for root in self.held(variable) {
            let root = &mut self.variables[root as usize];
            root.holders = root.holders.without(holder);
        }
    }

    /// Changes the condition of a variable, and what it holds with it.
    #[inline]
    fn change(&mut self, variable: u8, condition: Condition) {
        self.release(variable);
        let Condition { moved, borrowed } = condition;
        let of = &mut self.variables[variable as usize];
        (of.moved, of.borrowed) = (moved, borrowed);
        self.hold(variable);
    }

    pub(crate) fn declare(&mut self, variable: u8, value: Value) {
        // Nothing borrows from it yet.
        self.variables[variable as usize] = Variable {
            borrowed: value.borrowed,
            moved: NOTHING,
            chain: value.chain,
            level: self.level,
            ..Variable::UNUSED
        };
        self.order[self.count] = variable;
        self.count += 1;
        if value.chain.borrows_exclusively() {
            self.exclusive = self.exclusive.with(Roots::one(variable));
        }
        self.hold(variable);
    }

    /// Moves away from a variable's link on.
    pub(crate) fn move_away(&mut self, place: Place) {
        let moved = place.follows;
        let condition = self.variable(place.root).condition();
        self.change(place.root, Condition { moved, ..condition });
    }

    /// Puts a value with the same link kinds into the variable that is
    /// written. If it may be one of several, each of them may as well keep
    /// what it had.
    pub(crate) fn put(&mut self, written: Roots, value: Value) {
        if let Some(variable) = written.single() {
            return self.change(variable, Condition::whole(value.borrowed));
        }
        for variable in written {
            let mut condition = self.variable(variable).condition();
            condition.borrowed = condition.borrowed.with(value.borrowed);
            self.change(variable, condition);
        }
    }

    /// The conditions of the variables in scope, in the order of their lets.
    pub(crate) fn conditions(&self) -> Vec<Condition> {
        let conditions = self.variables_in_scope().iter();
        conditions
            .map(|variable| self.variable(*variable).condition())
            .collect()
    }

    /// Goes back to earlier conditions of the variables in scope, and leaves
    /// the present ones in their stead.
    pub(crate) fn exchange(&mut self, conditions: &mut [Condition]) {
        for (index, other) in conditions.iter_mut().enumerate() {
            let variable = self.order[index];
            let present = self.variable(variable).condition();
            if present != *other {
                self.change(variable, *other);
                *other = present;
            }
        }
    }

    /// Joins the present conditions of the variables in scope with others that
    /// they may be in as well: a variable is moved away from the earlier link
    /// on, and its borrow link may stand for the places of both.
    pub(crate) fn join(&mut self, conditions: &[Condition]) {
        for (index, other) in conditions.iter().enumerate() {
            let variable = self.order[index];
            let present = self.variable(variable).condition();
            if present != *other {
                let joined = Condition {
                    moved: present.moved.min(other.moved),
                    borrowed: present.borrowed.with(other.borrowed),
                };
                self.change(variable, joined);
            }
        }
    }

    /// Enters a block; the answer is for `leave`.
    #[inline]
    pub(crate) fn enter(&mut self) -> usize {
        self.level += 1;
        self.count
    }

    /// The variables of the innermost block leave scope.
    pub(crate) fn leave(&mut self, entered: usize) {
        while self.count > entered {
            self.count -= 1;
            let variable = self.order[self.count];
            self.release(variable);
            self.variables[variable as usize].level = TAKEN;
        }
        self.level -= 1;
    }
}
