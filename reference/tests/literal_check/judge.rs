//! The ownership rules once more (LANGUAGE 3), written for closeness to the
//! text of the rules instead of speed: chains as lists, and every question
//! about borrows answered by looking at every variable.

mod recording;
mod seen;
mod state;
mod uses;

pub use recording::Recording;
use reference::{judge_rows, Limits};
pub use seen::Seen;
use state::Link::*;
use state::{Link, Place, Places, Value, Variable};
use std::collections::BTreeSet;
pub use uses::Using;

pub type Refused = (u32, u32);

struct Judge<'a> {
    rows: Vec<&'a [u32]>,
    next: usize,
    taken: Vec<u32>,
    in_scope: Vec<Variable>,
    /// The terms of the blocks around, outermost first.
    blocks: Vec<usize>,
    recording: Recording,
    using: Using,
    /// All terms in the order in which they finish, each with what it names.
    order: Vec<(usize, Vec<u32>)>,
    finished: BTreeSet<usize>,
    /// The term that is judged.
    judged: usize,
    seen: Seen,
}

fn rule(holds: bool, number: u32) -> Result<(), u32> {
    if holds {
        Ok(())
    } else {
        Err(number)
    }
}

impl Judge<'_> {
    fn find(&self, number: u32) -> Option<&Variable> {
        self.in_scope
            .iter()
            .find(|variable| variable.number == number)
    }

    fn variable(&self, number: u32) -> &Variable {
        self.find(number).expect("in scope")
    }

    fn variable_mut(&mut self, number: u32) -> &mut Variable {
        let mut variables = self.in_scope.iter_mut();
        let found = variables.find(|variable| variable.number == number);
        found.expect("in scope")
    }

    fn chain_at(&self, place: Place) -> Vec<Link> {
        self.variable(place.0).chain[place.1..].to_vec()
    }

    fn passed(&self, place: Place) -> Vec<Link> {
        self.variable(place.0).chain[..place.1].to_vec()
    }

    /// The places that a place may lead to, each at a link that its root owns.
    /// Every place met goes through its own root's links, up to the first
    /// borrow link, none of which may be moved away.
    fn follow(&mut self, place: Place) -> Option<Places> {
        let mut met = vec![place];
        let mut ends = Places::new();
        let mut index = 0;
        while let Some(&(root, follows)) = met.get(index) {
            index += 1;
            let variable = self.variable(root);
            let passed = variable.first_borrow().filter(|link| *link < follows);
            let own = passed.map_or(follows, |link| link + 1);
            if (0..own).any(|link| variable.is_moved(link)) {
                return None;
            }
            let Some(link) = passed else {
                ends.insert((root, follows));
                continue;
            };
            for (root, further) in variable.borrowed.clone() {
                let next = (root, further + follows - link - 1);
                if met.contains(&next) {
                    self.seen.met_again += 1;
                } else {
                    met.push(next);
                }
            }
        }
        Some(ends)
    }

    /// Nothing moved away from a place on, wherever it may lead.
    fn whole(&mut self, place: Place) -> bool {
        let links = self.chain_at(place).len();
        (0..=links).all(|more| match self.follow((place.0, place.1 + more)) {
            Some(ends) => ends
                .iter()
                .all(|(root, at)| !self.variable(*root).is_moved(*at)),
            None => false,
        })
    }

    fn reading_barred(&mut self, root: u32) -> bool {
        self.barred(root, &[Exclusive])
    }

    fn writing_barred(&mut self, root: u32) -> bool {
        self.barred(root, &[Shared, Exclusive])
    }

    /// Whether one in use holds a borrow of these kinds of a place with a root.
    fn barred(&mut self, root: u32, kinds: &[Link]) -> bool {
        let mut holders = self.in_scope.clone();
        holders.retain(|holder| holder.holds(root).is_some_and(|link| kinds.contains(&link)));
        if holders.is_empty() {
            return false;
        }
        self.seen.asked_of_held += 1;
        let in_use = self.in_use(self.judged);
        holders.iter().any(|holder| in_use.contains(&holder.number))
    }

    fn reachable(&self, place: Place) -> Result<(), u32> {
        let variable = self.find(place.0).ok_or(31_u32)?;
        rule(place.1 <= variable.chain.len(), 32)
    }

    fn place(&mut self, place: Place) -> Result<Places, u32> {
        self.reachable(place)?;
        self.follow(place).ok_or(33)
    }

    fn readable(&mut self, place: Place) -> Result<Places, u32> {
        let found = self.place(place)?;
        rule(self.whole(place), 33)?;
        rule(!self.reading_barred(place.0), 34)?;
        Ok(found)
    }

    fn copy(&mut self, place: Place) -> Result<Value, u32> {
        let found = self.readable(place)?;
        let chain = self.chain_at(place);
        rule(chain.is_empty() || chain[0] == Shared, 37)?;
        let owners = found.iter().map(|owner| self.variable(owner.0));
        let borrowed = owners.flat_map(|owner| owner.borrowed.clone()).collect();
        Ok(Value { chain, borrowed })
    }

    fn mov(&mut self, place: Place) -> Result<Value, u32> {
        self.reachable(place)?;
        rule(self.passed(place).iter().all(|link| *link == Box), 38)?;
        rule(self.follow(place).is_some() && self.whole(place), 33)?;
        rule(!self.writing_barred(place.0), 35)?;
        let chain = self.chain_at(place);
        let borrowed = self.variable(place.0).borrowed.clone();
        self.variable_mut(place.0).moved = Some(place.1);
        Ok(Value { chain, borrowed })
    }

    fn borrow(&mut self, place: Place, link: Link) -> Result<Value, u32> {
        let mut borrowed = Places::from([place]);
        if link == Shared {
            self.readable(place)?;
            borrowed = self.recorded(place);
        } else {
            self.place(place)?;
            rule(self.whole(place), 33)?;
            rule(!self.passed(place).contains(&Shared), 36)?;
            rule(!self.writing_barred(place.0), 35)?;
        }
        let mut chain = vec![link];
        chain.extend(self.chain_at(place));
        rule(chain.len() <= 8, 42)?;
        Ok(Value { chain, borrowed })
    }

    fn number_at(&mut self, place: Place) -> Result<(), u32> {
        self.readable(place)?;
        rule(self.chain_at(place).is_empty(), 39)
    }

    fn assign(&mut self, place: Place, value: Value) -> Result<(), u32> {
        let written = self.place(place)?;
        rule(!self.passed(place).contains(&Shared), 36)?;
        rule(self.chain_at(place) == value.chain, 39)?;
        for (root, _) in &value.borrowed {
            let position = |root| {
                let lives = self.variable(root).block;
                self.blocks.iter().position(|around| *around == lives)
            };
            let mut written = written.iter();
            let outlives = written.all(|(writes, _)| position(*root) <= position(*writes));
            rule(outlives, 40)?;
        }
        let several = written.len() > 1;
        self.seen.several_written += u32::from(several);
        self.seen.several_written_borrows += u32::from(several && !value.borrowed.is_empty());
        for (root, _) in &written {
            let variable = self.variable_mut(*root);
            if !several {
                variable.moved = None;
                variable.borrowed.clear();
            }
            variable.borrowed.extend(&value.borrowed);
        }
        rule(!self.writing_barred(place.0), 35)
    }

    fn term(&mut self) -> Result<Option<Value>, Refused> {
        let term = self.next;
        self.next += 1;
        self.judged = term;
        let value = self.kind_of_term(term)?;
        self.finished.insert(term);
        Ok(value)
    }

    fn kind_of_term(&mut self, term: usize) -> Result<Option<Value>, Refused> {
        let row = self.rows[term];
        let first = (row[1], row[2] as usize);
        let second = (row[3], row[4] as usize);
        let at = |number: u32| (number, term as u32);
        let number = Value {
            chain: vec![],
            borrowed: Places::new(),
        };
        match row[0] {
            1 | 2 => Ok(Some(number)),
            3 => self.copy(first).map(Some).map_err(at),
            4 => self.mov(first).map(Some).map_err(at),
            5 => self.borrow(first, Shared).map(Some).map_err(at),
            6 => self.borrow(first, Exclusive).map(Some).map_err(at),
            7 => {
                let mut value = self.term()?.ok_or(at(41))?;
                value.chain.insert(0, Box);
                rule(value.chain.len() <= 8, 42).map_err(at)?;
                Ok(Some(value))
            }
            8 => self.declare(term, row[1]).map(|()| None),
            9 => {
                let value = self.term()?.ok_or(at(41))?;
                self.judged = term;
                self.assign(first, value).map(|()| None).map_err(at)
            }
            10 | 13 => {
                self.number_at(first).map_err(at)?;
                self.number_at(second).map_err(at)?;
                Ok(Some(number))
            }
            12 => self.choice(term, first),
            _ => self.block(term, row[1]),
        }
    }

    fn choice(&mut self, term: usize, place: Place) -> Result<Option<Value>, Refused> {
        let at = |number: u32| (number, term as u32);
        self.number_at(place).map_err(at)?;
        let before = self.in_scope.clone();
        let first = self.term()?;
        let after_first = std::mem::replace(&mut self.in_scope, before);
        let second = self.term()?;
        for (variable, other) in self.in_scope.iter_mut().zip(&after_first) {
            let seen = &mut self.seen;
            seen.moved_in_one += u32::from(variable.moved.is_some() != other.moved.is_some());
            seen.borrowed_otherwise += u32::from(variable.borrowed != other.borrowed);
            variable.join(other);
        }
        match (first, second) {
            (None, None) => Ok(None),
            (Some(mut one), Some(two)) if one.chain == two.chain => {
                one.borrowed.extend(two.borrowed);
                Ok(Some(one))
            }
            _ => Err(at(39)),
        }
    }

    fn declare(&mut self, term: usize, number: u32) -> Result<(), Refused> {
        if self.taken.contains(&number) {
            return Err((30, term as u32));
        }
        self.taken.push(number);
        let value = self.term()?.ok_or((41, term as u32))?;
        self.in_scope.push(Variable {
            number,
            chain: value.chain,
            borrowed: value.borrowed,
            moved: None,
            block: *self.blocks.last().expect("a block around"),
        });
        Ok(())
    }

    fn block(&mut self, term: usize, count: u32) -> Result<Option<Value>, Refused> {
        self.blocks.push(term);
        let mut last = None;
        for _ in 0..count {
            last = self.term()?;
        }
        let borrowed = last.iter().flat_map(|value| &value.borrowed);
        for (root, _) in borrowed {
            if self.variable(*root).block == term {
                return Err((40, term as u32));
            }
        }
        self.in_scope.retain(|variable| variable.block != term);
        self.blocks.pop();
        Ok(last)
    }
}

/// The number of terms, with what was seen before that.
pub fn literal_check(limits: Limits, rows: &[u32]) -> Result<(u32, Seen), Refused> {
    check_by(Recording::Rule, Using::Rule, limits, rows)
}

/// The same with shared borrows recorded, or variables in use, in a way that may
/// not be the rule's.
pub fn check_by(
    recording: Recording,
    using: Using,
    limits: Limits,
    rows: &[u32],
) -> Result<(u32, Seen), Refused> {
    let terms = judge_rows(limits, rows).map_err(|refusal| (refusal.number, refusal.place))?;
    let rows: Vec<&[u32]> = rows.chunks(5).collect();
    let mut judge = Judge {
        order: uses::finishing_order(using, &rows),
        rows,
        next: 0,
        taken: vec![],
        in_scope: vec![],
        blocks: vec![],
        recording,
        using,
        finished: BTreeSet::new(),
        judged: 0,
        seen: Seen::default(),
    };
    match judge.term()? {
        Some(value) if value.chain.is_empty() => Ok((terms, judge.seen)),
        _ => Err((43, 0)),
    }
}
