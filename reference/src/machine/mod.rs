//! The store machine (LANGUAGE 4). It runs any rows of the right form, accepted
//! by the check or not, and reports a fault where the run rules have no next
//! step.

mod store;

use crate::form::*;
use crate::limits::Limits;
use crate::refusal::*;
use store::{Store, Value};

/// How many readings are lent.
pub const READINGS: usize = 8;

/// What a run without a fault gives.
#[derive(Clone, Copy, Debug, PartialEq, Eq)]
pub struct Ran {
    pub answer: i32,
    /// Cells taken.
    pub cells: u32,
}

/// Judges by 74, 2, 3, 4, then 12 to 19 with the store unchanged, then runs,
/// whatever the check would say (LANGUAGE 6.7). A fault, 60 to 63, leaves the
/// store as it was at that moment.
pub fn run_unchecked(
    limits: Limits,
    rows: &[u32],
    readings: &[i32],
    store: &mut [u32],
) -> Result<Ran, Refusal> {
    let rows = judge_lent(limits, rows, readings, store)?;
    run_judged(limits, rows, readings, store)
}

/// What both runs judge first: 74, 2, 3, 4, then 12 to 19. Answers the rows
/// that are terms.
#[inline]
pub(crate) fn judge_lent<'a>(
    limits: Limits,
    rows: &'a [u32],
    readings: &[i32],
    store: &[u32],
) -> Result<&'a [Row], Refusal> {
    let rows = lent_rows(limits, rows)?;
    if store.len() != limits.store_numbers() {
        return Err(Refusal::by_caller(STORE_LENGTH));
    }
    if readings.len() != READINGS {
        return Err(Refusal::by_caller(READINGS_LENGTH));
    }
    let judged = judge_all(limits, NEWEST, rows)?;
    Ok(&rows[..judged.terms])
}

/// Runs rows of a right form over a store that is set to 0 first.
#[inline]
pub(crate) fn run_judged(
    limits: Limits,
    rows: &[Row],
    readings: &[i32],
    store: &mut [u32],
) -> Result<Ran, Refusal> {
    let store = Store::cleared(limits.variables, store);
    // A small set has a small list of open variables.
    if limits.variables <= Limits::BASE.variables {
        let opened = &mut [0; Limits::BASE.variables as usize];
        run_terms(rows, readings, store, opened)
    } else {
        let opened = &mut [0; Limits::LARGEST.variables as usize];
        run_terms(rows, readings, store, opened)
    }
}

/// Runs all terms with a list that has room for every variable.
fn run_terms(
    rows: &[Row],
    readings: &[i32],
    store: Store,
    opened: &mut [u8],
) -> Result<Ran, Refusal> {
    let mut machine = Machine {
        rows,
        readings,
        next: 0,
        store,
        opened,
        count: 0,
    };
    let value = machine.term()?;
    match value.as_number() {
        Some(answer) => Ok(Ran {
            answer,
            cells: machine.store.cells,
        }),
        None => Err(Refusal::new(WRONG_KIND, 0)),
    }
}

struct Machine<'a> {
    rows: &'a [Row],
    readings: &'a [i32],
    /// The term that runs next.
    next: usize,
    store: Store<'a>,
    /// The open variables in the order of their opening. No row is opened
    /// twice without being closed between, so one place for each is enough.
    opened: &'a mut [u8],
    count: usize,
}

impl Machine<'_> {
    /// Runs the next term with everything inside it.
    fn term(&mut self) -> Result<Value, Refusal> {
        let term = self.next;
        self.next += 1;
        let [kind, a, b, c, d] = self.rows[term];
        let store = &mut self.store;
        let ran = match kind {
            NUMBER => Ok(Value::number(a)),
            READING => Ok(Value::number(self.readings[a as usize] as u32)),
            COPY => store.copy(a, b),
            MOVE => store.move_out(a, b),
            SHARED | EXCLUSIVE => store.locate(a, b).map(Value::reference),
            BELOW => two_numbers(store, (a, b), (c, d)).map(below),
            SUM => two_numbers(store, (a, b), (c, d)).map(sum),
            BOX => {
                let value = self.term()?;
                Ok(self.store.open_cell(value))
            }
            LET => {
                let value = self.term()?;
                self.open(a, value)
            }
            ASSIGN => {
                let value = self.term()?;
                self.assign(a, b, value)
            }
            CHOICE => {
                let number = store.read_number(a, b);
                let number = number.map_err(|number| Refusal::new(number, term))?;
                return self.choice(number != 0);
            }
            _ => return self.block(term, a),
        };
        ran.map_err(|number| Refusal::new(number, term))
    }

    fn open(&mut self, variable: u32, value: Value) -> Result<Value, u32> {
        self.store.open(variable, value)?;
        self.opened[self.count] = variable as u8;
        self.count += 1;
        Ok(Value::NONE)
    }

    fn assign(&mut self, variable: u32, follows: u32, value: Value) -> Result<Value, u32> {
        let row = self.store.locate(variable, follows)?;
        self.store.overwrite(row, value)?;
        Ok(Value::NONE)
    }

    /// Runs the first of the next two blocks, or else the second, and passes
    /// the other one by.
    fn choice(&mut self, first: bool) -> Result<Value, Refusal> {
        if first {
            let value = self.term()?;
            self.next = end_of(self.rows, self.next);
            Ok(value)
        } else {
            self.next = end_of(self.rows, self.next);
            self.term()
        }
    }

    /// Runs a block. Its drops and closings are the block's own acts.
    fn block(&mut self, term: usize, count: u32) -> Result<Value, Refusal> {
        let acting = |number| Refusal::new(number, term);
        let before = self.count;
        for _ in 1..count {
            let value = self.term()?;
            self.store.drop_value(value).map_err(acting)?;
        }
        let last = self.term()?;
        while self.count > before {
            self.count -= 1;
            self.store.close(self.opened[self.count]).map_err(acting)?;
        }
        Ok(last)
    }
}

/// Reads the first place, then the second, each of which must be a number.
#[inline]
fn two_numbers(store: &Store, first: (u32, u32), second: (u32, u32)) -> Result<(i32, i32), u32> {
    let first = store.read_number(first.0, first.1)?;
    let second = store.read_number(second.0, second.1)?;
    Ok((first, second))
}

fn below((first, second): (i32, i32)) -> Value {
    Value::number((first < second) as u32)
}

/// The sum is exact in 64 bits, so that it can be held to the ends of 32.
fn sum((first, second): (i32, i32)) -> Value {
    let sum = first as i64 + second as i64;
    let held = sum.clamp(i32::MIN as i64, i32::MAX as i64);
    Value::number(held as i32 as u32)
}
