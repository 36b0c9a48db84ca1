//! The store of the machine (LANGUAGE 4.1 to 4.3), and what the rules do with
//! single rows (4.6 to 4.8). Errors are the fault numbers (5.6).

use crate::refusal::*;

const OPEN: u32 = 1;
const GIVEN_BACK: u32 = 2;

const EMPTY: u32 = 0;
const NUMBER: u32 = 1;
const OWNER: u32 = 2;
const REFERENCE: u32 = 3;

/// A value as rows keep it. A term without a value gives the empty one, as
/// storing no value stores empty and dropping it does nothing.
#[derive(Clone, Copy)]
pub(super) struct Value {
    kind: u32,
    payload: u32,
}

impl Value {
    pub(super) const NONE: Value = Value {
        kind: EMPTY,
        payload: 0,
    };

    #[inline]
    pub(super) fn number(number: u32) -> Value {
        Value {
            kind: NUMBER,
            payload: number,
        }
    }

    #[inline]
    pub(super) fn reference(row: usize) -> Value {
        Value {
            kind: REFERENCE,
            payload: row as u32,
        }
    }

    /// The value as a number, if it is one.
    #[inline]
    pub(super) fn as_number(self) -> Option<i32> {
        (self.kind == NUMBER).then_some(self.payload as i32)
    }
}

pub(super) struct Store<'a> {
    rows: &'a mut [[u32; 3]],
    /// The row of cell 0, the first after those of the variables.
    first_cell: usize,
    /// Cells taken so far; the next cell has this number.
    pub(super) cells: u32,
}

impl<'a> Store<'a> {
    /// Sets all of the lent store to 0. Its length has been judged.
    pub(super) fn cleared(variables: u32, lent: &'a mut [u32]) -> Self {
        lent.fill(0);
        Store {
            rows: lent.as_chunks_mut().0,
            first_cell: variables as usize,
            cells: 0,
        }
    }

    #[inline]
    fn is_open(&self, row: usize) -> bool {
        self.rows[row][0] == OPEN
    }

    #[inline]
    fn value(&self, row: usize) -> Value {
        let [_, kind, payload] = self.rows[row];
        Value { kind, payload }
    }

    #[inline]
    fn fill(&mut self, row: usize, value: Value) {
        self.rows[row] = [OPEN, value.kind, value.payload];
    }

    /// The row of a place.
    #[inline]
    pub(super) fn locate(&self, variable: u32, follows: u32) -> Result<usize, u32> {
        let mut row = variable as usize;
        if !self.is_open(row) {
            return Err(NOT_OPEN);
        }
        for _ in 0..follows {
            let value = self.value(row);
            row = match value.kind {
                OWNER => self.first_cell + value.payload as usize,
                REFERENCE => value.payload as usize,
                EMPTY => return Err(NOT_OPEN),
                _ => return Err(WRONG_KIND),
            };
            if !self.is_open(row) {
                return Err(NOT_OPEN);
            }
        }
        Ok(row)
    }

    /// The row of a place and the value that it must be filled with.
    #[inline]
    fn read(&self, variable: u32, follows: u32) -> Result<(usize, Value), u32> {
        let row = self.locate(variable, follows)?;
        let value = self.value(row);
        if value.kind == EMPTY {
            return Err(NOT_OPEN);
        }
        Ok((row, value))
    }

    #[inline]
    pub(super) fn copy(&self, variable: u32, follows: u32) -> Result<Value, u32> {
        self.read(variable, follows).map(|(_, value)| value)
    }

    #[inline]
    pub(super) fn move_out(&mut self, variable: u32, follows: u32) -> Result<Value, u32> {
        let (row, value) = self.read(variable, follows)?;
        self.fill(row, Value::NONE);
        Ok(value)
    }

    #[inline]
    pub(super) fn read_number(&self, variable: u32, follows: u32) -> Result<i32, u32> {
        let value = self.copy(variable, follows)?;
        value.as_number().ok_or(WRONG_KIND)
    }

    /// Opens a variable's row with its first value.
    #[inline]
    pub(super) fn open(&mut self, variable: u32, value: Value) -> Result<(), u32> {
        if self.is_open(variable as usize) {
            return Err(LET_ON_OPEN);
        }
        self.fill(variable as usize, value);
        Ok(())
    }

    /// Opens the next cell and gives its owner. Rows in order have at most as
    /// many boxes as the store has cells, and each runs at most once, so there
    /// is a next cell.
    #[inline]
    pub(super) fn open_cell(&mut self, value: Value) -> Value {
        let cell = self.cells;
        self.cells += 1;
        self.fill(self.first_cell + cell as usize, value);
        Value {
            kind: OWNER,
            payload: cell,
        }
    }

    /// Drops the old value of a located row, which keeps it meanwhile, then
    /// writes if the row is still open.
    pub(super) fn overwrite(&mut self, row: usize, value: Value) -> Result<(), u32> {
        self.drop_value(self.value(row))?;
        if self.is_open(row) {
            self.fill(row, value);
        }
        Ok(())
    }

    /// An owner's cell is marked given back and emptied before what it held
    /// is dropped; anything else needs nothing.
    pub(super) fn drop_value(&mut self, value: Value) -> Result<(), u32> {
        let mut value = value;
        while value.kind == OWNER {
            let cell = self.first_cell + value.payload as usize;
            if self.rows[cell][0] == GIVEN_BACK {
                return Err(GIVEN_BACK_TWICE);
            }
            value = self.value(cell);
            self.rows[cell] = [GIVEN_BACK, EMPTY, 0];
        }
        Ok(())
    }

    /// Closes a variable's row: set to 0 first, then its value dropped.
    pub(super) fn close(&mut self, variable: u8) -> Result<(), u32> {
        let value = self.value(variable as usize);
        self.rows[variable as usize] = [0; 3];
        self.drop_value(value)
    }
}
