//! Stores as a run must leave them.

use super::guarded::Guarded;
use roomscript::{Limits, Refusal, STORE_FIELDS};

pub type StoreRow = [u32; STORE_FIELDS];

/// The value kind of a reference, whose payload is the number of a row.
const REFERENCE: u32 = 3;

/// The row of a cell under a set.
pub fn cell_under(limits: Limits, number: usize) -> usize {
    limits.variables as usize + number
}

/// The row of a cell under the language's own set.
pub fn cell(number: usize) -> usize {
    cell_under(Limits::BASE, number)
}

/// A store of 0 but for the rows given.
pub fn store_under(limits: Limits, rows: &[(usize, StoreRow)]) -> Vec<u32> {
    let mut store = vec![0; limits.store_numbers()];
    for (row, fields) in rows {
        store[row * STORE_FIELDS..][..STORE_FIELDS].copy_from_slice(fields);
    }
    store
}

/// The same under the language's own set.
pub fn store_of(rows: &[(usize, StoreRow)]) -> Vec<u32> {
    store_under(Limits::BASE, rows)
}

/// Whether a store is as an accepted run leaves it: each variable row and each
/// cell not taken all 0, each cell taken 2, 0, 0.
pub fn is_tidy(limits: Limits, store: &[u32], cells: u32) -> bool {
    let (variables, rest) = store.split_at(cell_under(limits, 0) * STORE_FIELDS);
    let (taken, others) = rest.split_at(cells as usize * STORE_FIELDS);
    rest.len() == limits.boxes as usize * STORE_FIELDS
        && variables.iter().chain(others).all(|field| *field == 0)
        && taken.chunks(STORE_FIELDS).all(|row| row == [2, 0, 0])
}

/// Whether a store that was lent full of junk is as a run that checks first
/// leaves it, given the cells that it took: tidy, or after a refusal still junk.
pub fn tidy_or_unchanged(
    limits: Limits,
    cells: Result<u32, Refusal>,
    store: &Guarded<u32>,
) -> bool {
    match cells {
        Ok(cells) => is_tidy(limits, store.lent(), cells),
        Err(_) => store.junk_from(0),
    }
}

/// A store as the same run leaves it under another set: the rows of the cells
/// stand elsewhere, and references to them name other rows. Rows that only one
/// of the sets has are 0.
pub fn laid_out_again(store: &[u32], from: Limits, to: Limits) -> Vec<u32> {
    let moved = |row: usize| match row.checked_sub(from.variables as usize) {
        Some(cell) => cell_under(to, cell),
        None => row,
    };
    let mut again = vec![0; to.store_numbers()];
    for (row, fields) in store.chunks(STORE_FIELDS).enumerate() {
        let mut fields: StoreRow = fields.try_into().expect("a whole row");
        if fields[1] == REFERENCE {
            fields[2] = moved(fields[2] as usize) as u32;
        }
        if fields != [0; STORE_FIELDS] {
            again[moved(row) * STORE_FIELDS..][..STORE_FIELDS].copy_from_slice(&fields);
        }
    }
    again
}
