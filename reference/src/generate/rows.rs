//! Term rows that no reader made: valid ones, changed ones, random ones.

use super::operands;
use super::Generator;
use crate::form::*;
use crate::limits::Limits;
use crate::random::Random;

impl Generator {
    /// Rows that the reader could have made, of either version.
    pub fn valid_rows(&mut self, out: &mut Vec<u32>) {
        self.valid_terms();
        flatten(self.limits, &self.terms, out);
    }

    /// Rows just beyond one of the limits, seldom within it. A term too many
    /// finds no row.
    pub fn rows_beyond(&mut self, out: &mut Vec<u32>) {
        self.terms_beyond();
        flatten(self.limits, &self.terms, out);
    }

    /// Any fields of the right number: every answer that rows can get occurs.
    pub fn rows(&mut self, out: &mut Vec<u32>) {
        if self.random.percent(10) {
            self.rows_beyond(out);
        } else {
            self.valid_rows(out);
        }
        if self.random.percent(6) {
            self.break_branch();
            flatten(self.limits, &self.terms, out);
        }
        let used = self.terms.len().min(self.limits.terms as usize);
        let variables = self.limits.variables;
        let random = &mut self.random;
        match random.below(100) {
            0..=29 => (),
            30..=54 => change(random, variables, 1, used, out),
            55..=64 => {
                let times = random.between(2, 5);
                change(random, variables, times, used, out);
            }
            65..=74 => trail(random, used, out),
            75..=80 => replace_row(random, variables, used, out),
            81..=85 => out[0] = field(random, variables),
            86..=90 => out[random.index(used) * FIELDS..].fill(0),
            91..=95 => likely(random, variables, out),
            96 | 97 => small(random, out.len(), out),
            98 => small(random, out.len().min(60), out),
            _ => out.fill_with(|| field(random, variables)),
        }
    }

    /// Like `rows`, now and then with a length that is refused.
    pub fn rows_any_length(&mut self, out: &mut Vec<u32>) {
        self.rows(out);
        if self.random.percent(5) {
            let right = self.limits.row_numbers();
            let length = self.random.pick(&[0, 1, right - 1, right + 1]);
            out.resize(length, 0);
        }
    }
}

/// The terms as fields of the right number, without those that find no row.
pub(super) fn flatten(limits: Limits, terms: &[Row], out: &mut Vec<u32>) {
    out.clear();
    out.extend_from_slice(terms[..terms.len().min(limits.terms as usize)].as_flattened());
    out.resize(limits.row_numbers(), 0);
}

/// A field that is often a kind, a limit, one beyond it, or a value whose low
/// byte alone would be in range.
fn field(random: &mut Random, variables: u32) -> u32 {
    match random.below(8) {
        0 => random.bits() as u32,
        1 => random.below(15) << random.pick(&[8, 16, 24]),
        2 => random.between(1, 13) + random.pick(&[0x100, 0x1_0000, 0x8000_0000]),
        3 | 4 => random.pick(&[0, 1, 7, 8, 9, 14, variables - 1, variables, 255, 256]),
        _ => random.below(15),
    }
}

/// Changes fields of used rows, of the first row more often than of others.
fn change(random: &mut Random, variables: u32, times: u32, used: usize, out: &mut [u32]) {
    for _ in 0..times {
        let reach = if random.percent(10) { 1 } else { used };
        let at = random.index(reach * FIELDS);
        out[at] = match random.below(4) {
            0 => out[at].wrapping_add(1),
            1 => out[at].wrapping_sub(1),
            _ => field(random, variables),
        };
    }
}

/// Makes one or more fields after the end different from 0.
fn trail(random: &mut Random, used: usize, out: &mut [u32]) {
    let unused = out.len() - used * FIELDS;
    if unused == 0 {
        return;
    }
    for _ in 0..random.between(1, 3) {
        let reach = if random.percent(50) {
            unused.min(20)
        } else {
            unused
        };
        out[used * FIELDS + random.index(reach)] = random.pick(&[1, 2, 11, 256, u32::MAX]);
    }
}

/// Puts another valid row in the place of one.
fn replace_row(random: &mut Random, variables: u32, used: usize, out: &mut [u32]) {
    let at = random.index(used) * FIELDS;
    let row = likely_row(random, variables);
    out[at..at + FIELDS].copy_from_slice(&row);
}

/// A row with its operands in range.
fn likely_row(random: &mut Random, variables: u32) -> Row {
    match random.below(9) {
        0 => [BOX, 0, 0, 0, 0],
        1 => [LET, operands::variable(random, variables), 0, 0, 0],
        2 => {
            let [root, follows] = operands::place(random, variables);
            [ASSIGN, root, follows, 0, 0]
        }
        3 => [BLOCK, random.between(1, 4), 0, 0, 0],
        4 => {
            let [root, follows] = operands::place(random, variables);
            [CHOICE, root, follows, 0, 0]
        }
        _ => operands::leaf(random, variables, NEWEST),
    }
}

/// Rows of which each is in range, ending where chance has it.
fn likely(random: &mut Random, variables: u32, out: &mut [u32]) {
    let used = random.between(1, 40) as usize;
    out.fill(0);
    for row in out.chunks_exact_mut(FIELDS).take(used) {
        row.copy_from_slice(&likely_row(random, variables));
    }
    out[..FIELDS].copy_from_slice(&[BLOCK, random.between(1, 12), 0, 0, 0]);
}

/// Small values in the first fields.
fn small(random: &mut Random, length: usize, out: &mut [u32]) {
    out.fill(0);
    for field in &mut out[..length] {
        *field = random.below(15);
    }
    if random.percent(70) {
        out[..FIELDS].copy_from_slice(&[BLOCK, random.between(1, 4), 0, 0, 0]);
    }
    if random.percent(50) {
        // Mostly unused operands, so that more than a row or two are judged.
        for row in out.chunks_exact_mut(FIELDS).skip(1) {
            row[3..].fill(0);
        }
    }
}
