//! Scripts for the reader: valid ones, damaged ones and ones beyond a limit.

use super::bytes::write_unjudged;
use super::Generator;
use crate::form::*;
use crate::random::Random;

impl Generator {
    /// A script that the reader accepts, with the kinds of its version. Every
    /// one with a choice or a sum is of version 2, the others of either.
    pub fn valid_script(&mut self, out: &mut Vec<u8>) {
        self.valid_terms();
        let version = self.version_of_terms();
        write_unjudged(version, &self.terms, out);
    }

    /// A script just beyond one of the limits, seldom within it, with the kinds
    /// of its version.
    pub fn script_beyond(&mut self, out: &mut Vec<u8>) {
        self.terms_beyond();
        let version = self.version_of_terms();
        write_unjudged(version, &self.terms, out);
    }

    /// Any bytes: every answer of the reader occurs.
    pub fn script(&mut self, out: &mut Vec<u8>) {
        if self.random.percent(12) {
            self.terms_beyond();
        } else {
            self.valid_terms();
        }
        if self.random.percent(6) {
            self.break_branch();
        }
        let version = self.any_version();
        write_unjudged(version, &self.terms, out);
        let variables = self.limits.variables as u8;
        let random = &mut self.random;
        match random.below(100) {
            0..=29 => (),
            30..=54 => damage(random, variables, 1, out),
            55..=64 => {
                let times = random.between(2, 5);
                damage(random, variables, times, out);
            }
            65..=74 => out.truncate(random.index(out.len() + 1)),
            75..=82 => extend(random, variables, out),
            83..=89 => out[random.index(HEADER.len())] = byte(random, variables),
            90..=94 => out[HEADER.len()] = byte(random, variables),
            95..=97 => scatter(random, variables, HEADER.len(), out),
            98 => scatter(random, variables, 0, out),
            _ => resize(random, variables, out),
        }
    }
}

/// A byte that is often a kind, a limit or one beyond it.
fn byte(random: &mut Random, variables: u8) -> u8 {
    match random.below(4) {
        0 => random.bits() as u8,
        1 => random.pick(&[0, 1, 7, 8, 9, 14, variables - 1, variables, 255]),
        _ => random.below(15) as u8,
    }
}

/// Changes bytes, the first ones more often than the others.
fn damage(random: &mut Random, variables: u8, times: u32, out: &mut [u8]) {
    for _ in 0..times {
        let reach = if random.percent(20) {
            out.len().min(12)
        } else {
            out.len()
        };
        let at = random.index(reach);
        out[at] = match random.below(4) {
            0 => out[at].wrapping_add(1),
            1 => out[at].wrapping_sub(1),
            _ => byte(random, variables),
        };
    }
}

fn extend(random: &mut Random, variables: u8, out: &mut Vec<u8>) {
    for _ in 0..random.between(1, 6) {
        out.push(byte(random, variables));
    }
}

/// Random bytes after the first `kept` ones.
fn scatter(random: &mut Random, variables: u8, kept: usize, out: &mut Vec<u8>) {
    out.truncate(kept);
    for _ in 0..random.below(40) {
        out.push(byte(random, variables));
    }
}

/// Lengths at and around the longest allowed.
fn resize(random: &mut Random, variables: u8, out: &mut Vec<u8>) {
    let length = MAX_BYTES + random.index(3) - 1;
    out.resize(length, byte(random, variables));
}
