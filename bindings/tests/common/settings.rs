//! The seed and the number of cases, from the environment.

use std::env;

const SEED: u64 = 1;
const CASES: u64 = 200_000;

#[derive(Clone, Copy)]
pub struct Settings {
    pub seed: u64,
    pub cases: u64,
    /// Whether the run is long enough to ask that every number occurs. A
    /// short one only meets a known case again.
    pub whole: bool,
}

impl Settings {
    pub fn from_environment() -> Self {
        let cases = number("ROOMSCRIPT_CASES", CASES);
        Settings {
            seed: number("ROOMSCRIPT_SEED", SEED),
            cases,
            whole: cases >= CASES / 10,
        }
    }

    /// So many cases of a hundred, which are enough for every number to occur
    /// where they are a part of all cases of the gate.
    pub fn share(self, percent: u64) -> Self {
        Settings {
            cases: (self.cases * percent).div_ceil(100),
            whole: self.cases >= CASES,
            ..self
        }
    }
}

fn number(name: &str, otherwise: u64) -> u64 {
    match env::var(name) {
        Err(_) => otherwise,
        Ok(text) => match text.parse() {
            Ok(number) => number,
            Err(_) => panic!("{name} must be a decimal number, but is {text:?}"),
        },
    }
}
