//! Rows and scripts for the check and for the machine.

use super::author::{Author, Habits, State};
use super::bytes::write_unjudged;
use super::choices::OPENING;
use super::edits;
use super::last_uses::HOLDERS;
use super::operands;
use super::plan::MIDDLING;
use super::rows::flatten;
use super::statements::NARROW;
use super::through_shared::LINKS;
use super::versions;
use super::Generator;
use crate::form::MAX_COUNT;
use crate::ownership::uses::Uses;
use crate::random::Random;

/// With at most so many terms, as many as there may be are not rare.
const SMALL: usize = 64;

/// Goes on until there are so many terms, in larger blocks if that is needed,
/// with all boxes more often than chance would have it.
fn full(random: &mut Random, habits: Habits, terms: usize) -> Habits {
    Habits {
        // The answer is one more.
        statements: MAX_COUNT - 1,
        terms,
        room: terms,
        patience: 16 * terms,
        widest: (terms as u32 / 8).clamp(habits.widest, MAX_COUNT - 1),
        boxing: random.pick(&[habits.boxing, 50]),
        ..habits
    }
}

impl Generator {
    /// Writes terms by an author who is careless so often in a hundred times,
    /// and answers the version whose kinds they have.
    fn author(&mut self, careless: u32) -> u32 {
        let habits = self.habits(careless);
        let version = versions::of_terms(&mut self.random);
        self.author_with(habits, version);
        version
    }

    /// Writes terms of version 2 in which much is joined.
    fn joining_author(&mut self, careless: u32) {
        let habits = Habits {
            statements: OPENING + self.random.between(2, 8),
            patience: 1_500,
            nesting: 3,
            choosing: 15,
            joining: 75,
            ..self.habits(careless)
        };
        self.author_with(habits, 2);
    }

    /// Writes terms of version 2 about shared borrows through shared links.
    fn passing_author(&mut self, against_record: bool) {
        let habits = Habits {
            statements: LINKS + self.random.between(1, 8),
            patience: 1_500,
            nesting: 3,
            choosing: 10,
            passing: 75,
            against_record,
            ..self.habits(0)
        };
        self.author_with(habits, 2);
    }

    /// Writes terms of version 2 about borrows that end at their last use.
    fn ending_author(&mut self, used_again: bool) {
        let habits = Habits {
            statements: HOLDERS + self.random.between(2, 8),
            patience: 1_500,
            boxing: 5,
            nesting: 3,
            choosing: 5,
            ending: 85,
            used_again,
            ..self.habits(0)
        };
        self.author_with(habits, 2);
    }

    fn author_with(&mut self, habits: Habits, version: u32) {
        Author {
            random: &mut self.random,
            terms: &mut self.terms,
            environment: State::new(Uses::unending()),
            habits,
            version,
            variables: self.limits.variables,
            boxes: self.limits.boxes,
            owed: 0,
            given_up: 0,
            passed: None,
        }
        .script(self.limits.levels);
    }

    /// Few statements most often, seldom as many terms as there may be, seldom
    /// blocks in blocks down to the last level.
    fn habits(&mut self, careless: u32) -> Habits {
        let random = &mut self.random;
        let terms = self.limits.terms as usize;
        let ordinary = Habits {
            statements: match random.below(40) {
                0 => random.between(30, 90),
                1..=9 => random.between(8, 20),
                _ => random.between(2, 9),
            },
            terms,
            room: (terms * 3 / 5).min(300),
            patience: 600,
            widest: NARROW,
            careless,
            boxing: random.pick(&[5, 20, 20, 35, 65]),
            nesting: 10,
            choosing: random.pick(&[0, 5, 10, 20]),
            joining: 0,
            passing: 0,
            against_record: false,
            ending: 0,
            used_again: false,
        };
        let often = if terms <= SMALL { 20 } else { 1 };
        match random.below(200) {
            choice if choice < often => full(random, ordinary, terms),
            20 if terms > MIDDLING => {
                let terms = MIDDLING + random.index(terms - MIDDLING);
                full(random, ordinary, terms)
            }
            21..=24 => Habits {
                widest: 2,
                nesting: 85,
                ..ordinary
            },
            _ => ordinary,
        }
    }

    fn accepted(&mut self) {
        self.author(0);
    }

    fn near_miss(&mut self) {
        let version = self.author(0);
        let times = self.random.between(1, 2);
        self.edit(version, times);
    }

    fn wild(&mut self) {
        let careless = self.random.pick(&[3, 15, 50, 100]);
        let version = self.author(careless);
        let times = self.random.below(3);
        self.edit(version, times);
    }

    fn edit(&mut self, version: u32, times: u32) {
        for _ in 0..times {
            edits::edit(&mut self.random, self.limits, version, &mut self.terms);
        }
    }

    /// Rows of a script that the check accepts.
    pub fn accepted_rows(&mut self, out: &mut Vec<u32>) {
        self.accepted();
        flatten(self.limits, &self.terms, out);
    }

    /// Rows of an accepted script after one or two edits.
    pub fn near_miss_rows(&mut self, out: &mut Vec<u32>) {
        self.near_miss();
        flatten(self.limits, &self.terms, out);
    }

    /// Rows for unchecked runs: every fault occurs.
    pub fn wild_rows(&mut self, out: &mut Vec<u32>) {
        self.wild();
        flatten(self.limits, &self.terms, out);
    }

    /// Rows of a script that the check accepts, with choices whose blocks
    /// leave variables behind differently: moved away in one of them, or with
    /// borrows of other places.
    pub fn joined_rows(&mut self, out: &mut Vec<u32>) {
        self.joining_author(0);
        flatten(self.limits, &self.terms, out);
    }

    /// Such rows after one or two edits, or written with little care.
    pub fn near_joined_rows(&mut self, out: &mut Vec<u32>) {
        let careless = self.random.pick(&[0, 0, 5, 20]);
        self.joining_author(careless);
        let times = self.random.between(1, 2);
        self.edit(2, times);
        flatten(self.limits, &self.terms, out);
    }

    /// Rows of a script that the check accepts, with shared borrows through
    /// shared links, and uses of the variables that these pass.
    pub fn through_shared_rows(&mut self, out: &mut Vec<u32>) {
        self.passing_author(false);
        flatten(self.limits, &self.terms, out);
    }

    /// Such rows with a last statement that is refused most often for what the
    /// borrows are recorded against, or after an edit.
    pub fn near_through_shared_rows(&mut self, out: &mut Vec<u32>) {
        let edited = self.random.percent(30);
        let against_record = !edited || self.random.percent(50);
        self.passing_author(against_record);
        self.edit(2, edited as u32);
        flatten(self.limits, &self.terms, out);
    }

    /// Rows of a script that the check accepts, with borrows that are not used
    /// again and uses of what they are of.
    pub fn last_uses_rows(&mut self, out: &mut Vec<u32>) {
        self.ending_author(false);
        flatten(self.limits, &self.terms, out);
    }

    /// Such rows with a last statement that is refused most often as a borrow
    /// is used again, or after an edit.
    pub fn near_last_uses_rows(&mut self, out: &mut Vec<u32>) {
        let edited = self.random.percent(30);
        let used_again = !edited || self.random.percent(50);
        self.ending_author(used_again);
        self.edit(2, edited as u32);
        flatten(self.limits, &self.terms, out);
    }

    /// Rows for check and machine: every answer of both occurs.
    pub fn mixed_rows(&mut self, out: &mut Vec<u32>) {
        match self.random.below(100) {
            0..=24 => self.accepted_rows(out),
            25..=40 => self.near_miss_rows(out),
            41 | 42 => self.last_uses_rows(out),
            43 | 44 => self.near_last_uses_rows(out),
            45 | 46 => self.through_shared_rows(out),
            47..=49 => self.near_through_shared_rows(out),
            50..=54 => self.joined_rows(out),
            55..=64 => self.near_joined_rows(out),
            65..=89 => self.wild_rows(out),
            90..=94 => self.valid_rows(out),
            _ => self.rows(out),
        }
    }

    /// Eight readings, ordinary ones, or often at the ends of their range and
    /// near them, so that sums of them are held to the ends. Many are 0, so
    /// that choices by them run either block.
    pub fn readings(&mut self) -> [i32; 8] {
        let random = &mut self.random;
        let ordinary = random.pick(&[1, 5]);
        let zeros = random.pick(&[10, 30, 60]);
        [(); 8].map(|()| match random.below(ordinary + 2) {
            _ if random.percent(zeros) => 0,
            0 => random.bits() as i32,
            1 => operands::number(random) as i32,
            _ => random.below(400) as i32,
        })
    }

    /// A standard input of the program: readings, then a script. Mostly the
    /// kinds of its terms are those of its version.
    pub fn input(&mut self, out: &mut Vec<u8>) {
        match self.random.below(100) {
            0..=29 => self.accepted(),
            30..=34 => self.joining_author(0),
            35 | 36 => self.ending_author(false),
            37..=39 => self.passing_author(false),
            40..=69 => self.near_miss(),
            70..=84 => self.wild(),
            _ => self.terms.clear(),
        }
        if self.terms.is_empty() {
            self.script(out);
        } else {
            let version = self.any_version();
            write_unjudged(version, &self.terms, out);
        }
        let readings = self.readings().map(i32::to_be_bytes);
        out.splice(0..0, readings.into_iter().flatten());
        if self.random.percent(2) {
            out.truncate(self.random.index(40));
        }
    }
}
