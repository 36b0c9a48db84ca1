//! Scripts of numbers, readings, boxes, borrows, assigns, sums and choices, whose
//! answer plain arithmetic in 64 bits tells: by both programs.

use crate::common::case::{Case, Input};
use crate::common::due;
use crate::common::sets::fitting;
use crate::common::settings::Settings;
use crate::common::terms::*;
use crate::layers::{Layers, Room};
use crate::whole::Whole;
use reference::random::Random;
use roomscript::{Called, Limits, Ran, READINGS_LEN};
use std::io::{self, Write};

/// A number of a script, and the place that leads to it.
#[derive(Clone, Copy)]
struct Known {
    place: Place,
    /// Which of the values.
    value: usize,
    /// Whether no shared borrow is on the way.
    writable: bool,
}

/// A script that is written along with what its numbers are.
struct Sheet {
    terms: Vec<Term>,
    values: Vec<i32>,
    known: Vec<Known>,
    /// The variables that a borrow is held of.
    held: Vec<u32>,
    readings: [i32; READINGS_LEN],
    variables: u32,
    /// How often a sum was within the range, held to its upper end, and to its
    /// lower one.
    sums: [u64; 3],
    /// How often a choice took its first branch, and its second.
    choices: [u64; 2],
}

fn value(random: &mut Random) -> i32 {
    match random.below(6) {
        0 => random.bits() as i32,
        1 => random.between(0, 400) as i32 - 200,
        2 => random.pick(&[1 << 30, (1 << 30) - 1, -(1 << 30), -(1 << 30) - 1]),
        3 => random.pick(&[-1, 0, 1]),
        _ => random.pick(&[i32::MIN, i32::MIN + 1, i32::MAX - 1, i32::MAX]),
    }
}

impl Sheet {
    fn new(random: &mut Random) -> Self {
        let mut sheet = Sheet {
            terms: Vec::new(),
            values: Vec::new(),
            known: Vec::new(),
            held: Vec::new(),
            readings: [(); READINGS_LEN].map(|()| value(random)),
            variables: 0,
            sums: [0; 3],
            choices: [0; 2],
        };
        for _ in 0..random.between(2, 14) {
            sheet.statement(random);
        }
        sheet
    }

    fn any(&self, random: &mut Random) -> Known {
        random.pick(&self.known)
    }

    /// The sum of two values, in plain arithmetic, held to the ends.
    fn add(&mut self, first: usize, second: usize) -> i32 {
        let sum = i64::from(self.values[first]) + i64::from(self.values[second]);
        let (kept, at) = if sum > 2_147_483_647 {
            (2_147_483_647, 1)
        } else if sum < -2_147_483_648 {
            (-2_147_483_648, 2)
        } else {
            (sum as i32, 0)
        };
        self.sums[at] += 1;
        kept
    }

    /// A number of the script, a reading or a copy, and the number.
    fn leaf(&self, random: &mut Random) -> (Term, i32) {
        match random.below(5) {
            2 | 3 => {
                let index = random.below(READINGS_LEN as u32);
                (reading(index), self.readings[index as usize])
            }
            4 if !self.known.is_empty() => {
                let known = self.any(random);
                (copy(known.place), self.values[known.value])
            }
            _ => {
                let number_of = value(random);
                (number(number_of), number_of)
            }
        }
    }

    /// Which of two branches a choice on a place takes: the first if the number
    /// there is not 0.
    fn take<T>(&mut self, by: Known, first: T, second: T) -> T {
        let taken = self.values[by.value] != 0;
        self.choices[usize::from(!taken)] += 1;
        match taken {
            true => first,
            false => second,
        }
    }

    /// A term that gives a number, and the number.
    fn term(&mut self, random: &mut Random) -> (Term, i32) {
        let kind = random.below(11);
        if self.known.is_empty() || kind < 5 {
            return self.leaf(random);
        }
        let (first, second) = (self.any(random), self.any(random));
        if kind == 10 {
            let branches = [self.leaf(random), self.leaf(random)];
            let [(a, of_a), (b, of_b)] = branches;
            let chosen = choice(first.place, &[number(3), a], &[b]);
            return (chosen, self.take(first, of_a, of_b));
        }
        let kept = self.add(first.value, second.value);
        let added = sum(first.place, second.place);
        match kind {
            5 => (block(&[number(3), added]), kept),
            _ => (added, kept),
        }
    }

    fn statement(&mut self, random: &mut Random) {
        match random.below(11) {
            _ if self.known.is_empty() => self.declare(random),
            0..=4 => self.declare(random),
            5 | 6 => self.borrow(random),
            7 => self.choose(random),
            _ => self.assign(random),
        }
    }

    /// A let of a number, or of one in boxes.
    fn declare(&mut self, random: &mut Random) {
        let (term, number) = self.term(random);
        let count = random.pick(&[0, 0, 0, 1, 1, 2]);
        let variable = self.variables;
        self.variables += 1;
        self.terms.push(let_(variable, boxes(count, term)));
        self.known.push(Known {
            place: (variable, count as u32),
            value: self.values.len(),
            writable: true,
        });
        self.values.push(number);
    }

    /// A let of a borrow of a number, or of a box or a borrow before it.
    fn borrow(&mut self, random: &mut Random) {
        let known = self.any(random);
        let (root, follows) = known.place;
        let behind = random.below(follows.min(6) + 1);
        let from = (root, follows - behind);
        let exclusively = known.writable && !self.held.contains(&root) && random.percent(40);
        let variable = self.variables;
        self.variables += 1;
        let term = match exclusively {
            true => exclusive(from),
            false => shared(from),
        };
        self.terms.push(let_(variable, term));
        self.held.push(root);
        if exclusively {
            // Reading it is barred from here on.
            self.known.retain(|known| known.place.0 != root);
        }
        self.known.push(Known {
            place: (variable, behind + 1),
            writable: exclusively,
            ..known
        });
    }

    fn assign(&mut self, random: &mut Random) {
        let known = self.any(random);
        if !known.writable || self.held.contains(&known.place.0) {
            return self.declare(random);
        }
        let (term, number) = self.term(random);
        self.terms.push(assign(known.place, term));
        self.values[known.value] = number;
    }

    /// A choice that assigns in one branch, and does nothing in the other or
    /// assigns there too.
    fn choose(&mut self, random: &mut Random) {
        let (by, known) = (self.any(random), self.any(random));
        if !known.writable || self.held.contains(&known.place.0) {
            return self.declare(random);
        }
        let before = self.values[known.value];
        let (term, of_first) = self.leaf(random);
        let first = [assign(known.place, term), number(1)];
        let (second, of_second) = match random.below(2) {
            0 => (vec![number(2)], before),
            _ => {
                let (term, of_second) = self.leaf(random);
                (vec![assign(known.place, term), number(2)], of_second)
            }
        };
        self.terms.push(choice(by.place, &first, &second));
        self.values[known.value] = self.take(by, of_first, of_second);
    }

    /// The answer: a sum of two numbers.
    fn end(&mut self, random: &mut Random) -> i32 {
        let (first, second) = (self.any(random), self.any(random));
        self.terms.push(sum(first.place, second.place));
        self.add(first.value, second.value)
    }
}

#[test]
fn sums_and_choices_are_those_of_plain_arithmetic() {
    let settings = Settings::from_environment();
    let mut random = Random::new(settings.seed);
    let mut layers = Layers::new("plain arithmetic");
    let mut whole = Whole::new();
    let mut sums = [0; 3];
    let mut choices = [0; 2];
    for number in 0..settings.cases {
        let mut sheet = Sheet::new(&mut random);
        let answer = sheet.end(&mut random);
        let terms = &sheet.terms;
        let limits = match random.below(8) {
            0 => Limits::BASE,
            _ => fitting(terms),
        };
        let rows = rows_under(limits, terms);
        let case = Case {
            seed: Some(settings.seed),
            number,
            limits,
            input: Input::Run(&rows, &sheet.readings),
        };
        let cells = rows.chunks(5).filter(|row| row[0] == 0x07).count() as u32;
        let room = Room {
            length: limits.store_numbers(),
            junk: random.bits() as u32,
        };
        layers.check_and_run(&case, &rows, &sheet.readings, room);
        let mut store = vec![0; room.length];
        let due = due::run(limits, &rows, &sheet.readings, &mut store);
        case.equal(due, Ok(Ran { answer, cells }), "the reference program's");
        let ran = roomscript::run(limits, &rows, &sheet.readings, &mut store);
        case.equal(ran, Ok(Ran { answer, cells }), "answer of run");
        let called = whole.call(&case, &rows, &sheet.readings, room.junk);
        let terms = block(terms).len() as u32;
        let all = Called {
            answer,
            terms,
            cells,
        };
        case.equal(called, Ok(all), "answer of call");
        add_each(&mut sums, sheet.sums);
        add_each(&mut choices, sheet.choices);
    }
    for tally in [&layers.checked, &layers.ran, &layers.ran_unchecked] {
        tally.report(&settings, &[0]);
    }
    report(&settings, sums, choices);
}

fn add_each<const COUNT: usize>(all: &mut [u64; COUNT], some: [u64; COUNT]) {
    all.iter_mut()
        .zip(some)
        .for_each(|(all, some)| *all += some);
}

fn report(settings: &Settings, sums: [u64; 3], choices: [u64; 2]) {
    let ([inside, high, low], [first, second]) = (sums, choices);
    let _ = writeln!(
        io::stdout(),
        "occurred in plain arithmetic (seed {}): sums inside the range: {inside}, held to the \
         upper end: {high}, to the lower: {low}; choices of the first branch: {first}, of the \
         second: {second}",
        settings.seed
    );
    let each = sums.iter().chain(&choices).all(|count| *count > 0);
    assert!(each || !settings.whole);
}
