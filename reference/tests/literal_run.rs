//! The run rules once more (LANGUAGE 4), written for closeness to the text:
//! the store as a list of rows, and every drop by recursion. Compared with the
//! crate on generated rows, in the answer and in the whole store.

use reference::{check, judge_rows, run_unchecked, Generator, Limits};

type Fault = (u32, u32);
/// Value kind and payload.
type Value = (u32, u32);

const EMPTY: Value = (0, 0);

/// How sums came out: held to the lower end, inside, held to the upper end;
/// and how often the second block of a choice ran, and how often the first.
type Counts = [u32; 5];

struct Machine<'a> {
    rows: Vec<&'a [u32]>,
    next: usize,
    readings: &'a [i32],
    variables: usize,
    /// State and value.
    store: Vec<(u32, Value)>,
    cells: u32,
    /// The variables that each block around has opened, the outermost first.
    opened: Vec<Vec<u32>>,
    counts: Counts,
}

impl Machine<'_> {
    fn open_row(&self, row: usize) -> Result<usize, u32> {
        if self.store[row].0 == 1 {
            Ok(row)
        } else {
            Err(60)
        }
    }

    fn locate(&self, variable: u32, follows: u32) -> Result<usize, u32> {
        let mut row = self.open_row(variable as usize)?;
        for _ in 0..follows {
            row = match self.store[row].1 {
                (0, _) => return Err(60),
                (1, _) => return Err(61),
                (2, cell) => self.open_row(self.variables + cell as usize)?,
                (_, other) => self.open_row(other as usize)?,
            };
        }
        Ok(row)
    }

    /// A filled row and its value.
    fn filled(&self, variable: u32, follows: u32) -> Result<(usize, Value), u32> {
        let row = self.locate(variable, follows)?;
        match self.store[row].1 {
            (0, _) => Err(60),
            value => Ok((row, value)),
        }
    }

    fn number(&self, variable: u32, follows: u32) -> Result<i32, u32> {
        match self.filled(variable, follows)?.1 {
            (1, number) => Ok(number as i32),
            _ => Err(61),
        }
    }

    /// The sum, held to the range.
    fn sum(&mut self, first: i32, second: i32) -> i32 {
        let exact = first as i128 + second as i128;
        let (came_out, held) = if exact < -2_147_483_648 {
            (0, -2_147_483_648)
        } else if exact > 2_147_483_647 {
            (2, 2_147_483_647)
        } else {
            (1, exact as i32)
        };
        self.counts[came_out] += 1;
        held
    }

    fn drop(&mut self, value: Value) -> Result<(), u32> {
        if value.0 != 2 {
            return Ok(());
        }
        let row = self.variables + value.1 as usize;
        let (state, held) = self.store[row];
        if state == 2 {
            return Err(63);
        }
        self.store[row] = (2, EMPTY);
        self.drop(held)
    }

    fn assign(&mut self, place: (u32, u32), value: Value) -> Result<(), u32> {
        let row = self.locate(place.0, place.1)?;
        self.drop(self.store[row].1)?;
        if self.store[row].0 == 1 {
            self.store[row] = (1, value);
        }
        Ok(())
    }

    fn let_(&mut self, variable: u32, value: Value) -> Result<(), u32> {
        if self.store[variable as usize].0 == 1 {
            return Err(62);
        }
        self.store[variable as usize] = (1, value);
        self.opened.last_mut().expect("a block").push(variable);
        Ok(())
    }

    /// The value, empty for none.
    fn term(&mut self) -> Result<Value, Fault> {
        let term = self.next as u32;
        let row = self.rows[self.next];
        self.next += 1;
        let at = |number: u32| (number, term);
        let value = match row[0] {
            1 => (1, row[1]),
            2 => (1, self.readings[row[1] as usize] as u32),
            3 => self.filled(row[1], row[2]).map_err(at)?.1,
            4 => {
                let (from, value) = self.filled(row[1], row[2]).map_err(at)?;
                self.store[from].1 = EMPTY;
                value
            }
            5 | 6 => (3, self.locate(row[1], row[2]).map_err(at)? as u32),
            7 => {
                let value = self.term()?;
                let cell = self.cells;
                self.cells += 1;
                self.store[self.variables + cell as usize] = (1, value);
                (2, cell)
            }
            8 => {
                let value = self.term()?;
                self.let_(row[1], value).map_err(at)?;
                EMPTY
            }
            9 => {
                let value = self.term()?;
                self.assign((row[1], row[2]), value).map_err(at)?;
                EMPTY
            }
            10 | 13 => self.of_two_places(row).map_err(at)?,
            12 => {
                let number = self.number(row[1], row[2]).map_err(at)?;
                self.choice(number)?
            }
            _ => self.block(term, row[1])?,
        };
        Ok(value)
    }

    /// A below or a sum.
    fn of_two_places(&mut self, row: &[u32]) -> Result<Value, u32> {
        let first = self.number(row[1], row[2])?;
        let second = self.number(row[3], row[4])?;
        Ok(if row[0] == 13 {
            (1, self.sum(first, second) as u32)
        } else {
            (1, u32::from(first < second))
        })
    }

    /// Both blocks come next, one of which runs.
    fn choice(&mut self, number: i32) -> Result<Value, Fault> {
        self.counts[3 + usize::from(number != 0)] += 1;
        if number == 0 {
            self.pass_by();
        }
        let value = self.term()?;
        if number != 0 {
            self.pass_by();
        }
        Ok(value)
    }

    /// Leaves out a term with everything inside it.
    fn pass_by(&mut self) {
        let row = self.rows[self.next];
        self.next += 1;
        let inner = match row[0] {
            7..=9 => 1,
            11 => row[1],
            12 => 2,
            _ => 0,
        };
        (0..inner).for_each(|_| self.pass_by());
    }

    fn block(&mut self, term: u32, count: u32) -> Result<Value, Fault> {
        let at = |number: u32| (number, term);
        self.opened.push(vec![]);
        for _ in 1..count {
            let value = self.term()?;
            self.drop(value).map_err(at)?;
        }
        let last = self.term()?;
        let opened = self.opened.pop().expect("this block");
        for variable in opened.into_iter().rev() {
            let value = self.store[variable as usize].1;
            self.store[variable as usize] = (0, EMPTY);
            self.drop(value).map_err(at)?;
        }
        Ok(last)
    }
}

/// The answer with the cells taken or the fault, the store, and the counts.
type Outcome = (Result<(i32, u32), Fault>, Vec<u32>, Counts);

/// Runs rows of a right form.
fn literal_run(limits: Limits, rows: &[u32], readings: &[i32]) -> Outcome {
    let mut machine = Machine {
        rows: rows.chunks(5).collect(),
        next: 0,
        readings,
        variables: limits.variables as usize,
        store: vec![(0, EMPTY); (limits.variables + limits.boxes) as usize],
        cells: 0,
        opened: vec![],
        counts: [0; 5],
    };
    let answer = match machine.term() {
        Ok((1, number)) => Ok((number as i32, machine.cells)),
        Ok(_) => Err((61, 0)),
        Err(fault) => Err(fault),
    };
    let store = machine.store.iter();
    let store = store.flat_map(|(state, (kind, payload))| [*state, *kind, *payload]);
    (answer, store.collect(), machine.counts)
}

type Make = fn(&mut Generator, &mut Vec<u32>);

/// The counts of the accepted scripts of a sample.
fn agrees_under(limits: Limits, seed: u64, count: usize, make: Make) -> Counts {
    let mut generator = Generator::with_limits(seed, limits);
    let mut rows = Vec::new();
    let mut accepted = [0; 5];
    for _ in 0..count {
        make(&mut generator, &mut rows);
        let readings = generator.readings();
        if judge_rows(limits, &rows).is_err() {
            continue;
        }
        let mut store = vec![9; limits.store_numbers()];
        let answer = run_unchecked(limits, &rows, &readings, &mut store)
            .map(|ran| (ran.answer, ran.cells))
            .map_err(|fault| (fault.number, fault.place));
        let (literal, due, counts) = literal_run(limits, &rows, &readings);
        assert_eq!(answer, literal, "{:?}", &rows[..rows.len().min(200)]);
        assert_eq!(store, due);
        if check(limits, &rows).is_ok() {
            accepted
                .iter_mut()
                .zip(counts)
                .for_each(|(all, of)| *all += of);
        }
    }
    accepted
}

/// Under the set of the program and under the largest.
fn agrees(seed: u64, count: usize, make: Make) -> Counts {
    agrees_under(Limits::LARGEST, seed, count / 10, make);
    agrees_under(Limits::BASE, seed, count, make)
}

#[test]
fn the_machine_agrees_on_accepted_scripts() {
    let counts = agrees(71, 20_000, Generator::accepted_rows);
    // Both ends are met often, so that no one can take them for each other, and
    // so are both blocks of a choice.
    assert!(counts.iter().all(|count| *count > 1_000), "{counts:?}");
}

#[test]
fn the_machine_agrees_on_near_misses() {
    agrees(72, 20_000, Generator::near_miss_rows);
}

#[test]
fn the_machine_agrees_on_wild_rows() {
    agrees(73, 20_000, Generator::wild_rows);
}

#[test]
fn the_machine_agrees_on_rows_of_any_form() {
    agrees(74, 20_000, Generator::valid_rows);
    agrees(75, 20_000, Generator::mixed_rows);
}

#[test]
fn the_machine_agrees_on_joined_rows() {
    let counts = agrees(77, 10_000, Generator::joined_rows);
    assert!(counts[3..].iter().all(|count| *count > 2_000), "{counts:?}");
    agrees(78, 10_000, Generator::near_joined_rows);
}

#[test]
fn the_machine_agrees_under_any_set() {
    let mut sets = Generator::new(76);
    for seed in 0..200 {
        let limits = sets.limits_within();
        agrees_under(limits, seed, 30, Generator::accepted_rows);
        agrees_under(limits, seed, 60, Generator::mixed_rows);
    }
}
