//! All small scripts of one outline with a choice: some variables and
//! references, a choice by a reading with a term in each block, and then a
//! term by which what was joined shows. All terms are of fitting types, so
//! that what is refused is refused for what the blocks did.

use crate::form::*;
use crate::ownership::chain::{Chain, Link};

type Place = (u32, u32);

/// The variables that stand before a choice, from number 1 on: the rows of
/// each one's value and the links of its type. Variable 0 is a reading.
type Opening = Vec<(Vec<Row>, Chain)>;

const ONE: Row = [NUMBER, 1, 0, 0, 0];

fn around(first: Row, inner: &[Row]) -> Vec<Row> {
    [&[first], inner].concat()
}

fn let_(variable: u32, inner: &[Row]) -> Vec<Row> {
    around([LET, variable, 0, 0, 0], inner)
}

fn at(kind: u32, (root, follows): Place) -> Row {
    [kind, root, follows, 0, 0]
}

fn chain_of(links: &[Link]) -> Chain {
    let mut links = links.iter().rev();
    let chain = links.try_fold(Chain::NUMBER, |chain, link| chain.behind(*link));
    chain.expect("at most 8 links")
}

/// Two numbers or two boxes, and then borrows of these places, in boxes where
/// that is asked for.
fn opening(boxed: bool, borrows: &[(bool, Link, Place)]) -> Opening {
    let links = if boxed { &[Link::Box][..] } else { &[] };
    let boxes = |count: bool| vec![[BOX, 0, 0, 0, 0]; count as usize];
    let owned = ([boxes(boxed), vec![ONE]].concat(), chain_of(links));
    let mut opening = vec![owned.clone(), owned];
    for (boxed, link, place) in borrows {
        let kind = match link {
            Link::Shared => SHARED,
            _ => EXCLUSIVE,
        };
        let rows = [boxes(*boxed), vec![at(kind, *place)]].concat();
        let (_, behind) = &opening[place.0 as usize - 1];
        let chain = behind.after(place.1 as u8).behind(*link);
        let chain = chain.and_then(|chain| match boxed {
            true => chain.behind(Link::Box),
            false => Some(chain),
        });
        opening.push((rows, chain.expect("at most 8 links")));
    }
    opening
}

fn openings() -> Vec<Opening> {
    use Link::{Exclusive, Shared};
    vec![
        opening(false, &[(false, Exclusive, (1, 0))]),
        opening(false, &[(false, Shared, (1, 0))]),
        opening(false, &[(true, Exclusive, (1, 0))]),
        opening(true, &[(false, Exclusive, (1, 1))]),
        opening(true, &[(false, Exclusive, (1, 0))]),
        opening(true, &[(false, Shared, (1, 1))]),
        // A reference to a reference.
        opening(
            false,
            &[(false, Exclusive, (1, 0)), (false, Exclusive, (3, 0))],
        ),
        opening(false, &[(false, Shared, (1, 0)), (false, Shared, (3, 0))]),
        // Two references, each of which may come to lead through the other.
        opening(
            false,
            &[(false, Exclusive, (1, 0)), (false, Exclusive, (2, 0))],
        ),
        opening(
            true,
            &[(false, Exclusive, (1, 1)), (false, Exclusive, (2, 1))],
        ),
    ]
}

/// The terms over variables with these chains, the first of which is number 0.
struct Terms<'a> {
    chains: &'a [Chain],
}

impl Terms<'_> {
    /// All places but those of the reading, with what is there.
    fn places(&self) -> Vec<(Place, Chain)> {
        let mut places = Vec::new();
        for (variable, chain) in self.chains.iter().enumerate().skip(1) {
            for follows in 0..=chain.links() {
                let place = (variable as u32, follows);
                places.push((place, chain.after(follows as u8)));
            }
        }
        places
    }

    /// All terms that are about one place alone, with their types.
    fn values(&self) -> Vec<(Row, Chain)> {
        let mut values = Vec::new();
        for (place, chain) in self.places() {
            if chain.is_number() || chain.starts_shared() {
                values.push((at(COPY, place), chain));
            }
            if !self.chains[place.0 as usize].passes_borrow(place.1 as u8) {
                values.push((at(MOVE, place), chain));
            }
            for (kind, link) in [(SHARED, Link::Shared), (EXCLUSIVE, Link::Exclusive)] {
                let borrow = chain.behind(link).map(|chain| (at(kind, place), chain));
                values.extend(borrow);
            }
        }
        values
    }

    /// All assigns of such terms, or of a number, in a box if need be.
    fn assigns(&self) -> Vec<Vec<Row>> {
        let mut assigns = Vec::new();
        for (place, chain) in self.places() {
            let assign = at(ASSIGN, place);
            for (value, of) in self.values() {
                if of == chain {
                    assigns.push(around(assign, &[value]));
                }
            }
            if !chain.has_borrow() {
                let boxes = vec![[BOX, 0, 0, 0, 0]; chain.links() as usize];
                assigns.push(around(assign, &[boxes, vec![ONE]].concat()));
            }
        }
        assigns
    }

    /// The terms that change something: a number, which does not, moves and
    /// assigns.
    fn changes(&self) -> Vec<Vec<Row>> {
        let mut changes = vec![vec![ONE]];
        let moves = self.values().into_iter().filter(|(row, _)| row[0] == MOVE);
        changes.extend(moves.map(|(row, _)| vec![row]));
        changes.extend(self.assigns());
        changes
    }

    /// The terms by which something shows.
    fn shows(&self) -> Vec<Vec<Row>> {
        let values = self.values().into_iter();
        let values = values.map(|(row, _)| vec![row]);
        values.chain(self.assigns()).collect()
    }
}

/// Shows scripts one after the other: the opening, what is given for the
/// choice, one of the last terms, and a number as the answer.
struct Scripts<'a> {
    script: Vec<Row>,
    count: u64,
    show: &'a mut dyn FnMut(&[Row]),
}

impl Scripts<'_> {
    fn begin(&mut self, opening: &Opening) {
        // The reading, the choice, a term more and the answer.
        self.script = vec![[BLOCK, opening.len() as u32 + 4, 0, 0, 0]];
        self.script.extend(let_(0, &[[READING, 0, 0, 0, 0]]));
        for (index, (rows, _)) in opening.iter().enumerate() {
            self.script.extend(let_(index as u32 + 1, rows));
        }
    }

    fn with_each(&mut self, choice: &[Row], shows: &[Vec<Row>]) {
        let opened = self.script.len();
        self.script.extend_from_slice(choice);
        let chosen = self.script.len();
        for last in shows {
            self.script.extend_from_slice(last);
            self.script.push(ONE);
            (self.show)(&self.script);
            self.count += 1;
            self.script.truncate(chosen);
        }
        self.script.truncate(opened);
    }
}

/// A choice by variable 0 between two blocks of these terms, so many in each.
fn choice(count: u32, first: &[Row], second: &[Row]) -> Vec<Row> {
    let block = |inner| around([BLOCK, count, 0, 0, 0], inner);
    around(
        [CHOICE, 0, 0, 0, 0],
        &[block(first), block(second)].concat(),
    )
}

/// Every script with a change in each block, and one for every two values of
/// one type as the value of a let, each with all terms by which it may show.
/// Shows the terms of each, and answers how many there are. No script has more
/// than 64 terms.
pub fn small_choices(show: &mut dyn FnMut(&[Row])) -> u64 {
    let mut scripts = Scripts {
        script: Vec::new(),
        count: 0,
        show,
    };
    for opening in openings() {
        scripts.begin(&opening);
        let mut chains = vec![Chain::NUMBER];
        chains.extend(opening.iter().map(|(_, chain)| *chain));
        changed_in_both(&mut scripts, &chains);
        values_of_both(&mut scripts, &mut chains);
    }
    scripts.count
}

fn changed_in_both(scripts: &mut Scripts, chains: &[Chain]) {
    let terms = Terms { chains };
    let (changes, shows) = (terms.changes(), terms.shows());
    for first in &changes {
        for second in &changes {
            let [first, second] = [first, second].map(|rows| [&rows[..], &[ONE]].concat());
            scripts.with_each(&choice(2, &first, &second), &shows);
        }
    }
}

/// The new variable has the number after those of the opening.
fn values_of_both(scripts: &mut Scripts, chains: &mut Vec<Chain>) {
    let number = chains.len() as u32;
    let values = Terms { chains }.values();
    for (first, chain) in &values {
        chains.push(*chain);
        let shows = Terms { chains }.shows();
        chains.pop();
        for (second, _) in values.iter().filter(|(_, other)| other == chain) {
            let both = choice(1, &[*first], &[*second]);
            scripts.with_each(&let_(number, &both), &shows);
        }
    }
}
