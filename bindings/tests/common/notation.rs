//! Scripts as text, in the notation of LANGUAGE 1.5, and their term rows.
//!
//! ```text
//! script   = term { ";" term }
//! term     = number | "reading" index | "box" term | block
//!          | "copy" place | "move" place | "&" place | "&" "mut" place
//!          | "let" variable "=" term | place "=" term
//!          | "below" place "," place | "sum" place "," place
//!          | "choice" place block block
//! block    = "{" script "}"
//! place    = { "*" } variable
//! variable = "v" digits
//! ```
//!
//! White space may stand between any two of these parts, and must stand
//! between two words. Ranges are not looked at, but for what does not fit into
//! a field of a row: whatever takes rows judges them (LANGUAGE 2.4, 5.12).

use super::terms::*;
use std::fmt::{self, Display, Formatter};

/// The most terms in each other. No set of limits allows so many levels.
const MOST_NESTED: usize = 256;

const TERM: &str = "a term";
const PLACE: &str = "a place (as v0 or *v0)";
const VARIABLE: &str = "a variable (as v0)";
const NUMBER: &str = "a number from -2147483648 to 2147483647";
const INDEX: &str = "the index of a reading";

/// Where a text is no script, what is due there, and what is there instead.
#[derive(Clone, Debug, PartialEq, Eq)]
pub struct Wrong {
    /// The character, counted from 1. Where the text ends too early it is the
    /// one after the last.
    pub at: usize,
    pub due: &'static str,
    /// None where the text ends.
    pub found: Option<char>,
}

impl Display for Wrong {
    fn fmt(&self, to: &mut Formatter<'_>) -> fmt::Result {
        let Wrong { at, due, found } = self;
        match found {
            Some(found) => write!(to, "character {at}: expected {due}, found {found:?}"),
            None => write!(to, "character {at}: expected {due}, found the end"),
        }
    }
}

/// The rows of a script, those of its outermost block first.
pub fn rows_in(text: &str) -> Result<Vec<Row>, Wrong> {
    let mut text = Text::new(text);
    let terms = text.terms(0)?;
    match text.peek() {
        None => Ok(block(&terms)),
        Some(_) => Err(text.wrong("`;` or the end")),
    }
}

/// A text and the next character of it.
struct Text {
    characters: Vec<char>,
    next: usize,
}

impl Text {
    fn new(text: &str) -> Self {
        Text {
            characters: text.chars().collect(),
            next: 0,
        }
    }

    /// The next character that is no white space.
    fn peek(&mut self) -> Option<char> {
        while self.here().is_some_and(char::is_whitespace) {
            self.next += 1;
        }
        self.here()
    }

    fn here(&self) -> Option<char> {
        self.characters.get(self.next).copied()
    }

    /// The error that something else is due at the next character.
    fn wrong(&self, due: &'static str) -> Wrong {
        Wrong {
            at: self.next + 1,
            due,
            found: self.here(),
        }
    }

    /// Passes a character if it is the next one.
    fn passes(&mut self, character: char) -> bool {
        let is_next = self.peek() == Some(character);
        self.next += usize::from(is_next);
        is_next
    }

    fn expect(&mut self, character: char, due: &'static str) -> Result<(), Wrong> {
        match self.passes(character) {
            true => Ok(()),
            false => Err(self.wrong(due)),
        }
    }

    /// The letters and digits from the next character on, which stay.
    fn word(&mut self) -> String {
        self.peek();
        let rest = &self.characters[self.next..];
        let letters = rest.iter().take_while(|next| next.is_ascii_alphanumeric());
        letters.collect()
    }

    /// Passes a word if it is the next one.
    fn passes_word(&mut self, word: &str) -> bool {
        let is_next = self.word() == word;
        self.next += word.len() * usize::from(is_next);
        is_next
    }

    /// The terms of a block, up to what is no `;`.
    fn terms(&mut self, around: usize) -> Result<Vec<Term>, Wrong> {
        let mut terms = vec![self.term(around + 1)?];
        while self.passes(';') {
            terms.push(self.term(around + 1)?);
        }
        Ok(terms)
    }

    fn term(&mut self, around: usize) -> Result<Term, Wrong> {
        let first = self.peek();
        if around > MOST_NESTED {
            return Err(self.wrong("a script with at most 256 terms in each other"));
        }
        match first {
            Some('{') => self.block(around),
            Some('&') => self.borrow(),
            Some('*') => self.assign(around),
            Some('-' | '0'..='9') => self.number(),
            Some('v') => self.assign(around),
            _ => self.named(around),
        }
    }

    /// A term that begins with a word of its own.
    fn named(&mut self, around: usize) -> Result<Term, Wrong> {
        let word = self.word();
        let wrong = self.wrong(TERM);
        self.next += word.len();
        match word.as_str() {
            "reading" => Ok(reading(self.digits(INDEX)?)),
            "copy" => Ok(copy(self.place()?)),
            "move" => Ok(mov(self.place()?)),
            "box" => Ok(boxed(self.term(around + 1)?)),
            "let" => self.declare(around),
            "below" => self.pair(below),
            "sum" => self.pair(sum),
            "choice" => self.choice(around),
            _ => Err(wrong),
        }
    }

    fn number(&mut self) -> Result<Term, Wrong> {
        let sign = usize::from(self.peek() == Some('-'));
        let rest = &self.characters[self.next..];
        let digits = rest[sign..]
            .iter()
            .take_while(|next| next.is_ascii_alphanumeric());
        let word: String = rest[..sign].iter().chain(digits).collect();
        let value = word.parse().map_err(|_| self.wrong(NUMBER))?;
        self.next += word.len();
        Ok(number(value))
    }

    fn borrow(&mut self) -> Result<Term, Wrong> {
        self.passes('&');
        match self.passes_word("mut") {
            true => Ok(exclusive(self.place()?)),
            false => Ok(shared(self.place()?)),
        }
    }

    fn declare(&mut self, around: usize) -> Result<Term, Wrong> {
        let variable = self.variable(VARIABLE)?;
        self.expect('=', "`=`")?;
        Ok(let_(variable, self.term(around + 1)?))
    }

    fn assign(&mut self, around: usize) -> Result<Term, Wrong> {
        let place = self.place()?;
        self.expect('=', "`=`")?;
        Ok(assign(place, self.term(around + 1)?))
    }

    fn pair(&mut self, term: fn(Place, Place) -> Term) -> Result<Term, Wrong> {
        let first = self.place()?;
        self.expect(',', "`,`")?;
        Ok(term(first, self.place()?))
    }

    fn choice(&mut self, around: usize) -> Result<Term, Wrong> {
        let place = self.place()?;
        let first = self.braced(around + 1)?;
        let second = self.braced(around + 1)?;
        Ok(choice(place, &first, &second))
    }

    fn block(&mut self, around: usize) -> Result<Term, Wrong> {
        Ok(block(&self.braced(around)?))
    }

    /// The terms of a block in braces.
    fn braced(&mut self, around: usize) -> Result<Vec<Term>, Wrong> {
        self.expect('{', "a block in braces")?;
        let terms = self.terms(around)?;
        self.expect('}', "`;` or `}`")?;
        Ok(terms)
    }

    fn place(&mut self) -> Result<Place, Wrong> {
        let mut follows = 0;
        while self.passes('*') {
            follows += 1;
        }
        Ok((self.variable(PLACE)?, follows))
    }

    fn variable(&mut self, due: &'static str) -> Result<u32, Wrong> {
        let word = self.word();
        let digits = word.strip_prefix('v').unwrap_or("");
        let variable = digits.parse().map_err(|_| self.wrong(due))?;
        self.next += word.len();
        Ok(variable)
    }

    fn digits(&mut self, due: &'static str) -> Result<u32, Wrong> {
        let word = self.word();
        let digits = word.parse().map_err(|_| self.wrong(due))?;
        self.next += word.len();
        Ok(digits)
    }
}
