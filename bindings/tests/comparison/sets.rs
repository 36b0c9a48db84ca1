//! Where the sets of limits of generated cases come from.

use crate::common::due;
use crate::common::sets::{shown, LEAST, SMALL, UNEVEN};
use crate::common::settings::Settings;
use crate::layers::AUTHOR;
use reference::random::Random;
use reference::Generator;
use roomscript::Limits;

/// The sets of a comparison.
#[derive(Clone, Copy, PartialEq)]
pub enum Sets {
    /// The same for each case.
    One(Limits),
    /// Any in the ranges.
    Within,
    /// Any outside the ranges. What is lent is made for a set in them.
    Outside,
}

impl Sets {
    pub const BASE: Sets = Sets::One(Limits::BASE);
    pub const LEAST: Sets = Sets::One(LEAST);
    pub const SMALL: Sets = Sets::One(SMALL);
    pub const UNEVEN: Sets = Sets::One(UNEVEN);
    pub const LARGEST: Sets = Sets::One(Limits::LARGEST);

    pub fn name(self) -> String {
        match self {
            Sets::One(limits) => shown(limits),
            Sets::Within => "any in the ranges".to_string(),
            Sets::Outside => "any outside the ranges".to_string(),
        }
    }

    /// All cases under the language's own set, and as many again under all
    /// others together. Rows of the largest set are 80 KB.
    pub fn settings(self) -> Settings {
        let percent = match self {
            Sets::BASE => return Settings::from_environment(),
            Sets::SMALL => 35,
            Sets::UNEVEN => 30,
            Sets::Within => 15,
            Sets::LARGEST => 10,
            // The least, and those outside the ranges.
            _ => 5,
        };
        Settings::from_environment().share(percent)
    }

    /// The set of the next case. The generator then makes what is lent for
    /// this set, or for another where it is outside the ranges.
    pub fn next(self, generator: &mut Generator) -> Limits {
        let made_for = match self {
            Sets::One(limits) => due::set(limits),
            _ => generator.limits_within(),
        };
        generator.set_limits(made_for);
        due::ours(match self {
            Sets::Outside => generator.limits_outside(),
            _ => made_for,
        })
    }

    /// Whether scripts are within the sets at all.
    pub fn have_room(self) -> bool {
        self != Sets::LEAST && self != Sets::Outside
    }

    /// The numbers that must occur, given those that must where a set has room
    /// for scripts.
    pub fn expected(self, with_room: &[u32], in_least: &[u32]) -> Vec<u32> {
        match self {
            Sets::Outside => vec![74],
            Sets::LEAST => in_least.to_vec(),
            _ => with_room.to_vec(),
        }
    }
}

/// The numbers that the check can answer rows of the right form. Under the
/// small set 42 is not among them: each link of a chain is that of another box
/// term, of which there are three, or leads to another variable, of which there
/// are five.
pub fn author_under(sets: Sets) -> Vec<u32> {
    let mut numbers = AUTHOR.to_vec();
    if sets == Sets::SMALL {
        numbers.retain(|number| *number != 42);
    }
    numbers
}

/// The same for near misses, where 42 is rare: the numbers that must occur, and
/// those that may. Some sets have too few cases for it.
pub fn near_misses_under(sets: Sets) -> (Vec<u32>, &'static [u32]) {
    let mut numbers = author_under(sets);
    if sets == Sets::BASE || sets == Sets::SMALL {
        return (numbers, &[]);
    }
    numbers.retain(|number| *number != 42);
    (numbers, &[42])
}

/// The largest length that is lent because a set outside the ranges asks for
/// it.
const LENT: usize = 50_000;

/// A length to lend where the set asks for one: this one most often, seldom
/// one that is refused. What a set outside the ranges asks for is lent if it is
/// not too long, else what the set asks for that the case was made for.
pub fn length(random: &mut Random, asked: usize, made_for: usize) -> usize {
    let right = match asked {
        0..=LENT if random.percent(50) => asked,
        _ => made_for,
    };
    match random.below(30) {
        0 => random.pick(&[0, 1, right.saturating_sub(1), right + 1, 2 * right]),
        _ => right,
    }
}

/// A test under each of the sets that has room for every script.
#[macro_export]
macro_rules! under_each_roomy_set {
    ($compare:path) => {
        use $crate::sets::Sets;

        #[test]
        fn the_language_s_own() {
            $compare(Sets::BASE);
        }

        #[test]
        fn small() {
            $compare(Sets::SMALL);
        }

        #[test]
        fn uneven() {
            $compare(Sets::UNEVEN);
        }

        #[test]
        fn largest() {
            $compare(Sets::LARGEST);
        }
    };
}

/// A test under each of the sets.
#[macro_export]
macro_rules! under_each_set {
    ($compare:path) => {
        $crate::under_each_roomy_set!($compare);

        #[test]
        fn least() {
            $compare(Sets::LEAST);
        }

        #[test]
        fn within() {
            $compare(Sets::Within);
        }

        #[test]
        fn outside() {
            $compare(Sets::Outside);
        }
    };
}
