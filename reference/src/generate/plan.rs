//! What trees of terms are to use up: within the limits of a set, or just
//! beyond one of them.

use crate::form::MAX_COUNT;
use crate::limits::Limits;
use crate::random::Random;

/// How a tree spreads its terms.
#[derive(Clone, Copy, PartialEq)]
pub(super) enum Style {
    /// Few terms side by side, so that the tree gets deep.
    Narrow,
    /// One term in another, down to the last level.
    Deep,
    /// As many terms side by side as fit.
    Wide,
    /// Runs of so many terms, each inside the one before, boxes before others.
    Boxes(usize),
    Mixed,
}

/// What a tree may use up. Trees just beyond the limits of a set are asked for
/// with larger numbers than those of the set.
#[derive(Clone, Copy)]
pub(super) struct Plan {
    pub(super) style: Style,
    pub(super) levels: u32,
    pub(super) terms: usize,
    pub(super) boxes: u32,
}

/// The most terms that one term and everything inside it can have on so many
/// levels, as far as it matters for trees of about 4,096 terms.
pub(super) fn capacity(levels: u32) -> usize {
    match levels {
        0 => 0,
        1 => 1,
        2 => MAX_COUNT as usize + 1,
        _ => usize::MAX,
    }
}

/// Most scripts have fewer terms, under every set.
pub(super) const MIDDLING: usize = 512;

/// How many terms a tree gets: few most often, now and then all.
fn size(random: &mut Random, most: usize) -> usize {
    let (fewest, upto) = match random.below(40) {
        0 => (most, most),
        1 => (MIDDLING, most),
        2..=5 => (100, MIDDLING),
        6..=15 => (16, 100),
        _ => (2, 20),
    };
    let (fewest, upto) = (fewest.min(most), upto.min(most));
    fewest + random.index(upto - fewest + 1)
}

/// A plan within all limits. The outermost block and a term in it are there
/// under every set.
pub(super) fn plan_within(random: &mut Random, limits: Limits) -> Plan {
    let style = random.pick(&[
        Style::Narrow,
        Style::Deep,
        Style::Mixed,
        Style::Mixed,
        Style::Mixed,
        Style::Mixed,
        Style::Wide,
        Style::Wide,
        Style::Boxes(2),
        Style::Boxes(3),
    ]);
    let levels = limits.levels.max(2);
    Plan {
        style,
        levels,
        terms: size(random, limits.terms.max(2) as usize).min(capacity(levels)),
        boxes: limits.boxes,
    }
}

/// A plan that most often leads beyond exactly one limit, now and then beyond
/// more.
pub(super) fn plan_beyond(random: &mut Random, limits: Limits) -> Plan {
    let within = plan_within(random, limits);
    match random.below(9) {
        0 | 1 => Plan {
            terms: (limits.terms as usize + 1)
                .min(capacity(within.levels))
                .max(2),
            ..within
        },
        2 | 3 => too_many_boxes(random, limits, within),
        4 => Plan {
            style: random.pick(&[Style::Deep, within.style]),
            terms: limits.terms as usize + 1,
            levels: limits.levels + 2,
            boxes: limits.boxes + 1,
        },
        _ => too_deep(random, limits, within),
    }
}

/// One box too many: in pairs of a box and what is in it if there is room for
/// all of them, otherwise in longer runs, or in a single one.
fn too_many_boxes(random: &mut Random, limits: Limits, within: Plan) -> Plan {
    let boxes = limits.boxes + 1;
    let levels = within.levels.max(3);
    let terms = random.between(2 * boxes + 10, 2 * boxes + 170);
    let (run, levels, terms) = if 2 * boxes < limits.terms {
        ((levels - 1).min(random.pick(&[2, 2, 3])), levels, terms)
    } else if boxes < levels {
        // What is in the last box may be too deep, as it is never reached.
        (boxes + 1, levels + 1, boxes + 2)
    } else {
        (levels - 1, levels, terms)
    };
    Plan {
        style: Style::Boxes(run as usize),
        levels,
        // The box too many may be the last term that there is room for.
        terms: terms.min(limits.terms + 1).max(3) as usize,
        boxes,
    }
}

fn too_deep(random: &mut Random, limits: Limits, within: Plan) -> Plan {
    let levels = limits.levels + 1;
    let terms = random.between(levels + 3, levels + 43).min(limits.terms);
    Plan {
        style: random.pick(&[Style::Narrow, Style::Narrow, Style::Deep]),
        levels: levels.max(2),
        terms: (terms.max(2) as usize).min(capacity(levels)),
        ..within
    }
}
