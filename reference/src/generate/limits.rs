//! Sets of limits, in the ranges and outside them.

use super::Generator;
use crate::limits::Limits;
use crate::random::Random;

const LARGEST: Limits = Limits::LARGEST;

impl Generator {
    /// A set in the ranges, the ends of which are more often met than chance
    /// would have it.
    pub fn limits_within(&mut self) -> Limits {
        let random = &mut self.random;
        match random.below(12) {
            0 => Limits::BASE,
            1 => LARGEST,
            _ => Limits {
                terms: within(random, 1, LARGEST.terms),
                variables: within(random, 1, LARGEST.variables),
                boxes: within(random, 0, LARGEST.boxes),
                levels: within(random, 1, LARGEST.levels),
            },
        }
    }

    /// A set in the ranges that is nowhere smaller than the generator's.
    pub fn limits_above(&mut self) -> Limits {
        let Limits {
            terms,
            variables,
            boxes,
            levels,
        } = self.limits;
        let random = &mut self.random;
        Limits {
            terms: above(random, terms, LARGEST.terms),
            variables: above(random, variables, LARGEST.variables),
            boxes: above(random, boxes, LARGEST.boxes),
            levels: above(random, levels, LARGEST.levels),
        }
    }

    /// A set outside the ranges, in one of the four or in more.
    pub fn limits_outside(&mut self) -> Limits {
        let mut limits = self.limits_within();
        let random = &mut self.random;
        // A bit for each of the four; mostly a single one.
        let outside = match random.below(3) {
            0 => random.between(1, 15),
            _ => 1 << random.below(4),
        };
        let fields = [
            (&mut limits.terms, 0, LARGEST.terms),
            (&mut limits.variables, 0, LARGEST.variables),
            (&mut limits.levels, 0, LARGEST.levels),
            // No boxes are in the range.
            (&mut limits.boxes, u32::MAX, LARGEST.boxes),
        ];
        for (bit, (field, least, most)) in fields.into_iter().enumerate() {
            if outside >> bit & 1 != 0 {
                *field = beyond(random, least, most);
            }
        }
        limits
    }
}

fn within(random: &mut Random, least: u32, most: u32) -> u32 {
    match random.below(12) {
        0 => least,
        1 => most,
        2 => least + 1,
        3 => most - 1,
        4..=8 => random.between(least + 1, most.div_ceil(8)),
        _ => random.between(least, most),
    }
}

fn above(random: &mut Random, own: u32, most: u32) -> u32 {
    match random.below(5) {
        0 | 1 => own,
        2 => most,
        3 => most.min(own + 1),
        _ => random.between(own, most),
    }
}

/// A number over the end of a range, or the one under it. The low bits of some
/// are in the range.
fn beyond(random: &mut Random, under: u32, most: u32) -> u32 {
    match random.below(8) {
        0 | 1 => under,
        2 | 3 => most + 1,
        4 => u32::MAX,
        5 => random.between(1, most) + random.pick(&[0x1_0000, 0x100_0000, 0x8000_0000]),
        6 => random.between(most + 1, 4 * most),
        _ => random.between(most + 1, u32::MAX - 1),
    }
}
