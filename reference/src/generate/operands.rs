//! Operands, with the ends of their ranges more often than chance would
//! bring them.

use crate::form::*;
use crate::random::Random;

const NUMBERS: [i32; 9] = [0, 1, -1, 2, 7, -185, HALF, HALF - 1, -HALF];

/// Twice this is just over the upper end, and with one less for one of them
/// exactly at it. Twice its negative is exactly at the lower end.
const HALF: i32 = 1 << 30;

/// The ends of the range of a number and what is next to them, so that sums
/// are held to both, or just are not.
const ENDS: [i32; 4] = [i32::MIN, i32::MIN + 1, i32::MAX - 1, i32::MAX];

pub(super) fn number(random: &mut Random) -> u32 {
    match random.below(8) {
        0 => random.bits() as u32,
        1 | 2 => random.below(300),
        3..=5 => random.pick(&ENDS) as u32,
        _ => random.pick(&NUMBERS) as u32,
    }
}

/// One of so many variables.
pub(super) fn variable(random: &mut Random, variables: u32) -> u32 {
    match random.below(8) {
        0 => 0,
        1 => variables - 1,
        2..=4 => random.below(variables.min(6)),
        _ => random.below(variables),
    }
}

pub(super) fn follows(random: &mut Random) -> u32 {
    match random.below(4) {
        0 => random.below(MAX_FOLLOWS + 1),
        1 => random.pick(&[0, 1, MAX_FOLLOWS]),
        _ => random.below(3),
    }
}

/// The two operands of a place.
pub(super) fn place(random: &mut Random, variables: u32) -> [u32; 2] {
    [variable(random, variables), follows(random)]
}

/// A below, or a sum if the version has it.
pub(super) fn of_two_places(random: &mut Random, version: u32) -> u32 {
    if version > 1 && random.percent(60) {
        SUM
    } else {
        BELOW
    }
}

/// A term without inner terms, of a kind that the version has.
pub(super) fn leaf(random: &mut Random, variables: u32, version: u32) -> Row {
    match random.between(1, 8) {
        NUMBER => [NUMBER, number(random), 0, 0, 0],
        READING => [READING, random.below(MAX_READING + 1), 0, 0, 0],
        7 | 8 => {
            let kind = of_two_places(random, version);
            let [a, b] = place(random, variables);
            let [c, d] = place(random, variables);
            [kind, a, b, c, d]
        }
        kind => {
            let [root, follows] = place(random, variables);
            [kind, root, follows, 0, 0]
        }
    }
}
