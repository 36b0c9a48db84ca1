//! Trees of terms of every shape, with an exact number of terms.

use super::operands;
use super::plan::{capacity, plan_beyond, plan_within, Plan, Style};
use super::versions;
use super::Generator;
use crate::form::*;
use crate::random::Random;

impl Generator {
    /// A tree of terms within all limits.
    pub(super) fn valid_terms(&mut self) {
        let plan = plan_within(&mut self.random, self.limits);
        self.tree(plan);
    }

    /// A tree just beyond one of the limits, seldom within it.
    pub(super) fn terms_beyond(&mut self) {
        let plan = plan_beyond(&mut self.random, self.limits);
        self.tree(plan);
    }

    /// Puts another term where a choice has a block, if there is a choice.
    pub(super) fn break_branch(&mut self) {
        let random = &mut self.random;
        let near = random.index(self.terms.len());
        let choice = self.terms[near..].iter().position(|row| row[0] == CHOICE);
        let Some(choice) = choice.map(|after| near + after) else {
            return;
        };
        let branch = match random.below(2) {
            0 => choice + 1,
            _ => end_of(&self.terms, choice + 1),
        };
        let leaf = operands::leaf(random, self.limits.variables, NEWEST);
        let kind = random.pick(&[BOX, LET, CHOICE]);
        self.terms[branch] = random.pick(&[leaf, [kind, 0, 0, 0, 0]]);
    }

    /// A tree whose outermost term is a block, mostly with the kinds of version
    /// 2, else with those of version 1.
    fn tree(&mut self, plan: Plan) {
        self.terms.clear();
        let version = versions::of_terms(&mut self.random);
        let mut builder = Builder {
            random: &mut self.random,
            version,
            variables: self.limits.variables,
            terms: &mut self.terms,
            style: plan.style,
            boxes: plan.boxes,
        };
        builder.block(plan.levels, plan.terms);
    }
}

struct Builder<'a> {
    random: &'a mut Random,
    version: u32,
    variables: u32,
    terms: &'a mut Vec<Row>,
    style: Style,
    boxes: u32,
}

impl Builder<'_> {
    /// One term with exactly `budget` terms in all, on at most `levels`
    /// levels.
    fn term(&mut self, levels: u32, budget: usize) {
        if budget == 1 {
            let leaf = operands::leaf(self.random, self.variables, self.version);
            self.terms.push(leaf);
            return;
        }
        let wrappers = match self.style {
            Style::Narrow => 60,
            Style::Deep => 80,
            Style::Wide => 10,
            Style::Boxes(_) => 97,
            Style::Mixed => 35,
        };
        if budget - 1 <= capacity(levels - 1) && self.random.percent(wrappers) {
            self.wrapper();
            self.term(levels - 1, budget - 1);
        } else if self.has_choice(levels, budget) {
            self.choice(levels, budget);
        } else {
            self.block(levels, budget);
        }
    }

    /// Whether a choice stands where a block could. It needs two blocks and a
    /// term in each.
    fn has_choice(&mut self, levels: u32, budget: usize) -> bool {
        let chance = match self.style {
            Style::Boxes(_) => 5,
            _ => 40,
        };
        let room = capacity(levels - 1).saturating_mul(2);
        let possible = self.version > 1 && levels > 2 && budget > 4 && budget - 1 <= room;
        possible && self.random.percent(chance)
    }

    fn choice(&mut self, levels: u32, budget: usize) {
        let [root, follows] = operands::place(self.random, self.variables);
        self.terms.push([CHOICE, root, follows, 0, 0]);
        let room = capacity(levels - 1);
        let inner = budget - 1;
        let least = inner.saturating_sub(room).max(2);
        let first = self.share(least, room.min(inner - 2));
        self.block(levels - 1, first);
        self.block(levels - 1, inner - first);
    }

    /// A box, let or assign, without its inner term.
    fn wrapper(&mut self) {
        let boxes = matches!(self.style, Style::Boxes(_));
        let box_chance = if boxes { 97 } else { 30 };
        let row = if self.boxes > 0 && self.random.percent(box_chance) {
            self.boxes -= 1;
            [BOX, 0, 0, 0, 0]
        } else if self.random.percent(50) {
            [
                LET,
                operands::variable(self.random, self.variables),
                0,
                0,
                0,
            ]
        } else {
            let [root, follows] = operands::place(self.random, self.variables);
            [ASSIGN, root, follows, 0, 0]
        };
        self.terms.push(row);
    }

    fn block(&mut self, levels: u32, budget: usize) {
        let room = capacity(levels - 1);
        let mut left = budget - 1;
        let count = self.count(left.div_ceil(room), left.min(MAX_COUNT as usize), left);
        self.terms.push([BLOCK, count as u32, 0, 0, 0]);
        for after in (0..count).rev() {
            let least = left.saturating_sub(after.saturating_mul(room)).max(1);
            let most = room.min(left - after);
            let share = self.share(least, most);
            self.term(levels - 1, share);
            left -= share;
        }
    }

    /// How many terms a block has side by side.
    fn count(&mut self, fewest: usize, most: usize, inner: usize) -> usize {
        let chosen = match self.style {
            Style::Narrow => fewest + self.random.index(2),
            Style::Deep => fewest,
            Style::Wide => most,
            Style::Boxes(run) => inner / run,
            Style::Mixed => match self.random.below(3) {
                0 => fewest + self.random.index(4),
                _ => fewest + self.random.index(most - fewest + 1),
            },
        };
        chosen.clamp(fewest, most)
    }

    /// How much of a block's budget one of its terms gets.
    fn share(&mut self, least: usize, most: usize) -> usize {
        match self.style {
            Style::Boxes(run) => most.min(least.max(run)),
            _ if self.random.percent(50) => least,
            _ => least + self.random.index(most - least + 1),
        }
    }
}
