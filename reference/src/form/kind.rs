//! Term kinds (LANGUAGE 2.3) and the ranges of their operands (2.4).

use crate::limits::Limits;

pub const NUMBER: u32 = 0x01;
pub const READING: u32 = 0x02;
pub const COPY: u32 = 0x03;
pub const MOVE: u32 = 0x04;
pub const SHARED: u32 = 0x05;
pub const EXCLUSIVE: u32 = 0x06;
pub const BOX: u32 = 0x07;
pub const LET: u32 = 0x08;
pub const ASSIGN: u32 = 0x09;
pub const BELOW: u32 = 0x0A;
pub const BLOCK: u32 = 0x0B;
pub const CHOICE: u32 = 0x0C;
pub const SUM: u32 = 0x0D;

/// The largest reading index.
pub const MAX_READING: u32 = 7;
/// The most follows of a place.
pub const MAX_FOLLOWS: u32 = 8;
/// The most terms directly in one block; the fewest is 1.
pub const MAX_COUNT: u32 = 255;

/// What a kind has, whatever the set of limits. It is as large as a [`Range`],
/// so that one offset serves in the tables of both.
#[derive(Clone, Copy)]
pub(super) struct Layout {
    /// How far the four bytes after the kind, taken as one number, are shifted
    /// down to leave the first operand, or nothing.
    pub(super) shift: u32,
    /// The bits of the other operands that the kind has.
    pub(super) kept: [u32; 3],
    /// The bytes of the kind and its operands in a script.
    pub(super) bytes: u8,
    /// The terms directly inside; of a block, the first operand says it.
    inner: u8,
}

const fn layout(bytes: u8, inner: u8) -> Layout {
    Layout {
        shift: if bytes > 1 { 24 } else { 32 },
        kept: [
            if bytes > 2 { 0xFF } else { 0 },
            if bytes > 3 { 0xFF } else { 0 },
            if bytes > 4 { 0xFF } else { 0 },
        ],
        bytes,
        inner,
    }
}

/// The layouts by kind. A table instead of a match spares a jump per term
/// that cannot be predicted.
pub(super) static LAYOUTS: [Layout; KINDS] = [
    layout(0, 0), // no kind
    Layout {
        shift: 0,
        kept: [0; 3],
        ..layout(5, 0)
    },
    layout(2, 0),
    layout(3, 0),
    layout(3, 0),
    layout(3, 0),
    layout(3, 0),
    layout(1, 1),
    layout(2, 1),
    layout(3, 1),
    layout(5, 0),
    layout(2, 0),
    layout(3, 2),
    layout(5, 0),
];

/// One more than the last kind. 0 is none.
const KINDS: usize = SUM as usize + 1;

/// The ranges of one kind's operands.
#[derive(Clone, Copy)]
pub(super) struct Range {
    /// The smallest first operand.
    least: u32,
    /// The largest value of each operand, 0 for unused fields.
    most: [u32; 4],
}

/// The ranges by kind.
pub(super) type Ranges = [Range; KINDS];

const fn range(least: u32, most: [u32; 4]) -> Range {
    Range { least, most }
}

const fn ranges(variables: u32) -> Ranges {
    let last = variables - 1;
    let place = range(0, [last, MAX_FOLLOWS, 0, 0]);
    let two_places = range(0, [last, MAX_FOLLOWS, last, MAX_FOLLOWS]);
    [
        range(0, [0; 4]), // no kind
        range(0, [u32::MAX, 0, 0, 0]),
        range(0, [MAX_READING, 0, 0, 0]),
        place,
        place,
        place,
        place,
        range(0, [0; 4]),
        range(0, [last, 0, 0, 0]),
        place,
        two_places,
        range(1, [MAX_COUNT, 0, 0, 0]),
        place,
        two_places,
    ]
}

/// The most variables of any set.
const MOST: usize = Limits::LARGEST.variables as usize;

/// The ranges for each number of variables from 1 on, made beforehand, so that
/// a call need not make them.
static RANGES: [Ranges; MOST] = {
    let mut all = [ranges(1); MOST];
    let mut index = 1;
    while index < MOST {
        all[index] = ranges(index as u32 + 1);
        index += 1;
    }
    all
};

/// The ranges under a set that is in its own ranges.
#[inline]
pub(super) fn ranges_of(limits: Limits) -> &'static Ranges {
    &RANGES[limits.variables as usize - 1]
}

/// How many terms come directly inside a term whose operands are in range.
#[inline(always)]
pub(crate) fn inner_terms(row: &super::Row) -> u8 {
    if row[0] == BLOCK {
        row[1] as u8
    } else {
        LAYOUTS[row[0] as usize].inner
    }
}

/// Where the term at `at` ends with everything inside it. The rows are those
/// of a right form.
#[inline]
pub(crate) fn end_of(rows: &[super::Row], at: usize) -> usize {
    let mut end = at;
    let mut waiting = 1;
    while waiting > 0 {
        waiting += inner_terms(&rows[end]) as usize;
        waiting -= 1;
        end += 1;
    }
    end
}

/// Whether the operands of a row with a known kind are in range and its
/// unused fields 0. All these faults of a row have the same number and place,
/// so their order within the row does not matter.
#[inline(always)]
pub(super) fn is_in_range(ranges: &Ranges, row: &super::Row) -> bool {
    let [kind, a, b, c, d] = *row;
    let Range { least, most } = &ranges[kind as usize];
    // Without short circuits, as all of it holds almost always.
    (a >= *least) & (a <= most[0]) & (b <= most[1]) & (c <= most[2]) & (d <= most[3])
}
