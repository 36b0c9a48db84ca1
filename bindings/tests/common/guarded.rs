//! Buffers that show where they were written.

/// Guard cells on each side of a buffer.
const GUARD: usize = 32;

/// A cell's junk differs from cell to cell and from seed to seed and is never
/// 0, so that a cell left out, cleared or moved is seen.
pub trait Cell: Copy + PartialEq {
    fn junk(seed: u32, index: usize) -> Self;
}

impl Cell for u32 {
    fn junk(seed: u32, index: usize) -> u32 {
        (seed ^ index as u32).wrapping_mul(0x9E37_79B1) | 1
    }
}

impl Cell for i32 {
    fn junk(seed: u32, index: usize) -> i32 {
        u32::junk(seed, index) as i32
    }
}

impl Cell for u8 {
    fn junk(seed: u32, index: usize) -> u8 {
        (u32::junk(seed, index) >> 24) as u8 | 1
    }
}

/// A buffer with guard cells before and after it, all of them junk.
pub struct Guarded<T> {
    cells: Vec<T>,
    seed: u32,
}

impl<T: Cell> Guarded<T> {
    pub fn new() -> Self {
        let cells = Vec::new();
        let mut guarded = Guarded { cells, seed: 0 };
        guarded.fill(0, 0);
        guarded
    }

    /// A buffer of junk.
    pub fn junk(length: usize, seed: u32) -> Self {
        let mut guarded = Self::new();
        guarded.fill(length, seed);
        guarded
    }

    /// Makes this a buffer of junk.
    pub fn fill(&mut self, length: usize, seed: u32) {
        self.seed = seed;
        self.cells.clear();
        self.add_junk(length + 2 * GUARD);
    }

    /// Puts the junk back.
    pub fn fill_again(&mut self) {
        let length = self.lent().len();
        self.fill(length, self.seed);
    }

    /// Makes this a buffer with a given content.
    pub fn hold(&mut self, content: &[T], seed: u32) {
        self.seed = seed;
        self.cells.clear();
        self.add_junk(GUARD);
        self.cells.extend_from_slice(content);
        self.add_junk(GUARD);
    }

    fn add_junk(&mut self, count: usize) {
        let (seed, end) = (self.seed, self.cells.len());
        let junk = (end..end + count).map(|index| T::junk(seed, index));
        self.cells.extend(junk);
    }

    /// The buffer without its guards.
    pub fn lent(&self) -> &[T] {
        &self.cells[GUARD..self.cells.len() - GUARD]
    }

    pub fn lent_mut(&mut self) -> &mut [T] {
        let end = self.cells.len() - GUARD;
        &mut self.cells[GUARD..end]
    }

    /// Whether no guard cell was written.
    pub fn guards_hold(&self) -> bool {
        let end = self.cells.len() - GUARD;
        self.all_junk(0, GUARD) && self.all_junk(end, end + GUARD)
    }

    /// Whether the buffer is junk from a place on, as it was filled.
    pub fn junk_from(&self, place: usize) -> bool {
        self.all_junk(GUARD + place, self.cells.len() - GUARD)
    }

    /// Looks at each cell, since a loop that ends early compares them one by
    /// one, which is slow.
    fn all_junk(&self, from: usize, to: usize) -> bool {
        let cells = self.cells[from..to].iter().zip(from..);
        cells.fold(true, |all, (cell, index)| {
            all & (*cell == T::junk(self.seed, index))
        })
    }
}
