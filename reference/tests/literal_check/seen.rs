//! What was met while judging.

/// How often something happened.
#[derive(Default, Debug)]
pub struct Seen {
    /// A variable moved away after one block, not after the other.
    pub moved_in_one: u32,
    /// A borrow link that stands for other places after each block.
    pub borrowed_otherwise: u32,
    /// An assign that may land in several variables, and one with a borrow.
    pub several_written: u32,
    pub several_written_borrows: u32,
    /// A place met again while following.
    pub met_again: u32,
    /// A shared borrow through shared links, and one through several of them,
    /// one with follows that remain, one recorded against several places.
    pub through_shared: u32,
    pub through_several: u32,
    pub follows_remain: u32,
    pub recorded_several: u32,
    /// A bar that was asked of a root with holders who would bar if in use.
    pub asked_of_held: u32,
}
