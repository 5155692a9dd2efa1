//! The room that an evaluation builds its values in.
use crate::constants::{MOST_CELLS, MOST_TEXT_BYTES};

/// Cells and text for an evaluation, as many as the type says: they are the limits of what a rule can build. What is beyond 4,096 cells and
/// 16,384 bytes is not used. It may hold anything beforehand, and serves for any number of evaluations, one after the other.
///
/// ```
/// use ombravelik::Room;
///
/// static SMALL: Room<16, 64> = Room::new();
/// let largest: Box<Room> = Box::default();
/// assert_eq!((SMALL.cells.len(), largest.text.len()), (16, 16_384));
/// ```
#[derive(Clone, Debug, PartialEq, Eq)]
pub struct Room<const CELLS: usize = MOST_CELLS, const BYTES: usize = MOST_TEXT_BYTES> {
    /// After a value: what was built, below the counts. After an error or exhaustion: zeros below the counts. Elsewhere what was there.
    pub cells: [[u64; 2]; CELLS],
    /// The same.
    pub text: [u8; BYTES],
}

impl<const CELLS: usize, const BYTES: usize> Room<CELLS, BYTES> {
    pub const fn new() -> Self {
        Room { cells: [[0; 2]; CELLS], text: [0; BYTES] }
    }
}

impl<const CELLS: usize, const BYTES: usize> Default for Room<CELLS, BYTES> {
    fn default() -> Self {
        Self::new()
    }
}
