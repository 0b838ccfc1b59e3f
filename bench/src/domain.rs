//! The one interface of every domain.

use crate::number::{Op, Relation};

/// What an operation on two values gives.
#[derive(Clone, Copy, PartialEq, Eq, Debug)]
pub struct Worked<D> {
    pub value: D,
    pub zero: bool,
    pub range: bool,
}

impl<D> Worked<D> {
    #[inline(always)]
    pub fn quiet(value: D) -> Worked<D> {
        Worked { value, zero: false, range: false }
    }
}

/// What a variable may be.
pub trait Domain: Copy {
    /// The bytes of a cell, 1 to 64; 0 where no cell would do.
    const WIDTH: usize;

    /// Whether a cell of `WIDTH` bytes holds a value.
    fn readable(cell: &[u8]) -> bool;

    /// The value in a readable cell.
    fn load(cell: &[u8]) -> Self;

    fn anything() -> Self;

    /// The value of lo to hi; "anything" if lo > hi.
    fn of(lo: i32, hi: i32) -> Self;

    fn covers(&self, other: &Self) -> bool;

    fn work(op: Op, a: &Self, b: &Self) -> Worked<Self>;

    /// What is left of `self` where it has the relation to something of `b`.
    fn narrow(&self, relation: Relation, b: &Self) -> Option<Self>;

    /// Whether all cells are readable.
    #[inline]
    fn readable_all(cells: &[u8]) -> bool {
        cells.chunks_exact(Self::WIDTH).all(Self::readable)
    }
}

/// The 32-bit integer at a byte of a cell.
#[inline(always)]
pub fn integer_at(bytes: &[u8], at: usize) -> i32 {
    i32::from_le_bytes([bytes[at], bytes[at + 1], bytes[at + 2], bytes[at + 3]])
}
