//! Something that is lent to a call: full of other numbers before, with margins that no call may touch.

use crate::random::Random;

pub struct Lent<T> {
    cells: Vec<T>,
    margin: usize,
    pattern: u64,
}

/// A number of the width of a cell.
pub trait Cell: Copy + PartialEq {
    const ZERO: Self;
    fn from_bits(bits: u64) -> Self;
}

impl Cell for u32 {
    const ZERO: u32 = 0;
    fn from_bits(bits: u64) -> u32 {
        bits as u32
    }
}

impl Cell for u64 {
    const ZERO: u64 = 0;
    fn from_bits(bits: u64) -> u64 {
        bits
    }
}

impl<T: Cell> Lent<T> {
    pub fn filled(random: &mut Random, length: usize, margin: usize) -> Lent<T> {
        let pattern = random.next();
        let cells = (0..length + 2 * margin).map(|index| other_number(pattern, index)).collect();
        Lent { cells, margin, pattern }
    }

    pub fn inside(&self) -> &[T] {
        &self.cells[self.margin..self.cells.len() - self.margin]
    }

    pub fn inside_mut(&mut self) -> &mut [T] {
        let end = self.cells.len() - self.margin;
        &mut self.cells[self.margin..end]
    }

    pub fn is_zeroed(&self) -> bool {
        self.inside().iter().all(|cell| *cell == T::ZERO)
    }

    /// Whether the cells beside the lent ones are as they were.
    pub fn margins_kept(&self) -> bool {
        let end = self.cells.len() - self.margin;
        let mut beside = (0..self.margin).chain(end..self.cells.len());
        beside.all(|index| self.cells[index] == other_number(self.pattern, index))
    }
}

/// The number that stands in a cell before the call: odd, so that it is not 0.
fn other_number<T: Cell>(pattern: u64, index: usize) -> T {
    T::from_bits((pattern ^ index as u64).wrapping_mul(0xD6E8_FEB8_6659_FD93) | 1)
}
