//! Tables lent in the middle of rubbish, so that whatever is written beside them
//! shows.

use reference::random::Random;
use reference::raws::{litter_i32, litter_u16};

/// How much rubbish lies on each side of a lent table.
pub const MARGIN: usize = 9;

/// A lent table in the middle of rubbish, with a copy of it all.
#[derive(Clone)]
pub struct Lent<T> {
    pub all: Vec<T>,
    pub before: Vec<T>,
}

impl<T: Copy + PartialEq> Lent<T> {
    /// The table between two margins.
    pub fn new(margins: [Vec<T>; 2], table: &[T]) -> Lent<T> {
        let all = [&margins[0], table, &margins[1]].concat();
        let before = all.clone();
        Lent { all, before }
    }

    pub fn part(&self) -> &[T] {
        &self.all[MARGIN..self.all.len() - MARGIN]
    }

    /// The table as it was lent.
    pub fn part_before(&self) -> &[T] {
        &self.before[MARGIN..self.before.len() - MARGIN]
    }

    pub fn part_mut(&mut self) -> &mut [T] {
        let end = self.all.len() - MARGIN;
        &mut self.all[MARGIN..end]
    }

    /// Nothing was written but the first numbers of the table, at most so many.
    pub fn is_untouched_behind(&self, written: usize) -> bool {
        let end = MARGIN + written;
        self.all[..MARGIN] == self.before[..MARGIN] && self.all[end..] == self.before[end..]
    }
}

pub fn lend16(random: &mut Random, table: &[u16]) -> Lent<u16> {
    Lent::new([0; 2].map(|_: u8| litter_u16(random, MARGIN)), table)
}

pub fn lend32(random: &mut Random, table: &[i32]) -> Lent<i32> {
    Lent::new([0; 2].map(|_: u8| litter_i32(random, MARGIN)), table)
}
