//! Drawn numbers: whole ones alone, the same on every machine.

/// A generator of drawn numbers.
#[derive(Clone, Debug)]
pub struct Draw {
    state: u64,
}

/// An odd number with no pattern in its bits.
const STRIDE: u64 = 0x9e37_79b9_7f4a_7c15;

impl Draw {
    /// The numbers of a seed and of some numbers besides: each draws others.
    ///
    /// ```
    /// use laremban_mark::draw::Draw;
    ///
    /// let mut draw = Draw::new(7, &[1, 2]);
    /// let numbers = [draw.below(1000), draw.below(1000), draw.below(1000)];
    /// assert_eq!(numbers, [905, 722, 148]);
    /// ```
    pub fn new(seed: u64, besides: &[u64]) -> Draw {
        let mut draw = Draw { state: seed };
        for &number in besides {
            draw.state = draw.next() ^ number;
        }
        draw
    }

    /// Each step adds a stride, and mixes what comes of it.
    fn next(&mut self) -> u64 {
        self.state = self.state.wrapping_add(STRIDE);
        let mut z = self.state;
        z = (z ^ (z >> 30)).wrapping_mul(0xbf58_476d_1ce4_e5b9);
        z = (z ^ (z >> 27)).wrapping_mul(0x94d0_49bb_1331_11eb);
        z ^ (z >> 31)
    }

    /// A number below a bound; 0 where the bound is 0.
    pub fn below(&mut self, bound: usize) -> usize {
        let next = self.next() >> 1;
        (next % (bound.max(1) as u64)) as usize
    }

    /// A number from one to another.
    pub fn from_to(&mut self, least: usize, most: usize) -> usize {
        least + self.below(most.saturating_sub(least) + 1)
    }

    /// Yes so many times of so many.
    pub fn chance(&mut self, times: usize, of: usize) -> bool {
        self.below(of) < times
    }

    /// All numbers below a bound, in a drawn order.
    pub fn shuffled(&mut self, bound: usize) -> Vec<usize> {
        let mut all: Vec<usize> = (0..bound).collect();
        for last in (1..bound).rev() {
            let other = self.below(last + 1);
            all.swap(last, other);
        }
        all
    }
}
