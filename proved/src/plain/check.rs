//! Check and the count of cells, frozen at document 01: the proved code's
//! algorithms in the same lent memory, written tight.

use super::*;
use reference::refusal::*;

/// The rows below the count, cut out once so that a row's length is known.
struct Rows<'a> {
    links: &'a [[u16; LINKS]],
    places: &'a [[i32; COORDINATES]],
    spans: &'a [[i32; SPAN_NUMBERS]],
    dimension: usize,
}

/// Check: accepted with value 0, or the first refusal met. One pass over all
/// darts for each number.
pub fn check(tables: &Plan) -> Answer {
    let plain = |number| Answer { number, value: 0 };
    let dimension = usize::from(tables.dimension);
    if !(LEAST_DIMENSION..=GREATEST_DIMENSION).contains(&dimension) {
        return plain(OUT_OF_RANGE);
    }
    if tables.count > capacity(tables) {
        return plain(NO_SUCH_DART);
    }
    let rows = Rows {
        links: &tables.links.as_chunks().0[..tables.count],
        places: &tables.places.as_chunks().0[..tables.count],
        spans: &tables.spans.as_chunks().0[..tables.count],
        dimension,
    };
    match rows.first_fault() {
        Some((number, dart)) => Answer {
            number,
            value: dart as u16,
        },
        None => plain(ACCEPTED),
    }
}

/// The fewest whole rows of any table, at most what a side may have.
fn capacity(tables: &Plan) -> usize {
    DARTS
        .min(tables.links.len() / LINKS)
        .min(tables.places.len() / COORDINATES)
        .min(tables.spans.len() / SPAN_NUMBERS)
        .min(tables.work.len() / WORK)
}

impl Rows<'_> {
    /// The lowest number with a dart at fault, and the lowest such dart. A
    /// number's test relies on the numbers before it having found none.
    fn first_fault(&self) -> Option<(u8, usize)> {
        None.or_else(|| self.first(LINK_BEYOND, |d| self.has_high_link(d)))
            .or_else(|| self.first(LINK_NOT_UNDONE, |d| self.has_link_not_undone(d)))
            .or_else(|| self.first(PAIR_NOT_UNDONE, |d| self.has_pair_not_undone(d)))
            .or_else(|| self.first(PLACES_DIFFER, |d| self.differs_in_place(d)))
            .or_else(|| self.first(BAD_ROW, |d| self.has_bad_row(d)))
            .or_else(|| self.first(ROWS_DIFFER, |d| self.differs_in_row(d)))
    }

    /// The lowest dart at fault, with the number.
    #[inline(always)]
    fn first(&self, number: u8, at_fault: impl Fn(usize) -> bool) -> Option<(u8, usize)> {
        let dart = (0..self.links.len()).find(|&d| at_fault(d));
        dart.map(|dart| (number, dart))
    }

    /// The dart that d is linked to along axis i.
    #[inline(always)]
    fn link(&self, d: usize, i: usize) -> usize {
        self.links[d][i].into()
    }

    /// 6: some link is not below the count.
    #[inline(always)]
    fn has_high_link(&self, d: usize) -> bool {
        (0..=self.dimension).any(|i| self.link(d, i) >= self.links.len())
    }

    /// 7: some link does not undo itself.
    #[inline(always)]
    fn has_link_not_undone(&self, d: usize) -> bool {
        (0..=self.dimension).any(|i| self.link(self.link(d, i), i) != d)
    }

    /// 8: some pair of links does not undo itself.
    #[inline(always)]
    fn has_pair_not_undone(&self, d: usize) -> bool {
        let both = |e, i, j| self.link(self.link(e, j), i);
        (APART..=self.dimension).any(|j| (0..=j - APART).any(|i| both(both(d, i, j), i, j) != d))
    }

    /// 9: the place is not that of some neighbour along an axis from 1 on.
    #[inline(always)]
    fn differs_in_place(&self, d: usize) -> bool {
        let own = &self.places[d];
        (1..=self.dimension).any(|j| {
            let other = &self.places[self.link(d, j)];
            (0..self.dimension).any(|x| own[x] != other[x])
        })
    }

    /// 10: the row's count, a span of it, or their order is wrong.
    #[inline(always)]
    fn has_bad_row(&self, d: usize) -> bool {
        let row = &self.spans[d];
        if !(0..=SPANS as i32).contains(&row[0]) {
            return true;
        }
        let held = row[0] as usize;
        let is_empty = |x: usize| row[2 * x + 1] >= row[2 * x + 2];
        let is_early = |x: usize| row[2 * x + 1] < row[2 * x];
        (0..held).any(|x| is_empty(x) || (x > 0 && is_early(x)))
    }

    /// 11: the row is not that of some neighbour along an axis below the top.
    /// The count stands first, so equal numbers in use mean equal rows.
    #[inline(always)]
    fn differs_in_row(&self, d: usize) -> bool {
        let own = &self.spans[d];
        let used = 2 * own[0] as usize + 1;
        (0..self.dimension).any(|j| {
            let other = &self.spans[self.link(d, j)];
            (0..used).any(|x| own[x] != other[x])
        })
    }
}

/// A set of darts that needs no clearing: its members stand in a queue, and a
/// dart is a member when the queue has it where its index says.
pub(super) struct Sparse<'a> {
    index: &'a mut [u16],
    queue: &'a mut [u16],
    length: usize,
}

impl<'a> Sparse<'a> {
    /// The empty set, in two numbers of work a dart.
    pub(super) fn new(work: &'a mut [u16], count: usize) -> Self {
        let (index, queue) = work[..2 * count].split_at_mut(count);
        Sparse {
            index,
            queue,
            length: 0,
        }
    }

    /// Its members, in the order in which they came.
    pub(super) fn members(self) -> &'a [u16] {
        &self.queue[..self.length]
    }

    #[inline(always)]
    fn has(&self, e: u16) -> bool {
        let s = usize::from(self.index[usize::from(e)]);
        s < self.length && self.queue[s] == e
    }

    #[inline(always)]
    fn push(&mut self, e: u16) {
        self.index[usize::from(e)] = self.length as u16;
        self.queue[self.length] = e;
        self.length += 1;
    }

    /// Adds a dart that is not in it, and all that links of these axes reach.
    #[inline(always)]
    pub(super) fn flood(
        &mut self,
        links: &[[u16; LINKS]],
        start: u16,
        dimension: usize,
        is_followed: impl Fn(usize) -> bool,
    ) {
        let mut head = self.length;
        self.push(start);
        while head < self.length {
            let row = &links[usize::from(self.queue[head])][..=dimension];
            for (j, &e) in row.iter().enumerate() {
                if is_followed(j) && !self.has(e) {
                    self.push(e);
                }
            }
            head += 1;
        }
    }
}

/// The number of cells of an axis. The links must be those of a map of at most
/// 16,384 darts, and work must have two numbers a dart.
pub fn cells(
    links: &[u16],
    work: &mut [u16],
    count: usize,
    dimension: usize,
    axis: usize,
) -> usize {
    let links = &links.as_chunks::<LINKS>().0[..count];
    let mut set = Sparse::new(work, count);
    let mut cells = 0;
    for d in 0..count as u16 {
        if !set.has(d) {
            set.flood(links, d, dimension, |j| j != axis);
            cells += 1;
        }
    }
    cells
}
