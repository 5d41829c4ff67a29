//! Lent tables: capacities, maps written to rows, raw rows read and checked.

use crate::map::{Dart, Map, Span, is_row};
use crate::refusal::*;
use crate::widths::*;

/// The plan's capacity: the fewest whole rows in any of its four tables,
/// and never more than a side may have darts.
pub fn plan_capacity(links: usize, places: usize, spans: usize, work: usize) -> usize {
    let rows = [
        links / LINKS,
        places / COORDINATES,
        spans / SPAN_NUMBERS,
        work / WORK,
    ];
    rows.into_iter().fold(DARTS, usize::min)
}

/// The lifted side's capacity: the same over its four tables, of which one has
/// objects in the place of spans.
pub fn lifted_capacity(links: usize, places: usize, objects: usize, work: usize) -> usize {
    let rows = [
        links / LINKS,
        places / COORDINATES,
        objects / OBJECTS,
        work / WORK,
    ];
    rows.into_iter().fold(DARTS, usize::min)
}

/// Puts rows one behind the other and fills up with 0 to the length.
fn fill<T: Copy + Default>(rows: Vec<Vec<T>>, length: usize) -> Vec<T> {
    let mut table = rows.concat();
    table.resize(length, T::default());
    table
}

/// A link table of the given length: six numbers a dart, where axes above the
/// dimension hold the dart's own number.
pub fn write_links(map: &Map, length: usize) -> Vec<u16> {
    let sixteen = |e: usize| u16::try_from(e).unwrap_or(u16::MAX);
    let row = |d: usize| (0..LINKS).map(|i| sixteen(map.link(d, i))).collect();
    fill((0..map.count()).map(row).collect(), length)
}

/// A place table of the given length: five numbers a dart, unused ones 0.
pub fn write_places(map: &Map, length: usize) -> Vec<i32> {
    let row = |d: usize| fill(vec![map.place(d).to_vec()], COORDINATES);
    fill((0..map.count()).map(row).collect(), length)
}

/// A span table of the given length: how many, the numbers of each, then 0.
pub fn write_spans(map: &Map, length: usize) -> Vec<i32> {
    let row = |d: usize| {
        let spans = map.row(d);
        let mut numbers = vec![spans.len() as i32];
        for span in spans {
            numbers.extend([span.lo, span.hi, span.object.into()]);
        }
        fill(vec![numbers], SPAN_NUMBERS)
    };
    fill((0..map.count()).map(row).collect(), length)
}

/// A table of the given length with the objects of lifted darts: one number a
/// dart, then 0.
pub fn write_objects(objects: &[u16], length: usize) -> Vec<u16> {
    fill(vec![objects.to_vec()], length)
}

/// The plan's four tables as they are lent to a table call, with dimension and
/// count. Of work only the length matters. Nothing here is trusted.
#[derive(Clone, Copy, Debug, PartialEq, Eq)]
pub struct Raw<'a> {
    pub links: &'a [u16],
    pub places: &'a [i32],
    pub spans: &'a [i32],
    pub work: usize,
    pub dimension: u8,
    pub count: usize,
}

/// A refusal number with the test whether a dart is at fault by it.
type Trial<R> = (u8, fn(&R, usize) -> bool);

impl Raw<'_> {
    /// The dimension as a number to count with.
    pub fn dim(&self) -> usize {
        self.dimension.into()
    }

    /// The capacity of these four tables.
    pub fn capacity(&self) -> usize {
        plan_capacity(
            self.links.len(),
            self.places.len(),
            self.spans.len(),
            self.work,
        )
    }

    /// A dart's link; asked only for whole rows and axes up to 5.
    fn link(&self, dart: usize, axis: usize) -> usize {
        self.links[LINKS * dart + axis].into()
    }

    /// The coordinates in use.
    fn place(&self, dart: usize) -> &[i32] {
        &self.places[COORDINATES * dart..][..self.dim()]
    }

    /// The spans in use, or nothing when their count is outside 0 to 8, or the
    /// object of one of them outside 16 bits. Numbers behind them are not looked at.
    fn row(&self, dart: usize) -> Option<Vec<Span>> {
        let numbers = &self.spans[SPAN_NUMBERS * dart..][..SPAN_NUMBERS];
        let held = usize::try_from(numbers[0]).ok()?;
        if held > SPANS {
            return None;
        }
        let span = |n: &[i32]| {
            let object = u16::try_from(n[2]).ok()?;
            let (lo, hi) = (n[0], n[1]);
            Some(Span { lo, hi, object })
        };
        let used = numbers[1..].chunks_exact(PER_SPAN).take(held);
        used.map(span).collect()
    }

    /// The first fault: each number is tried over all darts before the next
    /// number is, so the answer is the lowest number with its lowest dart.
    pub fn first_fault(&self) -> Option<(u8, usize)> {
        let trials: [Trial<Self>; 6] = [
            (LINK_BEYOND, Self::has_high_link),
            (LINK_NOT_UNDONE, Self::has_link_not_undone),
            (PAIR_NOT_UNDONE, Self::has_pair_not_undone),
            (PLACES_DIFFER, Self::differs_in_place),
            (BAD_ROW, Self::has_bad_row),
            (ROWS_DIFFER, Self::differs_in_row),
        ];
        for (number, at_fault) in trials {
            for dart in 0..self.count {
                if at_fault(self, dart) {
                    return Some((number, dart));
                }
            }
        }
        None
    }

    /// 6: some link of the dart is not below the count.
    fn has_high_link(&self, d: usize) -> bool {
        (0..=self.dim()).any(|i| self.link(d, i) >= self.count)
    }

    /// 7: some link, followed twice, does not lead back.
    fn has_link_not_undone(&self, d: usize) -> bool {
        (0..=self.dim()).any(|i| self.link(self.link(d, i), i) != d)
    }

    /// 8: some two links at least two axes apart, followed in turn twice, do
    /// not lead back.
    fn has_pair_not_undone(&self, d: usize) -> bool {
        let both = |e, i, j| self.link(self.link(e, j), i);
        (0..=self.dim()).any(|i| (i + APART..=self.dim()).any(|j| both(both(d, i, j), i, j) != d))
    }

    /// 9: the place is not that of some neighbour along an axis from 1 on.
    fn differs_in_place(&self, d: usize) -> bool {
        (1..=self.dim()).any(|j| self.place(d) != self.place(self.link(d, j)))
    }

    /// 10: the row's count, an object, a span, or their order is wrong.
    fn has_bad_row(&self, d: usize) -> bool {
        match self.row(d) {
            None => true,
            Some(row) => !is_row(&row),
        }
    }

    /// 11: the row is not that of some neighbour along an axis below the top, in
    /// an end or in an object.
    fn differs_in_row(&self, d: usize) -> bool {
        (0..self.dim()).any(|j| self.row(d) != self.row(self.link(d, j)))
    }

    /// The map these tables hold; asked only once no fault was found.
    pub fn map(&self) -> Map {
        let dart = |d: usize| Dart {
            links: (0..=self.dim()).map(|i| self.link(d, i)).collect(),
            place: self.place(d).to_vec(),
            row: self.row(d).unwrap_or_default(),
        };
        Map {
            dim: self.dim(),
            darts: (0..self.count).map(dart).collect(),
        }
    }
}
