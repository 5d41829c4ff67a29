//! A map to be read: its links, places, rows of spans and carried objects, and
//! the cells that its links make.

use crate::calls::counts;
use crate::refusal::Refused;
use crate::span::{self, Span};
use crate::tables::Plan;
use crate::widths::{COORDINATES, DARTS, LINKS, OBJECTS, SPAN_NUMBERS, WORK};

/// The rows of a map without spans, for the calls that want a row for each dart.
/// All are 0, and nothing is written to them: they cost neither time nor place
/// in a program.
static NO_SPANS: [[i32; SPAN_NUMBERS]; DARTS] = [[0; SPAN_NUMBERS]; DARTS];

/// A map in its tables, to be read: the plan, or the lifted map. The tables give
/// it ([`PlanTables::map`](crate::PlanTables::map),
/// [`LiftedTables::map`](crate::LiftedTables::map), [`Plan::map`](crate::Plan::map)).
///
/// ```
/// use laremban::{Commands, LiftedTables, PlanTables, Span, run};
///
/// let mut list = Commands::new();
/// list.new_plan(1).darts(2).sew(0, 0, 1).span_of(0, 2, 7, 101).lift();
/// let (mut plan, mut lifted) = (PlanTables::new(2), LiftedTables::new(8));
/// let mut replies = list.reply_memory();
/// run(list.bytes(), &mut plan.lend(), &mut lifted.lend(), &mut replies);
///
/// let map = lifted.map(2, 8);
/// assert_eq!(map.link(0, 0), 1);
/// assert_eq!((map.place(0), map.place(1)), (&[0, 2][..], &[0, 7][..]));
/// assert!(map.is_free(0, 2));
/// assert_eq!(map.cell(0, 0), [0, 2]);
/// assert_eq!(map.cells(0), [0, 1, 0, 1, 2, 3, 2, 3]);
/// assert_eq!(map.counts(), Ok(vec![4, 4, 1]));
/// assert_eq!(map.object(0), 101);
/// assert_eq!(plan.map(1, 2).row(1), [Span::new(2, 7).of(101)]);
/// ```
#[derive(Clone, Copy, Debug)]
pub struct Map<'a> {
    links: &'a [[u16; LINKS]],
    places: &'a [[i32; COORDINATES]],
    rest: Rest<'a>,
    dimension: usize,
}

/// What only one of the two sides has: a plan its rows of spans, a lifted map the
/// object that each of its darts carries.
#[derive(Clone, Copy, Debug)]
enum Rest<'a> {
    Spans(&'a [[i32; SPAN_NUMBERS]]),
    Objects(&'a [[u16; OBJECTS]]),
}

impl<'a> Map<'a> {
    /// The plan of a dimension in the first `count` rows of tables.
    ///
    /// # Panics
    ///
    /// Where there are fewer rows, or no such dimension.
    pub(crate) fn of_plan(
        links: &'a [u16],
        places: &'a [i32],
        spans: &'a [i32],
        dimension: u8,
        count: usize,
    ) -> Map<'a> {
        let rest = Rest::Spans(&spans.as_chunks().0[..count]);
        Map::new(links, places, rest, dimension, count)
    }

    /// The lifted map of a dimension in the first `count` rows of tables.
    ///
    /// # Panics
    ///
    /// Where there are fewer rows, or no such dimension.
    pub(crate) fn of_lift(
        links: &'a [u16],
        places: &'a [i32],
        objects: &'a [u16],
        dimension: u8,
        count: usize,
    ) -> Map<'a> {
        let rest = Rest::Objects(&objects.as_chunks().0[..count]);
        Map::new(links, places, rest, dimension, count)
    }

    fn new(
        links: &'a [u16],
        places: &'a [i32],
        rest: Rest<'a>,
        dimension: u8,
        count: usize,
    ) -> Map<'a> {
        let dimension = usize::from(dimension);
        assert!(dimension < LINKS, "a map of dimension {dimension}");
        Map {
            links: &links.as_chunks().0[..count],
            places: &places.as_chunks().0[..count],
            rest,
            dimension,
        }
    }

    /// The map's dimension.
    pub fn dimension(&self) -> usize {
        self.dimension
    }

    /// How many darts the map has.
    pub fn count(&self) -> usize {
        self.links.len()
    }

    /// The dart that a dart is linked to along an axis.
    ///
    /// # Panics
    ///
    /// Where there is no such dart or no such axis.
    pub fn link(&self, dart: usize, axis: usize) -> usize {
        self.links[dart][..=self.dimension][axis].into()
    }

    /// Whether a dart is linked to itself along an axis.
    ///
    /// # Panics
    ///
    /// Where there is no such dart or no such axis.
    pub fn is_free(&self, dart: usize, axis: usize) -> bool {
        self.link(dart, axis) == dart
    }

    /// A dart's place: as many coordinates as the map has dimensions.
    ///
    /// # Panics
    ///
    /// Where there is no such dart.
    pub fn place(&self, dart: usize) -> &'a [i32] {
        &self.places[dart][..self.dimension]
    }

    /// The spans in a dart's row, ascending; none where the map is a lifted one.
    ///
    /// # Panics
    ///
    /// Where there is no such dart, or its row is none: it has more spans than a
    /// row can have, or an object that is no 16-bit number.
    pub fn row(&self, dart: usize) -> Vec<Span> {
        assert!(dart < self.count(), "the row of dart {dart}");
        match self.rest {
            Rest::Spans(spans) => span::spans(&spans[dart]),
            Rest::Objects(_) => Vec::new(),
        }
    }

    /// The object that a dart of a lifted map carries, that of the span which
    /// covers its side. Darts of a plan carry none, which is told by 0: theirs
    /// stand at their spans ([`Map::row`]).
    ///
    /// # Panics
    ///
    /// Where there is no such dart.
    pub fn object(&self, dart: usize) -> u16 {
        assert!(dart < self.count(), "the object of dart {dart}");
        match self.rest {
            Rest::Spans(_) => 0,
            Rest::Objects(objects) => objects[dart][0],
        }
    }

    /// The axes of a map but for one: links along them make its cells.
    fn axes_but(&self, axis: usize) -> Vec<usize> {
        assert!(axis <= self.dimension, "cells of axis {axis}");
        (0..=self.dimension).filter(|&i| i != axis).collect()
    }

    /// The darts of a dart's cell of an axis, ascending: those that links along
    /// the other axes reach.
    ///
    /// # Panics
    ///
    /// Where there is no such dart or no such axis, or a link leads to no dart.
    pub fn cell(&self, dart: usize, axis: usize) -> Vec<usize> {
        self.orbit(dart, &self.axes_but(axis))
    }

    /// Which cell of an axis each dart belongs to: cells are numbered from 0 by
    /// their lowest darts.
    ///
    /// # Panics
    ///
    /// Where there is no such axis, or a link leads to no dart.
    pub fn cells(&self, axis: usize) -> Vec<usize> {
        self.orbits(&self.axes_but(axis))
    }

    /// How many cells of each axis the map has, from 0 to the dimension, by the
    /// proved call [`counts`](crate::counts()). It checks the tables: those that
    /// hold no valid map, and a blank map, of dimension 0, are refused. A lifted
    /// map is lent with a row of no spans for each dart.
    pub fn counts(&self) -> Result<Vec<u16>, Refused> {
        let (links, places) = (self.links.as_flattened(), self.places.as_flattened());
        let spans = match self.rest {
            Rest::Spans(spans) => spans.as_flattened(),
            Rest::Objects(_) => NO_SPANS.as_flattened(),
        };
        let mut work = vec![0; WORK * self.count()];
        let dimension = self.dimension as u8;
        counts(&mut Plan::new(
            links,
            places,
            spans,
            &mut work,
            dimension,
            self.count(),
        ))
    }

    /// The darts that links along these axes reach from a dart, itself too,
    /// ascending.
    ///
    /// # Panics
    ///
    /// Where there is no such dart or no such axis, or a link leads to no dart.
    pub fn orbit(&self, dart: usize, axes: &[usize]) -> Vec<usize> {
        let mut reached = vec![None; self.count()];
        self.reach(dart, axes, 0, &mut reached);
        let darts = 0..self.count();
        darts.filter(|&dart| reached[dart].is_some()).collect()
    }

    /// Which orbit of these axes each dart belongs to: orbits are numbered from
    /// 0 by their lowest darts.
    ///
    /// # Panics
    ///
    /// Where there is no such axis, or a link leads to no dart.
    pub fn orbits(&self, axes: &[usize]) -> Vec<usize> {
        let mut reached = vec![None; self.count()];
        let mut next = 0;
        for dart in 0..self.count() {
            if reached[dart].is_none() {
                self.reach(dart, axes, next, &mut reached);
                next += 1;
            }
        }
        reached.into_iter().flatten().collect()
    }

    /// Gives a number to every dart of an orbit.
    fn reach(&self, dart: usize, axes: &[usize], number: usize, reached: &mut [Option<usize>]) {
        let mut open = vec![dart];
        while let Some(dart) = open.pop() {
            if reached[dart].replace(number).is_none() {
                open.extend(axes.iter().map(|&axis| self.link(dart, axis)));
            }
        }
    }
}
