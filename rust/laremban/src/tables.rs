//! The tables that calls are lent, and tables of one's own to lend. A side may
//! get more of them with later versions, so that all are built by functions.

use crate::map::Map;
use crate::widths::{COORDINATES, LINKS, OBJECTS, SPAN_NUMBERS, WORK};

/// A plan in four tables, with its dimension and its number of darts, as it is
/// lent to a call that reads it. Nothing needs to be known of it: whatever a
/// call cannot use it refuses.
///
/// A call writes to work alone, so that one plan can be lent to many calls at
/// once, each with a work of its own. What work holds never matters.
#[derive(Debug)]
#[non_exhaustive]
pub struct Plan<'a> {
    /// [`LINKS`] numbers a dart.
    pub links: &'a [u16],
    /// [`COORDINATES`] numbers a dart.
    pub places: &'a [i32],
    /// [`SPAN_NUMBERS`] numbers a dart.
    pub spans: &'a [i32],
    /// [`WORK`] numbers a dart.
    pub work: &'a mut [u16],
    /// The plan's dimension.
    pub dimension: u8,
    /// How many darts the plan has.
    pub count: usize,
}

impl<'a> Plan<'a> {
    /// Four tables as a plan of a dimension with so many darts.
    pub fn new(
        links: &'a [u16],
        places: &'a [i32],
        spans: &'a [i32],
        work: &'a mut [u16],
        dimension: u8,
        count: usize,
    ) -> Plan<'a> {
        Plan {
            links,
            places,
            spans,
            work,
            dimension,
            count,
        }
    }

    /// The map in them, to be read.
    ///
    /// # Panics
    ///
    /// Where there are fewer rows than darts, or no such dimension.
    pub fn map(&self) -> Map<'a> {
        let (dimension, count) = (self.dimension, self.count);
        Map::of_plan(self.links, self.places, self.spans, dimension, count)
    }
}

/// A plan's four tables as they are lent to a run, which writes all of them.
#[derive(Debug)]
#[non_exhaustive]
pub struct PlanMut<'a> {
    /// [`LINKS`] numbers a dart.
    pub links: &'a mut [u16],
    /// [`COORDINATES`] numbers a dart.
    pub places: &'a mut [i32],
    /// [`SPAN_NUMBERS`] numbers a dart.
    pub spans: &'a mut [i32],
    /// [`WORK`] numbers a dart.
    pub work: &'a mut [u16],
}

impl<'a> PlanMut<'a> {
    /// Four tables to be lent.
    pub fn new(
        links: &'a mut [u16],
        places: &'a mut [i32],
        spans: &'a mut [i32],
        work: &'a mut [u16],
    ) -> PlanMut<'a> {
        PlanMut {
            links,
            places,
            spans,
            work,
        }
    }
}

/// The lifted side's four tables as they are lent to a call that writes them.
#[derive(Debug)]
#[non_exhaustive]
pub struct LiftedMut<'a> {
    /// [`LINKS`] numbers a dart.
    pub links: &'a mut [u16],
    /// [`COORDINATES`] numbers a dart.
    pub places: &'a mut [i32],
    /// [`OBJECTS`] number a dart.
    pub objects: &'a mut [u16],
    /// [`WORK`] numbers a dart.
    pub work: &'a mut [u16],
}

impl<'a> LiftedMut<'a> {
    /// Four tables to be lent.
    pub fn new(
        links: &'a mut [u16],
        places: &'a mut [i32],
        objects: &'a mut [u16],
        work: &'a mut [u16],
    ) -> LiftedMut<'a> {
        LiftedMut {
            links,
            places,
            objects,
            work,
        }
    }

    /// The map of a dimension with so many darts in them, to be read.
    ///
    /// ```
    /// use laremban::{Commands, LiftedMut, PlanTables, run};
    ///
    /// let mut list = Commands::new();
    /// list.new_plan(1).darts(2).sew(0, 0, 1).span_of(0, 0, 3, 7).lift();
    /// let (mut links, mut places, mut objects, mut work) = ([0; 48], [0; 40], [0; 8], [0; 32]);
    /// let mut lifted = LiftedMut::new(&mut links, &mut places, &mut objects, &mut work);
    /// run(list.bytes(), &mut PlanTables::new(2).lend(), &mut lifted, &mut list.reply_memory());
    /// assert_eq!(lifted.map(2, 8).place(0), [0, 0]);
    /// assert_eq!(lifted.map(2, 8).object(0), 7);
    /// ```
    ///
    /// # Panics
    ///
    /// Where there are fewer rows, or no such dimension.
    pub fn map(&self, dimension: u8, count: usize) -> Map<'_> {
        Map::of_lift(self.links, self.places, self.objects, dimension, count)
    }
}

/// Tables for a plan of up to so many darts.
///
/// ```
/// use laremban::{Commands, LiftedTables, PlanTables, check, run};
///
/// let mut tables = PlanTables::new(1);
/// let mut list = Commands::new();
/// list.new_plan(4).dart();
/// let mut replies = list.reply_memory();
/// run(list.bytes(), &mut tables.lend(), &mut LiftedTables::new(0).lend(), &mut replies);
/// assert_eq!(check(&tables.plan(4, 1)), Ok(()));
/// ```
#[derive(Clone, Debug, PartialEq, Eq)]
#[non_exhaustive]
pub struct PlanTables {
    /// [`LINKS`] numbers a dart.
    pub links: Vec<u16>,
    /// [`COORDINATES`] numbers a dart.
    pub places: Vec<i32>,
    /// [`SPAN_NUMBERS`] numbers a dart.
    pub spans: Vec<i32>,
    /// [`WORK`] numbers a dart.
    pub work: Vec<u16>,
}

impl PlanTables {
    /// Blank tables with a row for each of so many darts.
    pub fn new(darts: usize) -> PlanTables {
        PlanTables {
            links: vec![0; LINKS * darts],
            places: vec![0; COORDINATES * darts],
            spans: vec![0; SPAN_NUMBERS * darts],
            work: vec![0; WORK * darts],
        }
    }

    /// Lends all of them to a run.
    pub fn lend(&mut self) -> PlanMut<'_> {
        PlanMut {
            links: &mut self.links,
            places: &mut self.places,
            spans: &mut self.spans,
            work: &mut self.work,
        }
    }

    /// Lends them as a plan of a dimension with so many darts. A run tells
    /// neither by itself: [`sizes`](crate::sizes()) reads them off its replies.
    pub fn plan(&mut self, dimension: u8, count: usize) -> Plan<'_> {
        Plan {
            links: &self.links,
            places: &self.places,
            spans: &self.spans,
            work: &mut self.work,
            dimension,
            count,
        }
    }

    /// The map of a dimension with so many darts in them, to be read.
    ///
    /// # Panics
    ///
    /// Where there are fewer rows, or no such dimension.
    pub fn map(&self, dimension: u8, count: usize) -> Map<'_> {
        let (links, places, spans) = (&self.links, &self.places, &self.spans);
        Map::of_plan(links, places, spans, dimension, count)
    }
}

/// Tables for a lifted map of up to so many darts.
///
/// ```
/// use laremban::{Commands, LiftedTables, PlanTables, run};
///
/// let mut lifted = LiftedTables::new(8);
/// let mut list = Commands::new();
/// list.new_plan(1).dart().dart().sew(0, 0, 1).span(0, 2, 7).lift();
/// let mut replies = list.reply_memory();
/// run(list.bytes(), &mut PlanTables::new(2).lend(), &mut lifted.lend(), &mut replies);
/// assert_eq!(lifted.map(2, 8).link(0, 0), 1);
/// ```
#[derive(Clone, Debug, PartialEq, Eq)]
#[non_exhaustive]
pub struct LiftedTables {
    /// [`LINKS`] numbers a dart.
    pub links: Vec<u16>,
    /// [`COORDINATES`] numbers a dart.
    pub places: Vec<i32>,
    /// [`OBJECTS`] number a dart.
    pub objects: Vec<u16>,
    /// [`WORK`] numbers a dart.
    pub work: Vec<u16>,
}

impl LiftedTables {
    /// Blank tables with a row for each of so many darts.
    pub fn new(darts: usize) -> LiftedTables {
        LiftedTables {
            links: vec![0; LINKS * darts],
            places: vec![0; COORDINATES * darts],
            objects: vec![0; OBJECTS * darts],
            work: vec![0; WORK * darts],
        }
    }

    /// Lends all of them to a run or to a lift.
    pub fn lend(&mut self) -> LiftedMut<'_> {
        LiftedMut {
            links: &mut self.links,
            places: &mut self.places,
            objects: &mut self.objects,
            work: &mut self.work,
        }
    }

    /// The map of a dimension with so many darts in them, to be read.
    ///
    /// # Panics
    ///
    /// Where there are fewer rows, or no such dimension.
    pub fn map(&self, dimension: u8, count: usize) -> Map<'_> {
        let (links, places, objects) = (&self.links, &self.places, &self.objects);
        Map::of_lift(links, places, objects, dimension, count)
    }

    /// The same map in the tables of a plan, without spans or objects, as the
    /// command ADOPT makes it: to lend it to calls that take a plan, or to lift it
    /// again. To count its cells [`Map::counts`] needs no copy.
    ///
    /// ```
    /// use laremban::{LiftedTables, SPAN_NUMBERS};
    ///
    /// let solids = LiftedTables::new(3).adopted();
    /// assert_eq!(solids.spans, [0; 3 * SPAN_NUMBERS]);
    /// ```
    pub fn adopted(&self) -> PlanTables {
        let rows = self.links.len() / LINKS;
        PlanTables {
            links: self.links.clone(),
            places: self.places.clone(),
            spans: vec![0; SPAN_NUMBERS * rows],
            work: vec![0; WORK * rows],
        }
    }
}
