//! The names of lifted darts, the objects that they carry, and which case of the
//! lift's definition makes each of their links.
//!
//! A lifted dart is a plan dart d, a level k from 0 to the plan's dimension m, a
//! height t among the ends of d's k-cell, and a side, up or down, that a span of
//! d's row covers at t. Lifted darts are numbered by d, then k, then t ascending,
//! then down before up. All that is told here is worked out from the plan alone,
//! by the definition: nothing of it is read off a lifted map, so that it tells
//! of one dart by dart whether it is right, and why.
//!
//! ```
//! use laremban::naming::Names;
//! use laremban::{Commands, LiftedTables, PlanTables, run};
//!
//! // Two edges that meet: one stands from 0 to 3, the other from 1 to 5.
//! let mut list = Commands::new();
//! list.new_plan(1).darts(4).sew(0, 0, 1).sew(0, 2, 3).sew(1, 1, 2);
//! list.span(0, 0, 3).span_of(2, 1, 5, 101);
//! let (mut plan, mut replies) = (PlanTables::new(4), list.reply_memory());
//! run(list.bytes(), &mut plan.lend(), &mut LiftedTables::new(0).lend(), &mut replies);
//!
//! let names = Names::of(&plan.map(1, 4));
//! assert_eq!(names.count(), 20);
//! let name = names.get(6).unwrap();
//! assert_eq!(name.to_string(), "(1, 0, 1, up)");
//! let other = names.link(name, 2).unwrap();
//! assert_eq!((other.to_string(), names.number(other)), ("(2, 0, 1, up)".into(), Some(10)));
//! assert_eq!(
//!     names.case(name, 2).unwrap().to_string(),
//!     "case i = n ≥ k + 2: the neighbour's row covers that side"
//! );
//! assert_eq!((names.object(name), names.object(other)), (Some(0), Some(101)));
//! ```

mod case;
mod name;
#[cfg(test)]
mod tests;

pub use case::{Case, Neighbour};
pub use name::{Name, Toward};

use crate::map::Map;
use crate::span::Span;

/// The ends of all cells of one axis.
#[derive(Clone, Debug)]
struct Level {
    /// Which cell a dart belongs to.
    cells: Vec<usize>,
    /// The ends of each cell, ascending.
    ends: Vec<Vec<i32>>,
}

impl Level {
    fn of(plan: &Map, rows: &[Vec<Span>], axis: usize) -> Level {
        let cells = plan.cells(axis);
        let mut ends = vec![Vec::new(); cells.iter().map(|cell| cell + 1).max().unwrap_or(0)];
        for (&cell, row) in cells.iter().zip(rows) {
            ends[cell].extend(row.iter().flat_map(|span| [span.lo, span.hi]));
        }
        for ends in &mut ends {
            ends.sort_unstable();
            ends.dedup();
        }
        Level { cells, ends }
    }
}

/// The names of all darts of a plan's lift.
///
/// They take as much memory as the plan does, however large the lift is, and
/// stay when the plan is edited: they are those of the plan as it was.
#[derive(Clone, Debug)]
pub struct Names {
    /// The plan's dimension.
    dimension: usize,
    /// The links of each plan dart.
    links: Vec<Vec<usize>>,
    /// The row of each plan dart.
    rows: Vec<Vec<Span>>,
    levels: Vec<Level>,
    /// The number of the first lifted dart of each plan dart at each level, and
    /// at the end how many there are.
    starts: Vec<usize>,
}

impl Names {
    /// The names of the darts of a plan's lift.
    ///
    /// # Panics
    ///
    /// Where a link leads to no dart, or a row has more spans than a row can
    /// have: a plan that the check accepts has neither.
    pub fn of(plan: &Map) -> Names {
        let dimension = plan.dimension();
        let darts = 0..plan.count();
        let links = |dart| (0..=dimension).map(|axis| plan.link(dart, axis)).collect();
        let rows: Vec<Vec<Span>> = darts.clone().map(|dart| plan.row(dart)).collect();
        let levels = (0..=dimension).map(|axis| Level::of(plan, &rows, axis));
        let mut names = Names {
            dimension,
            links: darts.map(links).collect(),
            levels: levels.collect(),
            rows,
            starts: vec![0],
        };
        let mut count = 0;
        for block in 0..names.rows.len() * (dimension + 1) {
            let (dart, level) = (block / (dimension + 1), block % (dimension + 1));
            let spans = names.rows[dart].iter();
            count += spans
                .map(|&span| darts_over(names.within(dart, level, span)))
                .sum::<usize>();
            names.starts.push(count);
        }
        names
    }

    /// How many darts the lift has, whether there is room for so many or not.
    pub fn count(&self) -> usize {
        self.starts[self.starts.len() - 1]
    }

    /// The name of the lifted dart with a number.
    pub fn get(&self, number: usize) -> Option<Name> {
        // The last block that starts there or below: those before it with the
        // same start have no darts.
        let block = self.starts.partition_point(|&start| start <= number);
        let block = block.checked_sub(1).filter(|_| number < self.count())?;
        let (dart, level) = (block / (self.dimension + 1), block % (self.dimension + 1));
        let mut left = number - self.starts[block];
        self.rows[dart].iter().find_map(|&span| {
            let ends = self.within(dart, level, span);
            let many = darts_over(ends);
            if left >= many {
                left -= many;
                return None;
            }
            // Up at the foot of a piece, then down at its head.
            let side = [Toward::Up, Toward::Down][left % 2];
            Some(Name {
                dart,
                level,
                height: ends[left.div_ceil(2)],
                side,
            })
        })
    }

    /// The number of the lifted dart with a name; nothing where there is none.
    pub fn number(&self, name: Name) -> Option<usize> {
        let Name { dart, level, .. } = name;
        let block = dart.checked_mul(self.dimension + 1)?.checked_add(level)?;
        let row = self.rows.get(dart).filter(|_| level <= self.dimension)?;
        let mut number = self.starts[block];
        for &span in row {
            let ends = self.within(dart, level, span);
            if covers(span, name.height, name.side) {
                let at = ends.binary_search(&name.height).ok()?;
                return Some(number + 2 * at - usize::from(name.side == Toward::Down));
            }
            number += darts_over(ends);
        }
        None
    }

    /// Which case of the definition makes a dart's link along an axis. Nothing
    /// where the lift has no such dart or no such axis.
    pub fn case(&self, name: Name, axis: usize) -> Option<Case> {
        self.number(name)?;
        case::of(self, name, axis)
    }

    /// The dart that a dart is linked to along an axis, by its case. Nothing
    /// where the lift has no such dart or no such axis.
    pub fn link(&self, name: Name, axis: usize) -> Option<Name> {
        let case = self.case(name, axis)?;
        Some(case::target(self, name, axis, case))
    }

    /// The object that a dart carries: that of the span of its plan dart's row
    /// that covers its side. Nothing where the lift has no such dart.
    pub fn object(&self, name: Name) -> Option<u16> {
        self.number(name)?;
        let span = self.covering(name.dart, name.height, name.side)?;
        Some(span.object)
    }

    /// The ends of a dart's cell of an axis: B_k(d).
    fn ends(&self, dart: usize, level: usize) -> &[i32] {
        let Level { cells, ends } = &self.levels[level];
        &ends[cells[dart]]
    }

    /// Those of them that lie on a span of the dart's row, its own two ends too.
    fn within(&self, dart: usize, level: usize, span: Span) -> &[i32] {
        let ends = self.ends(dart, level);
        let from = ends.partition_point(|&end| end < span.lo);
        let to = ends.partition_point(|&end| end <= span.hi);
        &ends[from..to]
    }

    /// Whether a span of the dart's row lies directly on that side of a height.
    fn is_covered(&self, dart: usize, height: i32, side: Toward) -> bool {
        self.covering(dart, height, side).is_some()
    }

    /// The span of the dart's row that lies directly on that side of a height.
    fn covering(&self, dart: usize, height: i32, side: Toward) -> Option<Span> {
        let mut row = self.rows[dart].iter().copied();
        row.find(|&span| covers(span, height, side))
    }
}

/// How many lifted darts a span with these ends on it has: two for each piece.
fn darts_over(ends: &[i32]) -> usize {
    2 * ends.len().saturating_sub(1)
}

/// Whether a span lies directly on that side of a height.
fn covers(span: Span, height: i32, side: Toward) -> bool {
    match side {
        Toward::Down => span.lo < height && height <= span.hi,
        Toward::Up => span.lo <= height && height < span.hi,
    }
}
