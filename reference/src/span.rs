//! Sides, covered heights, ends and pieces.

use crate::map::{Map, Span};
use crate::orbit::{cell, top_cell};
use std::collections::BTreeSet;

/// A side of a height. Down comes before up, as in the numbering of the lift.
#[derive(Clone, Copy, Debug, PartialEq, Eq, PartialOrd, Ord)]
pub enum Side {
    Down,
    Up,
}

impl Side {
    /// Both sides in the order in which lifted darts are numbered.
    pub const BOTH: [Side; 2] = [Side::Down, Side::Up];

    /// The other side.
    pub fn opposite(self) -> Side {
        match self {
            Side::Down => Side::Up,
            Side::Up => Side::Down,
        }
    }
}

/// Whether the span lies directly above (up) or below (down) the height. Only
/// comparisons: a height may be the least or the greatest number there is.
pub fn lies_beside(span: Span, height: i32, side: Side) -> bool {
    match side {
        Side::Up => span.lo <= height && height < span.hi,
        Side::Down => span.lo < height && height <= span.hi,
    }
}

/// The span of the row that covers the side of the height. The row is descended
/// from its last span, with one span fewer each time.
pub fn covering(row: &[Span], height: i32, side: Side) -> Option<Span> {
    match row.split_last() {
        Some((&last, _)) if lies_beside(last, height, side) => Some(last),
        Some((_, fewer)) => covering(fewer, height, side),
        None => None,
    }
}

/// Whether the side of the height is covered by the row.
pub fn is_covered(row: &[Span], height: i32, side: Side) -> bool {
    covering(row, height, side).is_some()
}

/// Whether two spans share more than an end, whatever their objects are.
pub fn overlap(one: Span, other: Span) -> bool {
    one.lo < other.hi && other.lo < one.hi
}

/// The row with a new span in it, ascending. The new one and those that it overlaps
/// are one span, from the lowest low end to the highest high end; all others stay.
/// Each is held against the new span as it came: what merely touches it, or only
/// what it was joined to, is left alone.
pub fn with_span(row: &[Span], added: Span) -> Vec<Span> {
    let (mut one, mut after) = (added, Vec::new());
    for &held in row {
        if overlap(held, added) {
            one.lo = one.lo.min(held.lo);
            one.hi = one.hi.max(held.hi);
        } else {
            after.push(held);
        }
    }
    after.push(one);
    after.sort_by_key(|held| held.lo);
    after
}

/// All low and high ends in the rows of the darts of the dart's cell.
pub fn ends(map: &Map, dart: usize, axis: usize) -> BTreeSet<i32> {
    let mut found = BTreeSet::new();
    for member in cell(map, dart, axis) {
        for span in map.row(member) {
            found.insert(span.lo);
            found.insert(span.hi);
        }
    }
    found
}

/// A piece: a stretch of heights that is nobody's.
#[derive(Clone, Copy, Debug, PartialEq, Eq)]
pub struct Piece {
    pub lo: i32,
    pub hi: i32,
}

/// The pieces of the dart's cell, ascending: each stretch between an end and
/// the next one which a span of some dart of the cell covers from end to end.
pub fn pieces(map: &Map, dart: usize, axis: usize) -> Vec<Piece> {
    let members = cell(map, dart, axis);
    let heights: Vec<i32> = ends(map, dart, axis).into_iter().collect();
    let mut found = Vec::new();
    for pair in heights.windows(2) {
        let stretch = Piece {
            lo: pair[0],
            hi: pair[1],
        };
        let covers = |span: &Span| span.lo <= stretch.lo && stretch.hi <= span.hi;
        if members.iter().any(|&e| map.row(e).iter().any(covers)) {
            found.push(stretch);
        }
    }
    found
}

/// How many spans stand around the dart's cell, where each top cell that
/// meets the cell counts its row once.
pub fn spans_around(map: &Map, dart: usize, axis: usize) -> usize {
    let mut seen = BTreeSet::new();
    let mut spans = 0;
    for member in cell(map, dart, axis) {
        if !seen.contains(&member) {
            seen.extend(top_cell(map, member));
            spans += map.row(member).len();
        }
    }
    spans
}
