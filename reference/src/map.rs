//! The map: a dimension and darts with links, places and span rows.

use crate::orbit::cell;
use crate::widths::{APART, SPANS};

/// One stretch of heights from `lo` up to `hi`, and the object whose it is. Two
/// spans are equal only where their objects are.
#[derive(Clone, Copy, Debug, PartialEq, Eq)]
pub struct Span {
    pub lo: i32,
    pub hi: i32,
    pub object: u16,
}

/// One dart of a map of dimension m: m + 1 links, m coordinates, and a row of
/// up to eight spans.
#[derive(Clone, Debug, PartialEq, Eq)]
pub struct Dart {
    pub links: Vec<usize>,
    pub place: Vec<i32>,
    pub row: Vec<Span>,
}

/// A map. Dimension 0 is the blank map, which has no darts.
#[derive(Clone, Debug, PartialEq, Eq)]
pub struct Map {
    pub dim: usize,
    pub darts: Vec<Dart>,
}

impl Map {
    /// The map a run starts from: dimension 0 and no darts.
    pub fn blank() -> Map {
        Map::empty(0)
    }

    /// A map of the given dimension without darts; 0 darts is allowed here.
    pub fn empty(dim: usize) -> Map {
        Map {
            dim,
            darts: Vec::new(),
        }
    }

    /// How many darts the map has; they are numbered from 0.
    pub fn count(&self) -> usize {
        self.darts.len()
    }

    /// Whether this is the blank map, that is, of dimension 0.
    pub fn is_blank(&self) -> bool {
        self.dim == 0
    }

    /// The dart that `dart` is linked to along `axis`. Where there is no such
    /// dart or axis the answer is `dart` itself, as in the tables, where axes
    /// above the dimension hold the dart's own number.
    pub fn link(&self, dart: usize, axis: usize) -> usize {
        let found = self.darts.get(dart).and_then(|d| d.links.get(axis));
        found.copied().unwrap_or(dart)
    }

    /// A dart is free along an axis when it is linked to itself.
    pub fn is_free(&self, dart: usize, axis: usize) -> bool {
        self.link(dart, axis) == dart
    }

    /// The dart's place; empty where there is no such dart.
    pub fn place(&self, dart: usize) -> &[i32] {
        self.darts.get(dart).map_or(&[], |d| &d.place)
    }

    /// The dart's span row; empty where there is no such dart.
    pub fn row(&self, dart: usize) -> &[Span] {
        self.darts.get(dart).map_or(&[], |d| &d.row)
    }
}

/// Whether a row is what a row may be: at most eight spans, each with its low
/// end below its high end, ascending and without overlap, whatever the objects
/// are. Touching is allowed.
pub fn is_row(row: &[Span]) -> bool {
    let each = row.iter().all(|s| s.lo < s.hi);
    let order = row.windows(2).all(|w| w[0].hi <= w[1].lo);
    row.len() <= SPANS && each && order
}

/// Whether the map is a generalised map with agreeing corners and top cells.
/// It is judged by whole cells here, while the table check compares dart with
/// neighbour, so the two can be held against each other.
pub fn is_valid(map: &Map) -> bool {
    let blank_is_empty = !map.is_blank() || map.count() == 0;
    blank_is_empty && has_shape(map) && links_are_valid(map) && cells_agree(map)
}

/// Each dart has m + 1 links to darts of the map, m coordinates and a row.
fn has_shape(map: &Map) -> bool {
    map.darts.iter().all(|d| {
        d.links.len() == map.dim + 1
            && d.links.iter().all(|&e| e < map.count())
            && d.place.len() == map.dim
            && is_row(&d.row)
    })
}

/// Every link undoes itself, and every two links at least two axes apart,
/// followed one after the other and then once more, lead back.
pub fn links_are_valid(map: &Map) -> bool {
    (0..map.count()).all(|d| undoes_itself(map, d) && pairs_undo_themselves(map, d))
}

/// Each link of the dart, followed twice, leads back to it.
fn undoes_itself(map: &Map, d: usize) -> bool {
    (0..=map.dim).all(|i| map.link(map.link(d, i), i) == d)
}

/// For axes i and j with i + 2 <= j: following j, i, j, i leads back.
fn pairs_undo_themselves(map: &Map, d: usize) -> bool {
    let both = |e, i, j| map.link(map.link(e, j), i);
    (0..=map.dim).all(|i| (i + APART..=map.dim).all(|j| both(both(d, i, j), i, j) == d))
}

/// The darts of one corner have one place, those of one top cell one row.
fn cells_agree(map: &Map) -> bool {
    (0..map.count()).all(|d| {
        let places = cell(map, d, 0)
            .iter()
            .all(|&e| map.place(e) == map.place(d));
        let rows = cell(map, d, map.dim)
            .iter()
            .all(|&e| map.row(e) == map.row(d));
        places && rows
    })
}
