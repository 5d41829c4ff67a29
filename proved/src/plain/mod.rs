//! Check, count of cells, lift and run in plain Rust, for the benchmark alone: in
//! the same kind of memory as the proved code has, written for speed.
//!
//! All of it is frozen at document 01, with the widths, commands and refusals that
//! it has: no request is followed here, so that none has to be paid for a third
//! time. What the proved code answers is compared with the reference, never with
//! this; the benchmark looks whether both answer alike before it times them.

pub mod check;
pub mod lift;
pub mod run;

pub use check::{cells, check};
pub use lift::lift;
pub use run::run;

use reference::map::Map;

/// The greatest dimension of a map.
const GREATEST_DIMENSION: usize = 5;
/// The greatest dimension that NEW takes.
const GREATEST_NEW_DIMENSION: usize = GREATEST_DIMENSION - 1;
/// The least dimension of a map that is not blank.
const LEAST_DIMENSION: usize = 1;
/// Links along axes so far apart commute.
const APART: usize = 2;
/// The most spans of a row.
const SPANS: usize = 8;
/// Numbers that a span takes in its row.
const PER_SPAN: usize = 2;
/// The most darts of a side.
const DARTS: usize = 16_384;
/// Bytes of a reply.
const REPLY_BYTES: usize = 3;
/// Numbers in a row of links.
pub const LINKS: usize = GREATEST_DIMENSION + 1;
/// Numbers in a row of places.
pub const COORDINATES: usize = GREATEST_DIMENSION;
/// Numbers in a row of spans.
pub const SPAN_NUMBERS: usize = 1 + PER_SPAN * SPANS;
/// Numbers in a row of work.
pub const WORK: usize = 4;

/// A plan in its tables; work alone is written.
pub struct Plan<'a> {
    pub links: &'a [u16],
    pub places: &'a [i32],
    pub spans: &'a [i32],
    pub work: &'a mut [u16],
    pub dimension: u8,
    pub count: usize,
}

/// A plan's tables for a run, which writes all of them.
pub struct PlanMut<'a> {
    pub links: &'a mut [u16],
    pub places: &'a mut [i32],
    pub spans: &'a mut [i32],
    pub work: &'a mut [u16],
}

/// A lifted side's tables.
pub struct LiftedMut<'a> {
    pub links: &'a mut [u16],
    pub places: &'a mut [i32],
    pub work: &'a mut [u16],
}

/// A refusal's number or 0, and the value.
#[derive(Clone, Copy, Debug, PartialEq, Eq)]
pub struct Answer {
    pub number: u8,
    pub value: u16,
}

/// The four numbers of a run.
#[derive(Clone, Copy, Debug, PartialEq, Eq)]
pub struct Ended {
    pub number: u8,
    pub taken: usize,
    pub accepted: usize,
    pub refused: usize,
}

/// A map's links, places and spans, without a row to spare.
pub struct Tables {
    pub links: Vec<u16>,
    pub places: Vec<i32>,
    pub spans: Vec<i32>,
}

impl Tables {
    pub fn new(map: &Map) -> Tables {
        let mut tables = Tables {
            links: Vec::new(),
            places: Vec::new(),
            spans: Vec::new(),
        };
        for (d, dart) in map.darts.iter().enumerate() {
            let mut links = [d as u16; LINKS];
            for (link, &to) in links.iter_mut().zip(&dart.links) {
                *link = to as u16;
            }
            let mut place = [0; COORDINATES];
            place[..map.dim].copy_from_slice(&dart.place);
            let mut row = [0; SPAN_NUMBERS];
            row[0] = dart.row.len() as i32;
            let ends = row[1..].as_chunks_mut::<PER_SPAN>().0;
            for (ends, span) in ends.iter_mut().zip(&dart.row) {
                *ends = [span.lo, span.hi];
            }
            tables.links.extend(links);
            tables.places.extend(place);
            tables.spans.extend(row);
        }
        tables
    }
}
