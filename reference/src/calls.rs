//! The five calls on tables, and the counts of all axes, which document 01 has
//! as a command only.

use crate::lift::{self, Lifted};
use crate::map::Map;
use crate::orbit::count_cells;
use crate::refusal::*;
use crate::span;
use crate::table::{Raw, lifted_capacity, write_links, write_objects, write_places};
use crate::widths::*;

/// What check, lift and counts answer: the number, and the value.
#[derive(Clone, Copy, Debug, PartialEq, Eq)]
pub struct Answer {
    pub number: u8,
    pub value: usize,
}

/// What looseness answers: the number, the byte of free axes, and how many.
#[derive(Clone, Copy, Debug, PartialEq, Eq)]
pub struct Loose {
    pub number: u8,
    pub bits: u8,
    pub ones: u32,
}

/// A refusal without a dart to point at has value 0.
fn plain(number: u8) -> Answer {
    Answer { number, value: 0 }
}

/// Table calls take dimensions 1 to 5.
fn is_dimension(dimension: u8) -> bool {
    (LEAST_DIMENSION..=GREATEST_DIMENSION).contains(&dimension.into())
}

/// The part that check, lift, pieces and counts share: the count against the capacity,
/// then the faults 6 to 11; the map where there is none.
fn read_map(raw: &Raw) -> Result<Map, Answer> {
    if raw.count > raw.capacity() {
        return Err(plain(NO_SUCH_DART));
    }
    match raw.first_fault() {
        Some((number, value)) => Err(Answer { number, value }),
        None => Ok(raw.map()),
    }
}

/// Check: accepted with value 0, or the first refusal met.
pub fn check(raw: &Raw) -> Answer {
    if !is_dimension(raw.dimension) {
        return plain(OUT_OF_RANGE);
    }
    match read_map(raw) {
        Ok(_) => plain(ACCEPTED),
        Err(refused) => refused,
    }
}

/// The lifted side's tables as they are lent to a lift. Of work only the length
/// matters.
#[derive(Debug, PartialEq, Eq)]
pub struct Lent<'a> {
    pub links: &'a mut [u16],
    pub places: &'a mut [i32],
    pub objects: &'a mut [u16],
    pub work: usize,
}

impl Lent<'_> {
    /// The capacity of these four tables.
    pub fn capacity(&self) -> usize {
        let (links, places) = (self.links.len(), self.places.len());
        lifted_capacity(links, places, self.objects.len(), self.work)
    }
}

/// Lift: writes the lifted side's links, places and objects, 0 past the last
/// dart to the end of each table; its value is the lifted darts. Refused, it
/// writes none of them.
pub fn lift(raw: &Raw, lent: Lent) -> Answer {
    if !is_dimension(raw.dimension) {
        return plain(OUT_OF_RANGE);
    }
    if raw.dim() == GREATEST_DIMENSION {
        return plain(TOP_DIMENSION);
    }
    let plan = match read_map(raw) {
        Ok(plan) => plan,
        Err(refused) => return refused,
    };
    let Some(Lifted { map, objects }) = lift::lift(&plan, lent.capacity()) else {
        return plain(TOO_LARGE);
    };
    let (links, places) = (lent.links.len(), lent.places.len());
    lent.links.copy_from_slice(&write_links(&map, links));
    lent.places.copy_from_slice(&write_places(&map, places));
    let objects = write_objects(&objects, lent.objects.len());
    lent.objects.copy_from_slice(&objects);
    Answer {
        number: ACCEPTED,
        value: map.count(),
    }
}

/// Pieces: writes pairs of ends, ascending, and answers how many pairs. The
/// axis and the dart are judged after the tables. Refused, the answer is the
/// number and 0, also for 6 to 11, and the memory stays.
pub fn pieces(raw: &Raw, dart: usize, axis: u8, memory: &mut [i32]) -> (u8, usize) {
    if !is_dimension(raw.dimension) {
        return (OUT_OF_RANGE, 0);
    }
    let plan = match read_map(raw) {
        Ok(plan) => plan,
        Err(refused) => return (refused.number, 0),
    };
    if axis > raw.dimension {
        return (OUT_OF_RANGE, 0);
    }
    if dart >= plan.count() {
        return (NO_SUCH_DART, 0);
    }
    let found = span::pieces(&plan, dart, axis.into());
    if PAIR * found.len() > memory.len() {
        return (TOO_LARGE, 0);
    }
    for (pair, piece) in memory.chunks_exact_mut(PAIR).zip(&found) {
        pair.copy_from_slice(&[piece.lo, piece.hi]);
    }
    (ACCEPTED, found.len())
}

/// Counts: writes how many cells each axis has, corners first, and answers how
/// many numbers these are. The room is judged after the tables. Refused, the
/// memory stays.
pub fn counts(raw: &Raw, memory: &mut [u16]) -> Answer {
    if !is_dimension(raw.dimension) {
        return plain(OUT_OF_RANGE);
    }
    let map = match read_map(raw) {
        Ok(map) => map,
        Err(refused) => return refused,
    };
    let axes = map.dim + 1;
    if memory.len() < axes {
        return plain(TOO_LARGE);
    }
    for (axis, number) in memory[..axes].iter_mut().enumerate() {
        *number = count_cells(&map, axis) as u16;
    }
    Answer {
        number: ACCEPTED,
        value: axes,
    }
}

/// Row: the six raw links of a dart, a part of the chosen side's table (0 the
/// plan, 1 the lifted side). A dart beyond the whole rows, or another side,
/// gives an empty part of the plan's table.
pub fn row<'a>(plan: &'a [u16], lifted: &'a [u16], side: u8, dart: usize) -> &'a [u16] {
    let table = match side {
        0 => plan,
        1 => lifted,
        _ => return &plan[..0],
    };
    if dart >= table.len() / LINKS {
        return &plan[..0];
    }
    &table[LINKS * dart..][..LINKS]
}

/// Looseness: a bit for each axis up to the dimension along which the raw link
/// is the dart itself, and how many bits are set.
pub fn looseness(links: &[u16], dimension: u8, dart: usize) -> Loose {
    let refused = |number| Loose {
        number,
        bits: 0,
        ones: 0,
    };
    if !is_dimension(dimension) {
        return refused(OUT_OF_RANGE);
    }
    if dart >= links.len() / LINKS {
        return refused(NO_SUCH_DART);
    }
    let mut bits = 0;
    for axis in 0..=usize::from(dimension) {
        if usize::from(links[LINKS * dart + axis]) == dart {
            bits |= 1 << axis;
        }
    }
    Loose {
        number: ACCEPTED,
        bits,
        ones: bits.count_ones(),
    }
}
