//! For the benchmarks: maps in tables without a row to spare, for the proved code
//! and as document 01 has them for the plain one; and calls that are timed in
//! turns.

use crate::{Tables, plain};
use reference::map::Map;
use reference::table::{write_links, write_places, write_spans};
use reference::widths::*;
use std::hint::black_box;
use std::time::{Duration, Instant};

/// What one time has to last, so that the clock is fine enough.
const LEAST: Duration = Duration::from_millis(2);

/// A map in tables without a row to spare. Work is lent apart, since calls
/// write to it.
pub struct Input {
    pub name: &'static str,
    pub links: Vec<u16>,
    pub places: Vec<i32>,
    pub spans: Vec<i32>,
    pub plain: plain::Tables,
    pub dimension: u8,
    pub count: usize,
}

impl Input {
    pub fn new(name: &'static str, map: &Map) -> Input {
        let count = map.count();
        Input {
            name,
            links: write_links(map, LINKS * count),
            places: write_places(map, COORDINATES * count),
            spans: write_spans(map, SPAN_NUMBERS * count),
            plain: plain::Tables::new(map),
            dimension: map.dim as u8,
            count,
        }
    }

    /// Work for it, without a row to spare.
    pub fn work(&self) -> Vec<u16> {
        table(0, WORK, plain::WORK, self.count)
    }

    /// The tables for a proved call, with work.
    pub fn tables<'a>(&'a self, work: &'a mut [u16]) -> Tables<'a> {
        let (links, places, spans) = (&self.links, &self.places, &self.spans);
        let work = &mut work[..WORK * self.count];
        Tables::new(links, places, spans, work, self.dimension, self.count)
    }

    /// The tables for a plain call, with work.
    pub fn plain_tables<'a>(&'a self, work: &'a mut [u16]) -> plain::Plan<'a> {
        plain::Plan {
            links: &self.plain.links,
            places: &self.plain.places,
            spans: &self.plain.spans,
            work: &mut work[..plain::WORK * self.count],
            dimension: self.dimension,
            count: self.count,
        }
    }
}

/// A table for so many rows of either width: both codes write to the same memory.
pub fn table<T: Clone>(blank: T, width: usize, plain: usize, rows: usize) -> Vec<T> {
    vec![blank; width.max(plain) * rows]
}

/// Whether two tables of these widths begin each row with the same numbers, so
/// many of them.
pub fn is_same<T: PartialEq>(
    (one, width): (&[T], usize),
    (other, other_width): (&[T], usize),
    numbers: usize,
) -> bool {
    let (ones, others) = (one.chunks_exact(width), other.chunks_exact(other_width));
    ones.zip(others)
        .all(|(one, other)| one[..numbers] == other[..numbers])
}

/// A call to be timed: it gets the memory it may write to and gives something
/// to look at.
pub type Call<'a, T> = &'a dyn Fn(&mut T) -> usize;

/// How long so many rounds of a call last.
fn time<T>(call: Call<T>, lent: &mut T, rounds: u32) -> Duration {
    let start = Instant::now();
    for _ in 0..rounds {
        black_box(call(black_box(&mut *lent)));
    }
    start.elapsed()
}

/// How many rounds of a call last long enough.
fn enough<T>(call: Call<T>, lent: &mut T) -> u32 {
    let mut rounds = 1;
    while time(call, lent, rounds) < LEAST {
        rounds *= 2;
    }
    rounds
}

/// Times of the calls in nanoseconds, turn by turn, so many turns. A turn has
/// every call once, so that all meet the machine in the same mood.
pub fn turns<T, const N: usize>(
    calls: [Call<T>; N],
    lent: &mut T,
    repetitions: usize,
) -> Vec<[f64; N]> {
    let rounds = calls.map(|call| enough(call, lent));
    let mut turn = || {
        let mut times = [0.0; N];
        for ((call, rounds), to) in calls.iter().zip(rounds).zip(&mut times) {
            let time = time(*call, lent, rounds);
            *to = time.as_nanos() as f64 / f64::from(rounds);
        }
        times
    };
    (0..repetitions).map(|_| turn()).collect()
}

/// The median of some numbers; there must be one.
pub fn median(numbers: impl Iterator<Item = f64>) -> f64 {
    let mut numbers: Vec<f64> = numbers.collect();
    numbers.sort_by(f64::total_cmp);
    numbers[numbers.len() / 2]
}
