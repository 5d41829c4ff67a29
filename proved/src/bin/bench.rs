//! Times the proved check and the proved counts of cells, axis by axis and all at
//! once, against the same in plain Rust.

use proved::maps::{grid, renumbered, tower};
use proved::timing::{self, Input, turns};
use proved::{cells, check, counts, plain};
use reference::random::Random;
use reference::refusal::ACCEPTED;
use reference::widths::LINKS;

/// How often a time is taken; the best one counts.
const REPETITIONS: usize = 60;

/// A call that gets the work.
type Call<'a> = timing::Call<'a, Vec<u16>>;

/// The maps that are timed.
fn inputs() -> Vec<Input> {
    let random = &mut Random::new(1);
    let small = grid(random, &[4, 3], 0);
    let middle = grid(random, &[11, 11], 0);
    let large = grid(random, &[32, 64], 0);
    let mixed = renumbered(random, &large);
    let plan = grid(random, &[9, 9], 0);
    let solids = tower(random, plan);
    let deep = grid(random, &[1, 2, 1, 1, 2], 0);
    vec![
        Input::new("squares, 4 by 3", &small),
        Input::new("squares, 11 by 11", &middle),
        Input::new("squares, 32 by 64", &large),
        Input::new("the same, darts in disorder", &mixed),
        Input::new("lift of squares, 9 by 9", &solids),
        Input::new("boxes of dimension 5", &deep),
    ]
}

/// Times a proved call and a plain one and prints the line.
fn compare(input: &Input, name: &str, proved: Call, plain: Call) {
    let mut work = input.work();
    let answers = [proved(&mut work), plain(&mut work)];
    assert_eq!(answers[0], answers[1], "{}: {name} differs", input.name);
    let turns = turns([proved, plain], &mut work, REPETITIONS);
    let best = |call: usize| turns.iter().map(|t| t[call]).fold(f64::MAX, f64::min);
    let [proved, plain] = [best(0), best(1)].map(|time| time / input.count as f64);
    println!(
        "{:28} {:6} {:9}  {:6} {:8.2} {:8.2} {:6.2}",
        input.name,
        input.count,
        input.dimension,
        name,
        proved,
        plain,
        proved / plain
    );
}

fn compare_check(input: &Input) {
    let proved = |work: &mut Vec<u16>| check(&input.tables(work)).number.into();
    let plain = |work: &mut Vec<u16>| plain::check(&input.plain_tables(work)).number.into();
    compare(input, "check", &proved, &plain);
}

/// Whether the plain check accepts an input.
fn is_sound(input: &Input, work: &mut [u16]) -> bool {
    plain::check(&input.plain_tables(work)).number == ACCEPTED
}

/// The plain count of an axis.
fn plain_cells(input: &Input, work: &mut [u16], axis: u8) -> usize {
    let (links, dimension) = (&input.plain.links, input.dimension.into());
    plain::cells(links, work, input.count, dimension, axis.into())
}

/// All axes by a call for each.
fn compare_cells(input: &Input) {
    let axes = 0..=input.dimension;
    let proved = |work: &mut Vec<u16>| {
        let mut tables = input.tables(work);
        let cells = |axis| usize::from(cells(&mut tables, axis).value);
        axes.clone().map(cells).sum()
    };
    // Each call checks its tables, so the plain one does too.
    let plain = |work: &mut Vec<u16>| {
        let cells = |axis: u8| match is_sound(input, work) {
            true => plain_cells(input, work, axis),
            false => 0,
        };
        axes.clone().map(cells).sum()
    };
    compare(input, "cells", &proved, &plain);
}

/// All axes by one call, which checks its tables once, as the plain one does.
fn compare_counts(input: &Input) {
    let proved = |work: &mut Vec<u16>| {
        let mut memory = [0; LINKS];
        let written = counts(&mut input.tables(work), &mut memory).value;
        let counts = &memory[..written.into()];
        counts.iter().map(|&cells| usize::from(cells)).sum()
    };
    let plain = |work: &mut Vec<u16>| match is_sound(input, work) {
        true => (0..=input.dimension)
            .map(|axis| plain_cells(input, work, axis))
            .sum(),
        false => 0,
    };
    compare(input, "counts", &proved, &plain);
}

fn main() {
    println!(
        "Nanoseconds a dart, best of {REPETITIONS}: the check of sound tables, and the cells of \
         all axes together, by a call for each (cells) and by one for all (counts); same input and \
         buffers for both, not cleared between runs."
    );
    println!(
        "{:28} {:>6} {:>9}  {:6} {:>8} {:>8} {:>6}",
        "map", "darts", "dimension", "call", "proved", "plain", "ratio"
    );
    for input in inputs() {
        compare_check(&input);
        compare_cells(&input);
        compare_counts(&input);
    }
}
