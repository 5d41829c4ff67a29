//! Drawn sheets, and the examples: what is read off the lifted map is what a
//! plain computation from the file gives.

mod common;
mod plain;

use laremban_parcels::lifting::{Lifted, lift, lift_through_time};
use laremban_parcels::{Shape, Sheet, Solids, compare};
use plain::{Point, Share, Shared, Solid, Span};
use std::collections::BTreeSet;
use std::fmt::Write;
use std::fs;

/// Numbers that are the same in every run.
struct Random(u64);

impl Random {
    fn below(&mut self, most: u64) -> u64 {
        self.0 = self
            .0
            .wrapping_mul(6_364_136_223_846_793_005)
            .wrapping_add(1);
        (self.0 >> 33) % most
    }

    fn chance(&mut self, percent: u64) -> bool {
        self.below(100) < percent
    }

    /// A number that is at most so far from 0.
    fn near(&mut self, far: i64) -> i64 {
        self.below(2 * far as u64 + 1) as i64 - far
    }
}

/// Squares of a grid are so wide, so that corners and middles moved by one keep
/// every outline simple.
const WIDE: i64 = 10;

/// The points that a grid's parcels are made of, each moved a little.
struct Grid {
    columns: usize,
    rows: usize,
    /// At even places corners, at an even and an odd one the middle of a side;
    /// none where the side has no corner in its middle.
    points: Vec<Vec<Option<Point>>>,
}

impl Grid {
    fn draw(random: &mut Random) -> Grid {
        let (columns, rows) = (1 + random.below(4) as usize, 1 + random.below(3) as usize);
        let mut points = vec![vec![None; 2 * rows + 1]; 2 * columns + 1];
        for (i, column) in points.iter_mut().enumerate() {
            for (j, point) in column.iter_mut().enumerate() {
                let middle = i % 2 + j % 2;
                let moved = |at: usize, by: i64| at as i64 * WIDE / 2 + by;
                if middle == 0 || middle == 1 && random.chance(40) {
                    *point = Some((moved(i, random.near(1)), moved(j, random.near(1))));
                }
            }
        }
        Grid {
            columns,
            rows,
            points,
        }
    }

    /// The corners and middles around a square, from its first corner on.
    fn around(&self, column: usize, row: usize) -> [Option<Point>; 8] {
        let (i, j) = (2 * column, 2 * row);
        let steps = [
            (0, 0),
            (1, 0),
            (2, 0),
            (2, 1),
            (2, 2),
            (1, 2),
            (0, 2),
            (0, 1),
        ];
        steps.map(|(x, y)| self.points[i + x][j + y])
    }
}

/// A square as outlines: whole, with a corner cut off, or in two halves.
fn outlines(around: [Option<Point>; 8], random: &mut Random) -> Vec<Vec<Point>> {
    let whole = |points: &[Option<Point>]| points.iter().flatten().copied().collect();
    let corner = 2 * random.below(4) as usize;
    let mut turned = around;
    turned.rotate_left(corner);
    match random.below(4) {
        0 => vec![
            whole(&turned[..5]),
            whole(&[&turned[4..], &turned[..1]].concat()),
        ],
        // Both sides need a middle: the cut goes from the one to the other.
        1 if turned[1].is_some() && turned[7].is_some() => vec![whole(&turned[1..])],
        _ => vec![whole(&turned)],
    }
}

/// Heights that interleave with those of other parcels, some of them touching, as
/// a line has them; some are given in stretches that overlap.
fn heights(random: &mut Random) -> Vec<String> {
    let mut heights = Vec::new();
    let mut lo = random.near(6);
    for _ in 0..random.below(5) {
        let hi = lo + 1 + random.below(4) as i64;
        let of = if random.chance(60) {
            format!(" of {}", OBJECTS[random.below(4) as usize])
        } else {
            String::new()
        };
        let told = stretches((lo, hi), random).into_iter();
        heights.extend(told.map(|(lo, hi)| format!(" {lo}..{hi}{of}")));
        lo = hi
            + if random.chance(50) {
                0
            } else {
                1 + random.below(3) as i64
            };
    }
    if random.chance(50) {
        heights.reverse();
    }
    heights
}

/// Heights whole, or in two stretches, and one within them.
fn stretches((lo, hi): Span, random: &mut Random) -> Vec<Span> {
    if hi - lo < 2 || random.chance(70) {
        return vec![(lo, hi)];
    }
    let middle = lo + 1 + random.below((hi - lo - 1) as u64) as i64;
    let mut some = vec![(lo, middle), (middle - 1, hi)];
    if random.chance(50) {
        some.insert(random.below(3) as usize, (middle, hi));
    }
    some
}

/// Few objects, so that solids of one touch.
const OBJECTS: [u16; 4] = [0, 7, 101, 65535];

/// A sheet as text: parcels of a grid, some left out, either way round.
fn sheet(random: &mut Random) -> String {
    let grid = Grid::draw(random);
    let mut text = String::from("# drawn\n\n");
    for column in 0..grid.columns {
        for row in 0..grid.rows {
            for mut corners in outlines(grid.around(column, row), random) {
                if text.len() > 20 && random.chance(10) {
                    continue;
                }
                if random.chance(50) {
                    corners.reverse();
                }
                let _ = write!(text, "p{}", text.len());
                for (x, y) in corners {
                    let _ = write!(text, " ({x} {y})");
                }
                text.push(':');
                text.extend(heights(random));
                text.push('\n');
            }
        }
    }
    text
}

fn wide((lo, hi): (i32, i32)) -> (i64, i64) {
    (lo.into(), hi.into())
}

/// Solids and what they share, as the lifted map has them.
fn read_off(text: &str) -> (Vec<Solid>, Vec<Share>) {
    let sheet = Sheet::read(text.as_bytes()).expect(text);
    let lifted = lift(&sheet).expect(text);
    let read = Solids::read(lifted.map()).expect(text);
    let parcels = compare(&sheet, &read).expect(text);
    assert_eq!(usize::from(lifted.cells[3]), read.solids.len());
    let name = |solid: usize| sheet.parcels[parcels[solid]].name.clone();
    let span = |solid: usize| wide(read.solids[solid].heights);
    let half = |number: i128| i64::try_from(number).expect("a small number");
    let mut solids: Vec<Solid> = (read.solids.iter().enumerate())
        .map(|(own, solid)| {
            let (floor, volume) = (half(solid.doubled_floor), half(solid.doubled_volume));
            (name(own), span(own), floor, volume, solid.object.into())
        })
        .collect();
    assert_eq!(through_time(&sheet, &lifted), {
        let objects = read.solids.iter().map(|solid| solid.object);
        objects.collect::<Vec<u16>>()
    });
    let mut shares = Vec::new();
    for face in &read.faces {
        if let Some(other) = read.neighbour(face) {
            let shared = match face.shape {
                Shape::Floor {
                    height,
                    doubled_area,
                } => Shared::Floor(height.into(), half(doubled_area)),
                Shape::Wall { ends, heights } => {
                    Shared::Wall(wide(ends.0), wide(ends.1), wide(heights))
                }
            };
            let (own, other) = (face.solid, other);
            shares.push((name(own), span(own), name(other), span(other), shared));
        }
    }
    solids.sort();
    shares.sort();
    (solids, shares)
}

/// The objects of what the solids become through time, by their lowest darts:
/// solids are numbered so too. A lift that is too large has none to be compared.
fn through_time(sheet: &Sheet, lifted: &Lifted) -> Vec<u16> {
    let Ok(through) = lift_through_time(sheet, lifted, (1990, 2020)) else {
        let read = Solids::read(lifted.map()).expect("solids");
        return read.solids.iter().map(|solid| solid.object).collect();
    };
    let map = through.map();
    let cells = map.cells(4);
    let of = |cell: usize| {
        let darts = cells.iter().enumerate().filter(|&(_, &own)| own == cell);
        let objects: BTreeSet<u16> = darts.map(|(dart, _)| map.object(dart)).collect();
        assert!(objects.len() < 2);
        objects.first().copied()
    };
    (0..).map_while(of).collect()
}

fn compare_with_plain(text: &str) -> (usize, usize) {
    let parcels = plain::read(text);
    let (solids, shares) = read_off(text);
    assert_eq!(solids, plain::solids(&parcels), "{text}");
    assert_eq!(shares, plain::shares(&parcels), "{text}");
    (solids.len(), shares.len())
}

#[test]
fn drawn_sheets() {
    let mut random = Random(7);
    let (mut solids, mut shares, mut joined) = (0, 0, 0);
    for _ in 0..600 {
        let text = sheet(&mut random);
        let (more_solids, more_shares) = compare_with_plain(&text);
        solids += more_solids;
        shares += more_shares;
        let notes = Sheet::read(text.as_bytes()).expect("a sheet").joined;
        joined += usize::from(notes.to_string().contains(", and are joined to "));
    }
    // The draw is worth something: there is much to compare.
    assert!(solids > 5_000 && shares > 10_000, "{solids} {shares}");
    assert!(joined > 300, "{joined} sheets with heights that are joined");
}

#[test]
fn examples() {
    for name in ["street", "twenty", "objects", "surveyed"] {
        let file = format!("{}/examples/{name}.parcels", common::TOP);
        compare_with_plain(&fs::read_to_string(file).expect("a file"));
    }
}
