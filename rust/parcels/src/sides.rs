//! The sides of a sheet's parcels: which are shared, and so sewn, and which lie
//! along each other and are not.

use crate::outline::{self, doubled_area, told};
use crate::sheet::Parcel;
use crate::{Findings, Point};
use std::collections::BTreeMap;

/// A side of a parcel, told from its lesser end to its greater.
#[derive(Clone, Copy, Debug)]
struct Side {
    parcel: usize,
    ends: (Point, Point),
    /// The side's dart at its lesser end, among the plan's darts.
    dart: usize,
    /// Whether the parcel lies to the left.
    left: bool,
}

/// A side that two parcels share: a dart of either, at the same corner.
#[derive(Clone, Copy, Debug, PartialEq, Eq)]
pub struct Seam {
    /// The parcel that comes first in the sheet, and its dart.
    pub first: (usize, usize),
    /// The parcel that comes later, and its dart.
    pub later: (usize, usize),
}

/// The sides of a sheet, with what was found about them.
#[derive(Debug, Default)]
pub struct Sides {
    /// The sides that are shared, by their later parcels.
    pub seams: Vec<Seam>,
    /// Parcels that lie over each other.
    pub faults: Findings,
    /// Sides that lie along each other and are not sewn.
    pub notes: Findings,
}

impl Sides {
    /// Of parcels whose outlines have no fault.
    pub fn of(parcels: &[Parcel]) -> Sides {
        let all = sides(parcels);
        let mut found = Sides::default();
        let mut shared: BTreeMap<(Point, Point), Vec<Side>> = BTreeMap::new();
        for side in &all {
            shared.entry(side.ends).or_default().push(*side);
        }
        for sides in shared.values() {
            found.share(parcels, sides);
        }
        found.seams.sort_by_key(|seam| (seam.later, seam.first));
        found.lie_along(parcels, by_lines(all));
        found
    }

    /// Sides with the same ends: two are a seam, where their parcels lie on
    /// either side.
    fn share(&mut self, parcels: &[Parcel], sides: &[Side]) {
        match *sides {
            [first, later] if first.left != later.left => self.seams.push(Seam {
                first: (first.parcel, first.dart),
                later: (later.parcel, later.dart),
            }),
            [first, later] => {
                let what = format!(
                    "it lies on the same side of {} as {}: they overlap",
                    told(later.ends),
                    parcels[first.parcel].told()
                );
                self.faults.push(parcels[later.parcel].finding(what));
            }
            [first, second, third, ..] => {
                let what = format!(
                    "the side {} is shared by {} and {} already",
                    told(third.ends),
                    parcels[first.parcel].told(),
                    parcels[second.parcel].told()
                );
                self.faults.push(parcels[third.parcel].finding(what));
            }
            _ => {}
        }
    }

    /// Finds sides that have a stretch in common and not their ends. Sides come
    /// line by line and by their lesser ends, so that each is compared with those
    /// alone that reach beyond where it begins.
    fn lie_along(&mut self, parcels: &[Parcel], sides: Vec<(Line, Side)>) {
        let mut open: Vec<(Line, Side)> = Vec::new();
        for (line, side) in sides {
            open.retain(|(of, other)| *of == line && other.ends.1 > side.ends.0);
            for (_, other) in open.iter().filter(|(_, other)| other.ends != side.ends) {
                self.lies_along(parcels, side, *other);
            }
            open.push((line, side));
        }
    }

    fn lies_along(&mut self, parcels: &[Parcel], one: Side, other: Side) {
        let (first, later) = if one.parcel < other.parcel {
            (one, other)
        } else {
            (other, one)
        };
        let overlap = one.left == other.left;
        let found = if overlap {
            &mut self.faults
        } else {
            &mut self.notes
        };
        found.push_with(|| {
            let follows = if overlap {
                "on the same side of it: they overlap".to_string()
            } else {
                format!("they are not sewn: {}", missing(one, other))
            };
            parcels[later.parcel].finding(format!(
                "the side {} lies along {} of {}, and {follows}",
                told(later.ends),
                told(first.ends),
                parcels[first.parcel].told(),
            ))
        });
    }
}

/// What to do so that two sides which lie along each other are sewn.
fn missing(one: Side, other: Side) -> String {
    let inside = |(x, y): Point, side: Side| side.ends.0 < (x, y) && (x, y) < side.ends.1;
    let ends = |side: Side| [side.ends.0, side.ends.1];
    let of_one = ends(one).into_iter().filter(|&end| inside(end, other));
    let of_other = ends(other).into_iter().filter(|&end| inside(end, one));
    let mut corners: Vec<Point> = of_one.chain(of_other).collect();
    corners.sort();
    let corners: Vec<String> = corners.iter().map(|(x, y)| format!("({x} {y})")).collect();
    let many = if corners.len() == 1 { "" } else { "s" };
    format!("give the corner{many} {} to both", corners.join(" and "))
}

/// All sides, parcel by parcel.
fn sides(parcels: &[Parcel]) -> Vec<Side> {
    let mut all = Vec::new();
    for (parcel, Parcel { corners, .. }) in parcels.iter().enumerate() {
        let left = doubled_area(corners) > 0;
        for (from, to) in outline::sides(corners) {
            let dart = 2 * all.len();
            all.push(if from < to {
                Side {
                    parcel,
                    ends: (from, to),
                    dart,
                    left,
                }
            } else {
                Side {
                    parcel,
                    ends: (to, from),
                    dart: dart + 1,
                    left: !left,
                }
            });
        }
    }
    all
}

/// The line through a side: its direction, in lowest terms, and how far it lies
/// from the origin, in that direction's own measure.
type Line = (i64, i64, i128);

fn line(((x, y), (z, w)): (Point, Point)) -> Line {
    let (dx, dy) = (i64::from(z) - i64::from(x), i64::from(w) - i64::from(y));
    let common = common_factor(dx, dy);
    let (dx, dy) = (dx / common, dy / common);
    let far = i128::from(dx) * i128::from(y) - i128::from(dy) * i128::from(x);
    (dx, dy, far)
}

/// The greatest common factor of two numbers of which one at least is not 0.
fn common_factor(a: i64, b: i64) -> i64 {
    let (mut a, mut b) = (a.abs(), b.abs());
    while b != 0 {
        (a, b) = (b, a % b);
    }
    a
}

/// Sides line by line, and along each line by their ends.
fn by_lines(sides: Vec<Side>) -> Vec<(Line, Side)> {
    let mut sides: Vec<(Line, Side)> = sides
        .into_iter()
        .map(|side| (line(side.ends), side))
        .collect();
    sides.sort_by_key(|(line, side)| (*line, side.ends));
    sides
}
