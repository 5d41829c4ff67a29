//! Solids and what they share, computed plainly from a sheet's text: every
//! parcel with every other, in a form that has nothing of the map in it.

pub type Point = (i64, i64);
pub type Span = (i64, i64);

pub struct Parcel {
    pub name: String,
    pub corners: Vec<Point>,
    pub heights: Vec<Span>,
    /// The object of each of the heights.
    pub objects: Vec<i64>,
}

/// A solid: name, heights, twice its floor, twice its volume, and its object.
pub type Solid = (String, Span, i64, i64, i64);
/// What one solid shares with another: their names with heights, and what.
pub type Share = (String, Span, String, Span, Shared);

#[derive(Clone, Debug, PartialEq, Eq, PartialOrd, Ord)]
pub enum Shared {
    Floor(i64, i64),
    Wall(Point, Point, Span),
}

fn number(word: &str) -> i64 {
    word.parse().expect("a number")
}

/// The parcels of a text in its plainest form.
pub fn read(text: &str) -> Vec<Parcel> {
    let lines = text
        .lines()
        .filter(|line| !line.starts_with('#') && !line.is_empty());
    let parcel = |line: &str| {
        let (front, heights) = line.split_once(':').expect("a colon");
        let (name, corners) = front.split_once(' ').expect("a blank");
        let corner = |text: &str| {
            let (x, y) = text
                .trim_matches(['(', ')'])
                .split_once(' ')
                .expect("two numbers");
            (number(x), number(y))
        };
        let span = |text: &str| {
            let (lo, hi) = text.split_once("..").expect("two heights");
            (number(lo), number(hi))
        };
        // Heights without an object have object 0.
        let heights = heights.replace(" of ", "@");
        let heights = heights.split_whitespace();
        let owned = heights.map(|one| one.split_once('@').unwrap_or((one, "0")));
        let owned = joined(owned.map(|(one, object)| (span(one), number(object))));
        Parcel {
            name: name.to_string(),
            corners: corners
                .replace(") (", ")|(")
                .split('|')
                .map(corner)
                .collect(),
            heights: owned.iter().map(|&(one, _)| one).collect(),
            objects: owned.iter().map(|&(_, object)| object).collect(),
        }
    };
    lines.map(parcel).collect()
}

/// Heights with their objects, two of one object that overlap made one until there
/// are no such two.
fn joined(heights: impl Iterator<Item = (Span, i64)>) -> Vec<(Span, i64)> {
    let mut all: Vec<(Span, i64)> = Vec::new();
    for (mut own, object) in heights {
        let overlaps =
            |own: Span, one: &(Span, i64)| one.1 == object && one.0.0 < own.1 && own.0 < one.0.1;
        while let Some(at) = all.iter().position(|one| overlaps(own, one)) {
            let (other, _) = all.remove(at);
            own = (own.0.min(other.0), own.1.max(other.1));
        }
        all.push((own, object));
    }
    all
}

fn doubled_area(corners: &[Point]) -> i64 {
    let next = corners.iter().cycle().skip(1);
    let cross = |((x, y), (z, w)): (&Point, &Point)| x * w - z * y;
    corners.iter().zip(next).map(cross).sum::<i64>().abs()
}

fn sides(parcel: &Parcel) -> Vec<(Point, Point)> {
    let next = parcel.corners.iter().cycle().skip(1);
    let pairs = parcel.corners.iter().zip(next);
    pairs.map(|(&a, &b)| (a.min(b), a.max(b))).collect()
}

/// All solids, sorted.
pub fn solids(parcels: &[Parcel]) -> Vec<Solid> {
    let mut all = Vec::new();
    for parcel in parcels {
        let area = doubled_area(&parcel.corners);
        for (&(lo, hi), &object) in parcel.heights.iter().zip(&parcel.objects) {
            let volume = area * (hi - lo);
            all.push((parcel.name.clone(), (lo, hi), area, volume, object));
        }
    }
    all.sort();
    all
}

/// All that is shared, told from both sides, sorted.
pub fn shares(parcels: &[Parcel]) -> Vec<Share> {
    let mut all = Vec::new();
    for one in parcels {
        for other in parcels {
            if one.name == other.name {
                floors(one, &mut all);
            } else {
                walls(one, other, &mut all);
            }
        }
    }
    all.sort();
    all
}

fn floors(parcel: &Parcel, all: &mut Vec<Share>) {
    let name = || parcel.name.clone();
    for &low in &parcel.heights {
        for &high in parcel.heights.iter().filter(|high| high.0 == low.1) {
            let floor = Shared::Floor(low.1, doubled_area(&parcel.corners));
            all.push((name(), low, name(), high, floor.clone()));
            all.push((name(), high, name(), low, floor));
        }
    }
}

fn walls(one: &Parcel, other: &Parcel, all: &mut Vec<Share>) {
    let others = sides(other);
    for side in sides(one).into_iter().filter(|side| others.contains(side)) {
        for &a in &one.heights {
            for &b in &other.heights {
                let both = (a.0.max(b.0), a.1.min(b.1));
                if both.0 < both.1 {
                    let wall = Shared::Wall(side.0, side.1, both);
                    all.push((one.name.clone(), a, other.name.clone(), b, wall));
                }
            }
        }
    }
}
