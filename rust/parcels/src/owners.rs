//! Whose a solid of a lifted map is, for those who read the map as text.

use crate::outline::canonical;
use crate::{Finding, Parcel, Point, Sheet};
use laremban::{Map, Span};
use std::collections::HashMap;
use std::fmt::Write;

/// The names of the columns.
const HEAD: &str = "dart\tparcel\tlo\thi\tobject\n";

/// What is known of a solid, or of what it becomes through time.
struct Owned {
    /// Its lowest dart.
    dart: usize,
    /// The least of its places along each axis behind the sheet's, and the
    /// greatest height.
    least: Vec<i32>,
    hi: i32,
    /// The outline of its floor.
    outline: Option<Vec<Point>>,
}

/// The solids of a map, each with its lowest dart, before their floors are known.
fn solids(map: Map, cells: &[usize]) -> Vec<Owned> {
    let mut all: Vec<Owned> = Vec::new();
    for (dart, &cell) in cells.iter().enumerate() {
        let place = &map.place(dart)[2..];
        if cell == all.len() {
            all.push(Owned {
                dart,
                least: place.to_vec(),
                hi: place[0],
                outline: None,
            });
        }
        let own = &mut all[cell];
        for (least, &at) in own.least.iter_mut().zip(place) {
            *least = at.min(*least);
        }
        own.hi = own.hi.max(place[0]);
    }
    all
}

/// The places of a dart's face in order: along axes 0 and 1 in turn.
fn around<'a>(map: Map<'a>, start: usize) -> Vec<&'a [i32]> {
    let mut places = Vec::new();
    let mut dart = start;
    loop {
        places.push(map.place(dart));
        dart = map.link(map.link(dart, 0), 1);
        if dart == start {
            return places;
        }
    }
}

/// Whose the solids of a lifted map are, between which heights they stand, and
/// which object they carry: a line each, by its lowest dart. Of a map through time likewise, whose top
/// cells are solids in time. A parcel is found by the outline of a solid's floor
/// (when its time begins), as [`compare`](crate::compare) does it.
pub fn owners(sheet: &Sheet, map: Map) -> Result<String, Finding> {
    let cells = map.cells(map.dimension());
    let mut all = solids(map, &cells);
    for (dart, &cell) in cells.iter().enumerate() {
        let own = &mut all[cell];
        if own.outline.is_none() && map.place(dart)[2..] == own.least {
            let face = around(map, dart);
            let level = face.iter().all(|place| place[2..] == own.least);
            let flat = face.iter().map(|place| (place[0], place[1]));
            own.outline = level.then(|| canonical(&flat.collect::<Vec<Point>>()));
        }
    }
    let parcels: HashMap<Vec<Point>, &Parcel> = (sheet.parcels.iter())
        .map(|parcel| (canonical(&parcel.corners), parcel))
        .collect();
    let mut text = HEAD.to_string();
    for own in &all {
        let parcel = own.outline.as_ref().and_then(|one| parcels.get(one));
        let parcel = parcel.ok_or_else(|| Finding::of_sheet("a solid is no parcel's"))?;
        let (name, dart, lo, hi) = (&parcel.name, own.dart, own.least[0], own.hi);
        let object = map.object(dart);
        let own = Span::new(lo, hi).of(object);
        if !parcel.standing().iter().any(|one| one.span == own) {
            let what = format!("a solid {lo}..{hi} of object {object} is none of the file's");
            return Err(parcel.finding(what));
        }
        // To write to a string can't fail.
        let _ = writeln!(text, "{dart}\t{name}\t{lo}\t{hi}\t{object}");
    }
    Ok(text)
}
