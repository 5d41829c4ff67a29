//! The lift: the list of names, the six cases of its links, its places and the
//! objects that its darts carry.

use crate::map::{Dart, Map};
use crate::span::{Side, covering, ends, is_covered};
use crate::widths::SPAN_OBJECT;
use std::collections::{BTreeMap, BTreeSet};

/// The name of a lifted dart. The order of the fields is the order of the
/// numbering: by plan dart, then level, then height, then down before up.
#[derive(Clone, Copy, Debug, PartialEq, Eq, PartialOrd, Ord)]
pub struct Name {
    pub d: usize,
    pub k: usize,
    pub t: i32,
    pub s: Side,
}

/// A lifted map, and beside it the object that each of its darts carries. It is
/// no part of the map: ADOPT takes the map alone.
#[derive(Clone, Debug, PartialEq, Eq)]
pub struct Lifted {
    pub map: Map,
    pub objects: Vec<u16>,
}

impl Lifted {
    /// The lifted side that a run starts from: a blank map, and no object.
    pub fn blank() -> Lifted {
        Lifted {
            map: Map::blank(),
            objects: Vec::new(),
        }
    }
}

/// All names of the lift in the order of their numbers, or nothing when there
/// are more than `most`. Stopping there keeps a lift that no table can hold
/// from filling the machine.
pub fn names(plan: &Map, most: usize) -> Option<Vec<Name>> {
    let mut list = Vec::new();
    for d in 0..plan.count() {
        for k in 0..=plan.dim {
            for t in ends(plan, d, k) {
                for s in Side::BOTH {
                    if is_covered(plan.row(d), t, s) {
                        list.push(Name { d, k, t, s });
                    }
                }
                if list.len() > most {
                    return None;
                }
            }
        }
    }
    Some(list)
}

/// The next end above (up) or below (down) a height.
fn next_end(heights: &BTreeSet<i32>, t: i32, s: Side) -> Option<i32> {
    match s {
        Side::Up => heights.iter().copied().find(|&u| u > t),
        Side::Down => heights.iter().copied().rev().find(|&u| u < t),
    }
}

/// The name at the other end of the link along axis `i`: the six cases. The
/// plan is taken to be valid; only then does every case name a lifted dart.
pub fn link_name(plan: &Map, name: Name, i: usize) -> Name {
    let Name { d, k, t, s } = name;
    let m = plan.dim;
    let turned = Name {
        s: s.opposite(),
        ..name
    };
    if i < k {
        // Below the level: as in the plan.
        let d = plan.link(d, i);
        Name { d, ..name }
    } else if i == k && k >= 1 {
        // At the level: one level down.
        Name { k: k - 1, ..name }
    } else if i == k {
        // Along the upright: to the next end of the corner, looking back.
        let t = next_end(&ends(plan, d, 0), t, s).unwrap_or(t);
        Name { t, ..turned }
    } else if i == k + 1 && i <= m {
        // One level up where the height is an end there, else straight on.
        let up = Name { k: k + 1, ..name };
        let is_end = ends(plan, d, k + 1).contains(&t);
        choose(is_end, up, turned)
    } else if i == k + 1 {
        // From a span to one that touches it, else free.
        let touched = is_covered(plan.row(d), t, s.opposite());
        choose(touched, turned, name)
    } else {
        // Across, along the plan's axis one lower; at the top axis only to a
        // neighbour that stands at this height, else free.
        let d = plan.link(d, i - 1);
        let across = Name { d, ..name };
        let stands = i <= m || is_covered(plan.row(d), t, s);
        choose(stands, across, name)
    }
}

/// The first name when the condition holds, else the second.
fn choose(holds: bool, first: Name, second: Name) -> Name {
    if holds { first } else { second }
}

/// The object that a lifted dart carries: that of the span of the plan dart's row
/// that covers its side. Every name of the lift has one.
pub fn carried(plan: &Map, name: Name) -> u16 {
    let span = covering(plan.row(name.d), name.t, name.s);
    span.map_or(SPAN_OBJECT, |span| span.object)
}

/// The lift of a plan, or nothing when it has more than `most` darts. A link
/// is the position in the list of the name at its other end; the place is that
/// of the plan dart with the height behind it; the rows are empty.
pub fn lift(plan: &Map, most: usize) -> Option<Lifted> {
    let list = names(plan, most)?;
    let position: BTreeMap<Name, usize> = list
        .iter()
        .enumerate()
        .map(|(at, &name)| (name, at))
        .collect();
    let mut map = Map::empty(plan.dim + 1);
    for (own, &name) in list.iter().enumerate() {
        let mut links = Vec::new();
        for i in 0..=map.dim {
            let other = link_name(plan, name, i);
            links.push(position.get(&other).copied().unwrap_or(own));
        }
        let mut place = plan.place(name.d).to_vec();
        place.push(name.t);
        map.darts.push(Dart {
            links,
            place,
            row: Vec::new(),
        });
    }
    let objects = list.iter().map(|&name| carried(plan, name)).collect();
    Some(Lifted { map, objects })
}
