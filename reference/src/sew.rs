//! The pairing that SEW looks for.

use crate::map::Map;
use crate::orbit::orbit;
use crate::widths::APART;
use std::collections::btree_map::Entry;
use std::collections::{BTreeMap, BTreeSet};

/// The axes of the map at distance two or more from the given one.
pub fn distant_axes(map: &Map, axis: usize) -> Vec<usize> {
    (0..=map.dim)
        .filter(|j| j.abs_diff(axis) >= APART)
        .collect()
}

/// The darts reached from a dart by links of the distant axes.
pub fn partners(map: &Map, axis: usize, dart: usize) -> BTreeSet<usize> {
    orbit(map, dart, &distant_axes(map, axis))
}

/// The pairing of the partners of `a` with those of `b`, where there is one.
/// It sends a to b and commutes with every distant link, so its values are
/// forced from a on; then each clause is tested for what was found.
pub fn pairing(map: &Map, axis: usize, a: usize, b: usize) -> Option<BTreeMap<usize, usize>> {
    let from = partners(map, axis, a);
    let onto = partners(map, axis, b);
    if !from.is_disjoint(&onto) {
        return None;
    }
    let found = propagate(map, axis, a, b);
    let whole = found.keys().copied().collect::<BTreeSet<_>>() == from;
    let values: BTreeSet<usize> = found.values().copied().collect();
    let one_to_one = values.len() == found.len();
    let starts = found.get(&a) == Some(&b);
    let right = whole && one_to_one && values == onto && starts;
    (right && commutes(map, axis, &found)).then_some(found)
}

/// Carries the value at `a` over to all partners of a. Where two ways lead to
/// one dart the first value is kept; the test that follows finds a clash.
fn propagate(map: &Map, axis: usize, a: usize, b: usize) -> BTreeMap<usize, usize> {
    let mut found = BTreeMap::from([(a, b)]);
    let mut to_visit = vec![(a, b)];
    while let Some((d, e)) = to_visit.pop() {
        for j in distant_axes(map, axis) {
            let (next, image) = (map.link(d, j), map.link(e, j));
            if let Entry::Vacant(unpaired) = found.entry(next) {
                unpaired.insert(image);
                to_visit.push((next, image));
            }
        }
    }
    found
}

/// Pairing after a distant link is the same as that link after pairing.
fn commutes(map: &Map, axis: usize, found: &BTreeMap<usize, usize>) -> bool {
    found.iter().all(|(&d, &e)| {
        distant_axes(map, axis)
            .iter()
            .all(|&j| found.get(&map.link(d, j)) == Some(&map.link(e, j)))
    })
}

/// Whether all pairs agree: on places for axes from 1 on, because the link
/// then joins darts of one corner, and on rows below the top axis, because the
/// link then joins darts of one top cell.
pub fn pairs_agree(map: &Map, axis: usize, found: &BTreeMap<usize, usize>) -> bool {
    found.iter().all(|(&d, &e)| {
        let places = axis == 0 || map.place(d) == map.place(e);
        let rows = axis == map.dim || map.row(d) == map.row(e);
        places && rows
    })
}
