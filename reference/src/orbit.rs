//! Darts reached by links, cells, and how many cells there are.

use crate::map::Map;
use std::collections::BTreeSet;

/// Every dart reached from `start` by links of the given axes, in any number
/// of steps, none included.
pub fn orbit(map: &Map, start: usize, axes: &[usize]) -> BTreeSet<usize> {
    let mut reached = BTreeSet::from([start]);
    let mut to_visit = vec![start];
    while let Some(dart) = to_visit.pop() {
        for &axis in axes {
            let neighbour = map.link(dart, axis);
            if reached.insert(neighbour) {
                to_visit.push(neighbour);
            }
        }
    }
    reached
}

/// The cell of a dart for an axis: all that is reached by the other axes.
pub fn cell(map: &Map, dart: usize, axis: usize) -> BTreeSet<usize> {
    let others: Vec<usize> = (0..=map.dim).filter(|&j| j != axis).collect();
    orbit(map, dart, &others)
}

/// The top cell of a dart: its cell for the axis that is the dimension.
pub fn top_cell(map: &Map, dart: usize) -> BTreeSet<usize> {
    cell(map, dart, map.dim)
}

/// How many different cells of one axis the map has.
pub fn count_cells(map: &Map, axis: usize) -> usize {
    let mut seen = BTreeSet::new();
    let mut cells = 0;
    for dart in 0..map.count() {
        if !seen.contains(&dart) {
            seen.extend(cell(map, dart, axis));
            cells += 1;
        }
    }
    cells
}
