//! A map and its lift, for the program that replies to commands.

use std::collections::{BTreeMap, BTreeSet};

/// The two ends and the object.
pub type Span = (i64, i64, i64);

#[derive(Clone)]
pub struct Map {
    pub m: usize,
    pub links: Vec<Vec<usize>>,
    pub places: Vec<Vec<i64>>,
    pub rows: Vec<Vec<Span>>,
}

impl Map {
    pub fn new(m: usize) -> Map {
        Map {
            m,
            links: vec![],
            places: vec![],
            rows: vec![],
        }
    }

    /// The darts that links along these axes reach.
    pub fn orbit(&self, dart: usize, axes: &[usize]) -> BTreeSet<usize> {
        let (mut reached, mut open) = (BTreeSet::from([dart]), vec![dart]);
        while let Some(dart) = open.pop() {
            let next = axes.iter().map(|&axis| self.links[dart][axis]);
            open.extend(next.filter(|&next| reached.insert(next)));
        }
        reached
    }

    /// The darts of a dart's k-cell.
    pub fn cell(&self, dart: usize, k: usize) -> BTreeSet<usize> {
        let axes: Vec<usize> = (0..=self.m).filter(|&axis| axis != k).collect();
        self.orbit(dart, &axes)
    }

    /// The k-cells, each by its darts.
    pub fn cells(&self, k: usize) -> Vec<BTreeSet<usize>> {
        let (mut cells, mut seen) = (vec![], BTreeSet::new());
        for dart in 0..self.links.len() {
            if !seen.contains(&dart) {
                cells.push(self.cell(dart, k));
                seen.extend(cells[cells.len() - 1].iter().copied());
            }
        }
        cells
    }

    fn covered(&self, dart: usize, t: i64, up: bool) -> bool {
        self.rows[dart].iter().any(|&(lo, hi, _)| match up {
            true => lo <= t && t < hi,
            false => lo < t && t <= hi,
        })
    }
}

/// A lifted dart: plan dart, level, height, and whether it is the upper side.
type Lifted = (usize, usize, i64, bool);
/// The ends of each dart's cells, by dart and level.
type Ends = Vec<Vec<BTreeSet<i64>>>;

fn ends(plan: &Map) -> Ends {
    let level = |k: usize| {
        let mut ends = vec![BTreeSet::new(); plan.links.len()];
        for cell in plan.cells(k) {
            let rows = cell.iter().flat_map(|&d| &plan.rows[d]);
            let own: BTreeSet<i64> = rows.flat_map(|&(lo, hi, _)| [lo, hi]).collect();
            cell.iter().for_each(|&d| ends[d].clone_from(&own));
        }
        ends
    };
    let levels: Ends = (0..=plan.m).map(level).collect();
    let of = |d: usize| levels.iter().map(|level| level[d].clone()).collect();
    (0..plan.links.len()).map(of).collect()
}

/// Where a link leads to, if there is such a dart.
fn target(plan: &Map, ends: &Ends, (d, k, t, up): Lifted, i: usize) -> Lifted {
    if i < k {
        (plan.links[d][i], k, t, up)
    } else if i == k && k > 0 {
        (d, k - 1, t, up)
    } else if i == k {
        let next = match up {
            true => ends[d][0].range(t + 1..).next(),
            false => ends[d][0].range(..t).next_back(),
        };
        (d, 0, *next.unwrap(), !up)
    } else if i == k + 1 && (i > plan.m || !ends[d][i].contains(&t)) {
        (d, k, t, !up)
    } else if i == k + 1 {
        (d, i, t, up)
    } else {
        (plan.links[d][i - 1], k, t, up)
    }
}

/// The lift.
pub fn lifted(plan: &Map) -> Map {
    let ends = ends(plan);
    let mut all: Vec<Lifted> = vec![];
    for (d, levels) in ends.iter().enumerate() {
        for (k, heights) in levels.iter().enumerate() {
            for &t in heights {
                let sides = [false, true].into_iter();
                let sides = sides.filter(|&up| plan.covered(d, t, up));
                all.extend(sides.map(|up| (d, k, t, up)));
            }
        }
    }
    let number: BTreeMap<Lifted, usize> = all.iter().copied().zip(0..).collect();
    let mut map = Map::new(plan.m + 1);
    for (own, &dart) in all.iter().enumerate() {
        // What is not there is not covered: the dart itself.
        let to = |i| number.get(&target(plan, &ends, dart, i));
        let links = (0..=plan.m + 1).map(|i| to(i).copied().unwrap_or(own));
        map.links.push(links.collect());
        let place = plan.places[dart.0].iter().copied().chain([dart.2]);
        map.places.push(place.collect());
        map.rows.push(vec![]);
    }
    map
}
