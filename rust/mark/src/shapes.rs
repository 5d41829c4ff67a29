//! Darts and links that are drawn: no places and no spans yet.
//!
//! All of them are built by commands, axis by axis, and what the proved run
//! refuses is left out. So a script can build them too.

use crate::draw::Draw;
use crate::polygons::{fan, glued, grid};
use crate::sheet::Sheet;
use laremban::Commands;

/// A plan of a dimension with about so many darts at most.
pub fn shape(draw: &mut Draw, dimension: usize, darts: usize) -> Sheet {
    let list = match (dimension, draw.below(6)) {
        (1, 0..5) => chain(draw, darts),
        (2, 0) => grid(draw, darts),
        (2, 1) => fan(draw, darts),
        (2, 2) => glued(draw, darts),
        (3.., 1 | 2) => ring(draw, dimension, darts),
        (_, 3) => soup(draw, dimension, darts),
        (2.., 4..) if darts >= 2 * dimension => return lifted(draw, dimension, darts),
        _ => copies(draw, dimension, darts),
    };
    loosened(draw, Sheet::of_commands(&list))
}

/// A plan with so many darts.
pub(crate) fn begin(dimension: usize, darts: usize) -> Commands {
    let mut list = Commands::new();
    list.new_plan(dimension as u8).darts(darts);
    list
}

/// SEW, by numbers that fit.
pub(crate) fn sew(list: &mut Commands, axis: usize, a: usize, b: usize) {
    list.sew(axis as u8, a as u16, b as u16);
}

/// Edges one after the other; some are not sewn, and some go round.
fn chain(draw: &mut Draw, darts: usize) -> Commands {
    let edges = draw.from_to(1, darts.div_ceil(2));
    let mut list = begin(1, 2 * edges);
    for edge in 0..edges {
        if draw.chance(15, 16) {
            sew(&mut list, 0, 2 * edge, 2 * edge + 1);
        }
    }
    for edge in 1..edges {
        if draw.chance(4, 5) {
            sew(&mut list, 1, 2 * edge - 1, 2 * edge);
        }
    }
    if draw.chance(1, 4) {
        sew(&mut list, 1, 2 * edges - 1, 0);
    }
    list
}

/// Darts that are sewn as it comes along every axis.
fn soup(draw: &mut Draw, dimension: usize, darts: usize) -> Commands {
    let darts = draw.from_to(1, darts.clamp(1, 16));
    let mut list = begin(dimension, darts);
    for axis in 0..=dimension {
        for _ in 0..darts {
            let (a, b) = (draw.below(darts), draw.below(darts));
            sew(&mut list, axis, a, b);
        }
    }
    list
}

/// Top cells that are alike, so that their walls fit, sewn wall to wall.
fn copies(draw: &mut Draw, dimension: usize, darts: usize) -> Commands {
    let own = draw.from_to(1, (darts / 2).clamp(1, 8));
    let many = draw.from_to(1, (darts / own).clamp(1, 6));
    let mut list = begin(dimension, own * many);
    for axis in 0..dimension {
        for turn in 0..2 * own {
            // An edge has two ends more often than not.
            let (a, b) = match axis == 0 && turn < own / 2 {
                true => (2 * turn, 2 * turn + 1),
                false => (draw.below(own), draw.below(own)),
            };
            for each in 0..many {
                sew(&mut list, axis, own * each + a, own * each + b);
            }
        }
    }
    for _ in 0..own * many {
        let (a, b, dart) = (draw.below(many), draw.below(many), draw.below(own));
        sew(&mut list, dimension, own * a + dart, own * b + dart);
    }
    list
}

/// Top cells that are alike around one corner: each has two walls that meet
/// there, its even darts and its odd ones, and is sewn to the next by one of them.
fn ring(draw: &mut Draw, dimension: usize, darts: usize) -> Commands {
    let wall = draw.from_to(1, (darts / 8).clamp(1, 3));
    let (own, most) = (2 * wall, (darts / (2 * wall)).clamp(2, 7));
    let many = draw.from_to(2.max(most / 2), most);
    let mut list = begin(dimension, own * many);
    let mut sew_all = |axis, a, b| {
        for each in 0..many {
            sew(&mut list, axis, own * each + a, own * each + b);
        }
    };
    for axis in 0..dimension - 1 {
        for _ in 0..wall {
            let (a, b) = (2 * draw.below(wall), 2 * draw.below(wall));
            sew_all(axis, a, b);
            sew_all(axis, a + 1, b + 1);
        }
    }
    sew_all(dimension - 1, 0, 1);
    sew_all(dimension - 1, draw.below(own), draw.below(own));
    for each in 1..many {
        let dart = each % 2;
        let (a, b) = (own * (each - 1) + dart, own * each + dart);
        sew(&mut list, dimension, a, b);
    }
    list
}

/// The lift of a sheet one dimension lower, as ADOPT takes it, with some more of
/// its walls sewn.
fn lifted(draw: &mut Draw, dimension: usize, darts: usize) -> Sheet {
    let base = crate::sheets::drawn(draw, dimension - 1, darts / (2 * dimension));
    let map = base.lifted().filter(|map| map.map().count() <= 2 * darts);
    let Some(map) = map.filter(|map| map.map().count() > 0) else {
        return Sheet::of_commands(&soup(draw, dimension, darts));
    };
    let adopted = Sheet::of(&map.map());
    if draw.chance(1, 2) {
        return adopted;
    }
    let (mut list, count) = (adopted.links_list(), adopted.count());
    for _ in 0..count {
        sew(&mut list, dimension, draw.below(count), draw.below(count));
    }
    loosened(draw, Sheet::of_commands(&list))
}

/// Now and then some links are taken away again.
fn loosened(draw: &mut Draw, sheet: Sheet) -> Sheet {
    if !draw.chance(1, 5) || sheet.count() == 0 {
        return sheet;
    }
    let mut list = sheet.links_list();
    for _ in 0..draw.from_to(1, 3) {
        let axis = draw.below(sheet.dimension + 1) as u8;
        list.unsew(axis, draw.below(sheet.count()) as u16);
    }
    Sheet::of_commands(&list)
}
