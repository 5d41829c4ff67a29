//! Polygons, sewn to each other in a plan of dimension 2.

use crate::draw::Draw;
use crate::shapes::{begin, sew};
use laremban::Commands;

/// The links of a polygon with so many sides, from a dart on. Dart 0 of it and
/// its last one are at the corner where it begins.
fn polygon(list: &mut Commands, from: usize, sides: usize) {
    for side in 0..sides {
        sew(list, 0, from + 2 * side, from + 2 * side + 1);
    }
    for side in 0..sides {
        let next = (2 * side + 2) % (2 * sides);
        sew(list, 1, from + 2 * side + 1, from + next);
    }
}

/// Squares in rows and columns, which share walls; now and then one is missing.
pub(crate) fn grid(draw: &mut Draw, darts: usize) -> Commands {
    let wide = draw.from_to(1, (darts / 8).clamp(1, 4));
    let high = (darts / 8 / wide).clamp(1, 4);
    let mut list = begin(2, 8 * wide * high);
    for square in 0..wide * high {
        polygon(&mut list, 8 * square, 4);
    }
    for square in 0..wide * high {
        if square % wide + 1 < wide && draw.chance(9, 10) {
            sew(&mut list, 2, 8 * square + 2, 8 * (square + 1) + 7);
        }
        if square / wide + 1 < high && draw.chance(9, 10) {
            sew(&mut list, 2, 8 * square + 4, 8 * (square + wide) + 1);
        }
    }
    list
}

/// Polygons around one corner, all the way round or not.
pub(crate) fn fan(draw: &mut Draw, darts: usize) -> Commands {
    let sides = draw.from_to(2, 3);
    let own = 2 * sides;
    let many = draw.from_to(1, (darts / own).clamp(1, 7));
    let mut list = begin(2, own * many);
    for each in 0..many {
        polygon(&mut list, own * each, sides);
    }
    for each in 1..many {
        sew(&mut list, 2, own * each - 1, own * each);
    }
    if draw.chance(1, 2) {
        sew(&mut list, 2, own * many - 1, 0);
    }
    list
}

/// Polygons whose sides are sewn as it comes: a corner may have any of them, and
/// one of them more than once.
pub(crate) fn glued(draw: &mut Draw, darts: usize) -> Commands {
    let mut sides = Vec::new();
    let mut all = 0;
    while all == 0 || (2 * (all + 5) <= darts && sides.len() < 9) {
        sides.push(draw.from_to(1, 5));
        all += sides[sides.len() - 1];
    }
    let mut list = begin(2, 2 * all);
    let mut from = 0;
    for &many in &sides {
        polygon(&mut list, from, many);
        from += 2 * many;
    }
    for _ in 0..all {
        let (a, b) = (draw.below(2 * all), draw.below(2 * all));
        sew(&mut list, 2, a, b);
    }
    list
}
