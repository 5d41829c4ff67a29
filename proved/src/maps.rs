//! Valid maps of any size for the comparison and the benchmark: grids of boxes
//! in every dimension, polygons, fans, wedges, and lifts of these.

use reference::lift::{Lifted, lift};
use reference::map::{Dart, Map, Span};
use reference::orbit::top_cell;
use reference::random::Random;
use reference::scenes::any_object;
use reference::widths::{DARTS, SPANS};

/// A row of up to eight spans; some touch, some have a gap between them. Their
/// objects are drawn apart, so that a seed has the same spans whatever belongs to
/// them: the benchmark is compared with that of earlier days.
fn any_row(random: &mut Random) -> Vec<Span> {
    let mut lo = random.below(40) as i32 - 20;
    let objects = &mut Random::new(lo as u64);
    let mut row = Vec::new();
    for _ in 0..random.pick(&[0, 1, 1, 1, 2, 3, SPANS]) {
        let hi = lo + random.between(1, 5) as i32;
        let object = any_object(objects);
        row.push(Span { lo, hi, object });
        lo = hi + random.below(3) as i32;
    }
    row
}

/// All orders of the numbers below m.
fn orders(m: usize) -> Vec<Vec<usize>> {
    if m == 0 {
        return vec![Vec::new()];
    }
    let mut all = Vec::new();
    for shorter in orders(m - 1) {
        for at in 0..m {
            let mut order = shorter.clone();
            order.insert(at, m - 1);
            all.push(order);
        }
    }
    all
}

/// A grid of boxes, as many along each axis as `sizes` says; squares where
/// there are two sizes. Each wall between two boxes stays open, that is,
/// unlinked, in so many of a hundred cases. Each box has its own row.
///
/// A dart is a box, an order of the axes and a corner of the box: from the
/// corner runs an edge along the order's first axis, a face along its first
/// two, and so on. So link 0 goes to the edge's other corner, link i swaps two
/// axes of the order, and the top link crosses the wall that the order's last
/// axis stands on.
pub fn grid(random: &mut Random, sizes: &[usize], open: usize) -> Map {
    let m = sizes.len();
    let orders = orders(m);
    let boxes: usize = sizes.iter().product();
    let walls: Vec<bool> = (0..boxes * m).map(|_| !random.chance(open)).collect();
    let number =
        |cell: usize, order: usize, corner: usize| ((cell * orders.len() + order) << m) + corner;
    let mut map = Map::empty(m);
    for cell in 0..boxes {
        let row = any_row(random);
        for (at, order) in orders.iter().enumerate() {
            for corner in 0..1 << m {
                let mut links = vec![number(cell, at, corner ^ 1 << order[0])];
                for i in 1..m {
                    links.push(number(cell, swapped(&orders, order, i), corner));
                }
                links.push(match across(sizes, &walls, cell, order[m - 1], corner) {
                    Some(next) => number(next, at, corner ^ 1 << order[m - 1]),
                    None => number(cell, at, corner),
                });
                let place = place(sizes, cell, corner);
                let row = row.clone();
                map.darts.push(Dart { links, place, row });
            }
        }
    }
    map
}

/// Which order has the axes at i - 1 and i the other way round.
fn swapped(orders: &[Vec<usize>], order: &[usize], i: usize) -> usize {
    let mut other = order.to_vec();
    other.swap(i - 1, i);
    orders.iter().position(|o| *o == other).unwrap_or(0)
}

/// Where a box stands along an axis, and how far apart neighbours along it are
/// numbered.
fn along(sizes: &[usize], cell: usize, axis: usize) -> (usize, usize) {
    let stride = sizes[..axis].iter().product();
    (cell / stride % sizes[axis], stride)
}

/// The box behind the wall that stands on the axis at the corner's side.
fn across(
    sizes: &[usize],
    walls: &[bool],
    cell: usize,
    axis: usize,
    corner: usize,
) -> Option<usize> {
    let (at, stride) = along(sizes, cell, axis);
    let is_upper = corner >> axis & 1 == 1;
    let last = if is_upper { sizes[axis] - 1 } else { 0 };
    if at == last {
        return None;
    }
    let lower = if is_upper { cell } else { cell - stride };
    let other = if is_upper { cell + stride } else { lower };
    walls[lower * sizes.len() + axis].then_some(other)
}

/// The corner's coordinates.
fn place(sizes: &[usize], cell: usize, corner: usize) -> Vec<i32> {
    let one = |axis| along(sizes, cell, axis).0 + (corner >> axis & 1);
    (0..sizes.len()).map(|axis| one(axis) as i32).collect()
}

/// So many polygons with so many sides each. Darts 2e and 2e + 1 of a polygon
/// are the ends of its edge e, which begins at corner e.
fn polygons(random: &mut Random, many: usize, sides: usize) -> Map {
    let mut map = Map::empty(2);
    for polygon in 0..many {
        let row = any_row(random);
        for end in 0..2 * sides {
            let own = 2 * sides * polygon;
            let next = (end + 2 * sides - 1 + 2 * (end % 2)) % (2 * sides);
            let corner = end.div_ceil(2) % sides;
            map.darts.push(Dart {
                links: vec![own + (end ^ 1), own + next, own + end],
                place: vec![corner as i32, polygon as i32],
                row: row.clone(),
            });
        }
    }
    map
}

/// One polygon.
pub fn polygon(random: &mut Random, sides: usize) -> Map {
    polygons(random, 1, sides)
}

/// Triangles around one corner, each linked to the next and the last to the
/// first.
pub fn fan(random: &mut Random, many: usize) -> Map {
    let mut map = polygons(random, many, 3);
    for triangle in 0..many {
        let next = (triangle + 1) % many;
        for (near, far) in [(4, 1), (5, 0)] {
            let (a, b) = (6 * triangle + near, 6 * next + far);
            map.darts[a].links[2] = b;
            map.darts[b].links[2] = a;
        }
        let rim = [triangle as i32, 1];
        let next_rim = [next as i32, 1];
        let corners = [[0, 0], rim, rim, next_rim, next_rim, [0, 0]];
        for (end, corner) in corners.into_iter().enumerate() {
            map.darts[6 * triangle + end].place = corner.to_vec();
        }
    }
    map
}

/// The lift of a map, with a row for each of its solids; the map itself where
/// the lift has too many darts.
pub fn tower(random: &mut Random, plan: Map) -> Map {
    match lift(&plan, DARTS) {
        Some(Lifted { map, .. }) => with_rows(map, |_| any_row(random)),
        None => plan,
    }
}

/// Wedges around one corner, two darts each, every wedge linked to the next and
/// the last to the first. Their rows are empty.
pub fn wedges(many: usize) -> Map {
    let mut map = Map::empty(2);
    let ends = 2 * many;
    for end in 0..ends {
        let beside = match end % 2 {
            0 => end + ends - 1,
            _ => end + 1,
        };
        map.darts.push(Dart {
            links: vec![end, end ^ 1, beside % ends],
            place: vec![0; 2],
            row: Vec::new(),
        });
    }
    map
}

/// The map with a row for each top cell, by the cell's number; cells are
/// numbered by their lowest darts.
pub fn with_rows(mut map: Map, mut row: impl FnMut(usize) -> Vec<Span>) -> Map {
    let mut is_done = vec![false; map.count()];
    let mut cells = 0;
    for dart in 0..map.count() {
        if !is_done[dart] {
            let row = row(cells);
            cells += 1;
            for d in top_cell(&map, dart) {
                is_done[d] = true;
                map.darts[d].row = row.clone();
            }
        }
    }
    map
}

/// A row for a square of a sheet so many squares wide, such that the spans of
/// the four around a corner are all different and each ends inside the others.
/// Each square is an object of its own.
pub fn interleaved(wide: usize, square: usize) -> Vec<Span> {
    let (x, y) = (square % wide, square / wide);
    let lo = 2 * (x % 2 + 2 * (y % 2)) as i32;
    let (hi, object) = (lo + 20, square as u16 + 1);
    vec![Span { lo, hi, object }]
}

/// The same map with its darts numbered anew.
pub fn renumbered(random: &mut Random, map: &Map) -> Map {
    let count = map.count();
    let mut new: Vec<usize> = (0..count).collect();
    for at in 1..count {
        new.swap(at, random.below(at + 1));
    }
    let mut other = map.clone();
    for (old, dart) in map.darts.iter().enumerate() {
        let links = dart.links.iter().map(|&e| new[e]).collect();
        other.darts[new[old]] = Dart {
            links,
            ..dart.clone()
        };
    }
    other
}
