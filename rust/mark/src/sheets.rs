//! The sheets that a program is tried on: the same for a seed on every machine,
//! small ones first.

use crate::draw::Draw;
use crate::scenes::scene;
use crate::shapes::shape;
use crate::sheet::Sheet;
use laremban::{SPANS, Span};

/// So often a sheet is drawn again that is too large.
const TRIES: usize = 100;

/// No sheet is lifted to more darts than this.
pub const MOST_LIFTED: usize = 4_000;

/// How large a sheet may be: its darts, and those of its lift.
fn size(dimension: usize, number: usize) -> (usize, usize) {
    // A dart with one span is lifted to two darts at each level.
    let lifted = 2 * (dimension + 1);
    if number % 16 == 15 {
        return ([60, 120, 150, 200][dimension - 1], MOST_LIFTED);
    }
    let most = [20, 48, 48, 40][dimension - 1];
    let darts = (4 + number).min(most);
    (darts, (60 + 3 * lifted * darts).min(1_000))
}

/// Objects are drawn apart from all else: what stands where is the same with
/// them.
const OF_OBJECTS: u64 = 2;

/// A sheet of a dimension from 1 to 4 by its number.
///
/// ```
/// use laremban_mark::sheets;
///
/// let sheet = sheets::sheet(1, 2, 30);
/// assert_eq!(sheet.dimension, 2);
/// assert!(sheet.is_buildable());
/// assert_eq!(sheet, sheets::sheet(1, 2, 30));
/// ```
///
/// # Panics
///
/// Where there is no such dimension.
pub fn sheet(seed: u64, dimension: usize, number: usize) -> Sheet {
    if let Some(scene) = scene(dimension, number) {
        return scene;
    }
    let mut draw = Draw::new(seed, &[dimension as u64, number as u64]);
    let (darts, lifted) = size(dimension, number);
    for _ in 0..TRIES {
        let sheet = drawn(&mut draw, dimension, darts);
        if sheet.names().count() <= lifted && sheet.is_buildable() {
            let mut draw = Draw::new(seed, &[dimension as u64, number as u64, OF_OBJECTS]);
            return owned(&mut draw, sheet);
        }
    }
    drawn(&mut draw, dimension, 1)
}

/// A plan with about so many darts at most: its darts and links, and then places
/// and spans for them.
pub(crate) fn drawn(draw: &mut Draw, dimension: usize, darts: usize) -> Sheet {
    let mut sheet = shape(draw, dimension, darts);
    if draw.chance(1, 2) {
        let order = draw.shuffled(sheet.count());
        sheet = sheet.renumbered(&order);
    }
    if draw.chance(7, 8) {
        let corners = sheet.cells(0);
        sheet.places = Sheet::by_cells(&corners, |_| place(draw, dimension));
    }
    let tops = sheet.cells(dimension);
    let heights = heights(draw);
    sheet.rows = Sheet::by_cells(&tops, |_| row(draw, &heights));
    sheet
}

/// Few objects, so that neighbours and spans that touch have the same and others.
const OBJECTS: [u16; 4] = [0, 7, 9, 65_535];

/// The same sheet with objects for its spans; one in four has none.
pub(crate) fn owned(draw: &mut Draw, mut sheet: Sheet) -> Sheet {
    if draw.chance(1, 4) {
        return sheet;
    }
    let tops = sheet.cells(sheet.dimension);
    let mut object = || OBJECTS[draw.below(OBJECTS.len())];
    let objects = Sheet::by_cells(&tops, |_| [(); SPANS].map(|()| object()));
    for (row, objects) in sheet.rows.iter_mut().zip(objects) {
        for (span, object) in row.iter_mut().zip(objects) {
            *span = span.of(object);
        }
    }
    sheet
}

/// A place: near 0 but for one in sixteen.
fn place(draw: &mut Draw, dimension: usize) -> Vec<i32> {
    let coordinate = |draw: &mut Draw| match draw.below(64) {
        0 => i32::MIN,
        1 => i32::MAX,
        2 => -70_000,
        3 => 65_536,
        _ => draw.below(19) as i32 - 9,
    };
    (0..dimension).map(|_| coordinate(draw)).collect()
}

/// The heights that a sheet's spans begin and end at, ascending. They are few,
/// so that ends of neighbours are the same, touch and interleave.
fn heights(draw: &mut Draw) -> Vec<i32> {
    let many = match draw.below(16) {
        0 | 1 => 18,
        2 => 2,
        _ => draw.from_to(3, 8),
    };
    let mut next = [0, 0, -1, -3, -40, 1, 7, 65_530][draw.below(8)];
    let wide = [1, 1, 2, 20][draw.below(4)];
    let mut heights: Vec<i32> = Vec::new();
    for _ in 0..many {
        heights.push(next);
        next += draw.from_to(1, wide) as i32;
    }
    // The outermost heights that there are.
    if draw.chance(1, 12) {
        heights[0] = i32::MIN;
    }
    if draw.chance(1, 12) {
        heights[many - 1] = i32::MAX;
    }
    heights
}

/// A row of spans between these heights: spans touch, leave gaps, or there are
/// none.
fn row(draw: &mut Draw, heights: &[i32]) -> Vec<Span> {
    let most = match draw.below(8) {
        0 => 0,
        1..4 => 1,
        4..6 => 2,
        6 => 3,
        _ => 8,
    };
    // A full row needs all heights.
    let least = if most == 8 { 2 } else { heights.len() - 1 };
    let (mut row, mut at) = (Vec::new(), draw.below(least));
    while row.len() < most && at + 1 < heights.len() {
        let long = match most {
            8 => 1,
            _ => draw.from_to(1, 4),
        };
        let to = (at + long).min(heights.len() - 1);
        row.push(Span::new(heights[at], heights[to]));
        at = to + [0, 0, 1, 2][draw.below(if most == 8 { 3 } else { 4 })];
    }
    row
}
