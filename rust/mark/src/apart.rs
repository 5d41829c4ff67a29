//! A sheet taken apart: what is left where a part, a parcel, a wall, a span, an
//! object or some height is taken away.

use crate::sheet::{Sheet, firsts};
use laremban::Span;
use std::collections::BTreeSet;

/// How many ways there are.
pub const WAYS: usize = 9;

/// The sheets that are left, one for each place where this way can be gone. The
/// largest parts are taken away first. Some may be no plans, as with a span that
/// has no length any more.
pub fn smaller(sheet: &Sheet, way: usize) -> Vec<Sheet> {
    let all: Vec<usize> = (0..=sheet.dimension).collect();
    let parts = || sheet.with_map(|map| map.orbits(&all));
    let mut left = match way {
        0 => by_group(sheet, &parts(), true),
        1 => by_group(sheet, &parts(), false),
        2 => by_group(sheet, &sheet.cells(sheet.dimension), false),
        3 => spans_changed(sheet, |_| vec![]),
        4 => walls_opened(sheet),
        5 => vec![even_heights(sheet)],
        6 => shorter_spans(sheet),
        7 => fewer_objects(sheet),
        _ => vec![without_places(sheet)],
    };
    left.retain(|other| other != sheet);
    left
}

/// Each group of darts kept alone, or taken away.
fn by_group(sheet: &Sheet, groups: &[usize], alone: bool) -> Vec<Sheet> {
    let many = firsts(groups).len();
    let kept = |group| groups.iter().map(move |&own| (own == group) == alone);
    let kept = (0..many).map(|group| kept(group).collect::<Vec<bool>>());
    kept.map(|keep| sheet.kept(&keep)).collect()
}

/// Each span of each top cell replaced by others.
fn spans_changed(sheet: &Sheet, change: impl Fn(Span) -> Vec<Span>) -> Vec<Sheet> {
    let tops = sheet.cells(sheet.dimension);
    let mut changed = Vec::new();
    for (top, &first) in firsts(&tops).iter().enumerate() {
        let row = &sheet.rows[first];
        for (at, &span) in row.iter().enumerate() {
            let mut other = row.clone();
            other.splice(at..=at, change(span));
            let mut left = sheet.clone();
            for dart in (0..sheet.count()).filter(|&dart| tops[dart] == top) {
                left.rows[dart].clone_from(&other);
            }
            changed.push(left);
        }
    }
    changed
}

/// Each wall between two top cells opened: the links across it are free.
fn walls_opened(sheet: &Sheet) -> Vec<Sheet> {
    let top = sheet.dimension;
    let far: Vec<usize> = (0..top.saturating_sub(1)).collect();
    let walls = sheet.with_map(|map| map.orbits(&far));
    let linked = firsts(&walls).into_iter();
    let linked = linked.filter(|&dart| sheet.links[dart][top] > dart);
    let opened = |first: usize| {
        let mut left = sheet.clone();
        for dart in (0..sheet.count()).filter(|&dart| walls[dart] == walls[first]) {
            let other = sheet.links[dart][top];
            left.links[dart][top] = dart;
            left.links[other][top] = other;
        }
        left
    };
    linked.map(opened).collect()
}

/// The heights of all spans, ascending.
fn heights(sheet: &Sheet) -> Vec<i32> {
    let spans = sheet.rows.iter().flatten();
    let ends: BTreeSet<i32> = spans.flat_map(|span| [span.lo, span.hi]).collect();
    ends.into_iter().collect()
}

/// The same sheet with 0, 1, 2 and so on for its heights.
fn even_heights(sheet: &Sheet) -> Sheet {
    let heights = heights(sheet);
    let even = |end: i32| heights.partition_point(|&height| height < end) as i32;
    let mut other = sheet.clone();
    for span in other.rows.iter_mut().flatten() {
        *span = Span::new(even(span.lo), even(span.hi)).of(span.object);
    }
    other
}

/// Each span shortened at one end, to the next height of the sheet.
fn shorter_spans(sheet: &Sheet) -> Vec<Sheet> {
    let heights = heights(sheet);
    let at = |end: i32| heights.partition_point(|&height| height < end);
    let other = |span: Span, lo: i32, hi: i32| vec![Span::new(lo, hi).of(span.object)];
    let lower = |span: Span| other(span, span.lo, heights[at(span.hi) - 1]);
    let higher = |span: Span| other(span, heights[at(span.lo) + 1], span.hi);
    let mut shorter = spans_changed(sheet, lower);
    shorter.append(&mut spans_changed(sheet, higher));
    shorter
}

/// All objects 0, and then that of each span alone.
fn fewer_objects(sheet: &Sheet) -> Vec<Sheet> {
    let mut none = sheet.clone();
    for span in none.rows.iter_mut().flatten() {
        *span = span.of(0);
    }
    let mut fewer = vec![none];
    fewer.append(&mut spans_changed(sheet, |span| vec![span.of(0)]));
    fewer
}

/// All darts at one place.
fn without_places(sheet: &Sheet) -> Sheet {
    let mut other = sheet.clone();
    other.places.iter_mut().for_each(|place| place.fill(0));
    other
}
