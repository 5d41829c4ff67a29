//! Drawn raw tables for the table calls: valid maps with rubbish wherever
//! nothing looks, then damage of a chosen kind.

use crate::calls::check;
use crate::cases::Plan;
use crate::map::{Dart, Map, Span, links_are_valid};
use crate::orbit::{cell, top_cell};
use crate::random::Random;
use crate::refusal::*;
use crate::scenes::{any_object, parcels};
use crate::sketch::Sketch;
use crate::table::{write_links, write_places, write_spans};
use crate::widths::*;

/// A number that means nothing.
fn any_i32(random: &mut Random) -> i32 {
    match random.below(4) {
        0 => random.pick(&[i32::MIN, i32::MAX, -1, 9, OBJECT_LIMIT]),
        _ => random.below(40) as i32 - 20,
    }
}

/// A link that means nothing.
fn any_u16(random: &mut Random) -> u16 {
    random.pick(&[0, 1, 2, 3, 7, 9, 16_384, 40_000, u16::MAX])
}

/// So many numbers that mean nothing, for memory that a call may overwrite.
pub fn litter_i32(random: &mut Random, length: usize) -> Vec<i32> {
    (0..length).map(|_| any_i32(random)).collect()
}

/// The same for link tables.
pub fn litter_u16(random: &mut Random, length: usize) -> Vec<u16> {
    (0..length).map(|_| any_u16(random)).collect()
}

/// A valid map: one that commands build, or one drawn freely.
pub fn any_map(random: &mut Random) -> Map {
    if random.chance(55) {
        return built_map(random);
    }
    let dim = random.pick(&[1, 2, 2, 2, 3, 3, 4, 4]);
    free_map(random, dim)
}

/// A map of parcels side by side, built by commands.
pub fn built_map(random: &mut Random) -> Map {
    let dim = random.pick(&[1, 1, 1, 2, 2, 3, 4]);
    let mut sketch = Sketch::new(random);
    parcels(&mut sketch, dim);
    sketch.paper.plan
}

/// A map whose links are drawn freely until they are valid. Some of these no
/// list of commands can build.
pub fn free_map(random: &mut Random, dim: usize) -> Map {
    loop {
        let darts = random.between(1, 4);
        let mut map = Map::empty(dim);
        for own in 0..darts {
            map.darts.push(Dart {
                links: vec![own; dim + 1],
                place: vec![0; dim],
                row: Vec::new(),
            });
        }
        for axis in 0..=dim {
            swap_some(random, &mut map, axis);
        }
        if links_are_valid(&map) {
            dress(random, &mut map);
            return map;
        }
    }
}

/// Links some pairs of darts along an axis.
fn swap_some(random: &mut Random, map: &mut Map, axis: usize) {
    for _ in 0..random.below(3) {
        let (a, b) = (random.below(map.count()), random.below(map.count()));
        if map.is_free(a, axis) && map.is_free(b, axis) {
            map.darts[a].links[axis] = b;
            map.darts[b].links[axis] = a;
        }
    }
}

/// Gives corners places and top cells rows.
fn dress(random: &mut Random, map: &mut Map) {
    for dart in 0..map.count() {
        let place = litter_i32(random, map.dim);
        for d in cell(map, dart, 0) {
            map.darts[d].place = place.clone();
        }
        let row = any_row(random);
        for d in top_cell(map, dart) {
            map.darts[d].row = row.clone();
        }
    }
}

/// A row: mostly one or two spans of small heights, often touching; now and
/// then all eight, or the whole range of heights.
fn any_row(random: &mut Random) -> Vec<Span> {
    let mut row = Vec::new();
    let spans = random.pick(&[0, 1, 1, 1, 1, 2, 2, 8]);
    if random.chance(8) {
        let (lo, hi) = (i32::MIN, i32::MAX);
        let object = any_object(random);
        return vec![Span { lo, hi, object }];
    }
    let mut lo = random.below(3) as i32;
    for _ in 0..spans {
        let hi = lo + random.between(1, 2) as i32;
        let object = any_object(random);
        row.push(Span { lo, hi, object });
        lo = hi + random.below(2) as i32;
    }
    row
}

/// The tables of a map. Axes, coordinates and span numbers that are not in use
/// hold rubbish, as do rows past the count; the lengths are ragged.
pub fn tables(random: &mut Random, map: &Map) -> Plan {
    let count = map.count();
    let mut links = write_links(map, LINKS * count);
    let mut places = write_places(map, COORDINATES * count);
    let mut spans = write_spans(map, SPAN_NUMBERS * count);
    for d in 0..count {
        for i in map.dim + 1..LINKS {
            links[LINKS * d + i] = any_u16(random);
        }
        for x in map.dim..COORDINATES {
            places[COORDINATES * d + x] = any_i32(random);
        }
        for n in 1 + PER_SPAN * map.row(d).len()..SPAN_NUMBERS {
            spans[SPAN_NUMBERS * d + n] = any_i32(random);
        }
    }
    let more = random.pick(&[0, 0, 0, 1, 3, 6]);
    links.extend(litter_u16(random, more));
    let more = random.pick(&[0, 0, 0, 1, 4, 5]);
    places.extend(litter_i32(random, more));
    let more = random.pick(&[0, 0, 0, 1, SPAN_NUMBERS - 1, SPAN_NUMBERS]);
    spans.extend(litter_i32(random, more));
    let work = WORK * count + random.pick(&[0, 0, 0, 1, 3, 4, 9]);
    Plan {
        links,
        places,
        spans,
        work,
        dimension: map.dim as u8,
        count,
    }
}

/// Damages one thing at one dart, aiming at a refusal from 6 to 11.
fn damage(random: &mut Random, plan: &mut Plan, number: u8) {
    if plan.count == 0 {
        return;
    }
    let d = random.below(plan.count);
    let axis = random.below(usize::from(plan.dimension) + 1);
    let link = LINKS * d + axis;
    match number {
        LINK_BEYOND => {
            let count = plan.count as u16;
            plan.links[link] = random.pick(&[count, count, count + 1, 40_000, u16::MAX]);
        }
        LINK_NOT_UNDONE => plan.links[link] = random.below(plan.count) as u16,
        PAIR_NOT_UNDONE => relink(random, plan, axis),
        PLACES_DIFFER => {
            let x = random.below(plan.dimension.into());
            plan.places[COORDINATES * d + x] = any_i32(random);
        }
        BAD_ROW => damage_row(random, &mut plan.spans[SPAN_NUMBERS * d..][..SPAN_NUMBERS]),
        _ => {
            let (lo, hi) = (random.below(2) as i32, random.between(2, 4) as i32);
            let object = any_object(random).into();
            plan.spans[SPAN_NUMBERS * d..][..4].copy_from_slice(&[1, lo, hi, object]);
        }
    }
}

/// Makes some links along an axis anew; each still undoes itself.
fn relink(random: &mut Random, plan: &mut Plan, axis: usize) {
    let (a, b) = (random.below(plan.count), random.below(plan.count));
    for d in [a, b] {
        let other = usize::from(plan.links[LINKS * d + axis]);
        if other < plan.count {
            plan.links[LINKS * other + axis] = other as u16;
        }
        plan.links[LINKS * d + axis] = d as u16;
    }
    if random.chance(70) {
        plan.links[LINKS * a + axis] = b as u16;
        plan.links[LINKS * b + axis] = a as u16;
    }
}

/// Makes a row bad: its count, an empty or reversed span, overlap, order, or an
/// object.
fn damage_row(random: &mut Random, row: &mut [i32]) {
    let [object, other] = [(); 2].map(|()| any_object(random).into());
    match random.below(6) {
        0 => row[0] = random.pick(&[-1, 9, i32::MIN, i32::MAX]),
        1 => row[..4].copy_from_slice(&[1, 3, 3, object]),
        2 => row[..4].copy_from_slice(&[1, 4, -4, object]),
        3 => row[..7].copy_from_slice(&[2, 0, 3, object, 2, 5, other]),
        4 => row[..4].copy_from_slice(&[1, 0, 3, no_object(random)]),
        _ => row[..7].copy_from_slice(&[2, 3, 5, object, 0, 3, object]),
    }
}

/// A number that is no object.
fn no_object(random: &mut Random) -> i32 {
    random.pick(&[-1, OBJECT_LIMIT, i32::MIN, i32::MAX])
}

/// The places of objects in a table of spans: those of spans in use, or those of
/// the others.
pub fn object_places(map: &Map, is_used: bool) -> Vec<usize> {
    let row = |d: usize| {
        let held = map.row(d).len();
        let spans = if is_used { 0..held } else { held..SPANS };
        spans.map(move |at| SPAN_NUMBERS * d + PER_SPAN * (at + 1))
    };
    (0..map.count()).flat_map(row).collect()
}

/// Tables of a map with spans, one of which has another number for its object.
pub fn with_object(random: &mut Random, object: i32) -> Plan {
    loop {
        let map = any_map(random);
        let mut plan = tables(random, &map);
        let used = object_places(&map, true);
        if !used.is_empty() {
            plan.spans[random.pick(&used)] = object;
            return plan;
        }
    }
}

/// Tables of a map where all spans have one object, and those that are not in use
/// another number.
pub fn with_objects(random: &mut Random, object: u16, unused: i32) -> Plan {
    loop {
        let map = any_map(random);
        let mut plan = tables(random, &map);
        let used = object_places(&map, true);
        for &at in &used {
            plan.spans[at] = object.into();
        }
        for at in object_places(&map, false) {
            plan.spans[at] = unused;
        }
        if !used.is_empty() {
            return plan;
        }
    }
}

/// Tables whose rows differ between neighbours, and in an object alone.
pub fn with_strangers(random: &mut Random) -> Plan {
    loop {
        let object = any_object(random);
        let plan = with_object(random, object.into());
        if check(&plan.raw()).number == ROWS_DIFFER {
            return plan;
        }
    }
}

/// Tables of a map, of which all rows of a top cell hold two spans that overlap, and
/// have nothing else wrong: of one object, or of two. They may touch a third.
pub fn with_overlap(random: &mut Random, is_of_one: bool) -> Plan {
    let map = any_map(random);
    let mut plan = tables(random, &map);
    let object = any_object(random);
    let other = if is_of_one { object } else { object ^ 1 };
    let (lo, hi) = random.pick(&[(2, 5), (1, 2), (0, 3), (0, 4), (1, 3), (-1, 1)]);
    let held = random.between(2, 3) as i32;
    let [object, other] = [object, other].map(i32::from);
    let mut numbers = [held, 0, 3, object, lo, hi, other, hi.max(3), 9, other];
    if lo < 0 {
        numbers[1..7].rotate_left(PER_SPAN);
    }
    let dart = random.below(map.count());
    for d in top_cell(&map, dart) {
        plan.spans[SPAN_NUMBERS * d..][..numbers.len()].copy_from_slice(&numbers);
    }
    plan
}

/// Tables that the check refuses by the given number.
pub fn damaged(random: &mut Random, number: u8) -> Plan {
    loop {
        let map = any_map(random);
        let mut plan = tables(random, &map);
        damage(random, &mut plan, number);
        if check(&plan.raw()).number == number {
            return plan;
        }
    }
}

/// The same with the first dart at fault above 0, so that it can be told from
/// a plain 0.
pub fn damaged_late(random: &mut Random, number: u8) -> Plan {
    loop {
        let plan = damaged(random, number);
        if check(&plan.raw()).value > 0 {
            return plan;
        }
    }
}

/// Tables with two faults that alone would be refused by different numbers,
/// the lower number at the higher dart whenever that can be had.
pub fn damaged_twice(random: &mut Random, low: u8, high: u8) -> Plan {
    let mut spare = None;
    for _ in 0..400 {
        let map = any_map(random);
        let sound = tables(random, &map);
        let mut late = sound.clone();
        damage(random, &mut late, high);
        let late_fault = check(&late.raw());
        damage(random, &mut late, low);
        let both = check(&late.raw());
        if late_fault.number == high && both.number == low {
            if both.value > late_fault.value {
                return late;
            }
            spare = Some(late);
        }
    }
    spare.unwrap_or_else(|| damaged(random, low))
}
