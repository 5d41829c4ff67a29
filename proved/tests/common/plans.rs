//! Plan tables for the calls that take them: sound, damaged, cut off, rubbish.

use proved::maps::{fan, grid, polygon, renumbered, tower};
use reference::cases::Plan;
use reference::map::Map;
use reference::random::Random;
use reference::raws::*;
use reference::refusal::*;
use reference::widths::*;

/// A number that no table reaches: about the limits of 16 bits and of a side,
/// the greatest there is, and numbers whose product with a row's width wraps
/// round to a small one.
pub fn huge(random: &mut Random, small: usize) -> usize {
    let width = random.pick(&[LINKS, COORDINATES, SPAN_NUMBERS, WORK]);
    let top = usize::BITS as usize - random.between(1, 4);
    match random.below(5) {
        0 => random.pick(&[DARTS, DARTS + 1, 65_535, 65_536, 65_537]),
        1 => usize::MAX - random.below(3),
        2 => usize::MAX / width + random.below(3),
        3 => (1 << top) + random.below(small + 1),
        _ => random.bits() as usize | 1 << 20,
    }
}

/// A dart: mostly of the rows there are, else the first ones beyond, or huge.
pub fn any_dart(random: &mut Random, rows: usize) -> usize {
    match random.below(8) {
        0 => rows + random.below(2),
        1 => huge(random, rows),
        _ => random.below(rows),
    }
}

/// A dimension: mostly one that is in range.
pub fn any_dimension(random: &mut Random) -> u8 {
    let most = random.pick(&[5, 5, 6, 255]);
    random.below(most + 1) as u8
}

/// Work as a call may find it; some of it looks like a set that has every dart
/// already.
pub fn any_work(random: &mut Random, count: usize, length: usize) -> Vec<u16> {
    let own = |at: usize| (at % count.max(1)) as u16;
    match random.below(5) {
        0 => vec![0; length],
        1 => vec![u16::MAX; length],
        2 => (0..length).map(own).collect(),
        3 => (0..length).rev().map(own).collect(),
        _ => (0..length)
            .map(|_| random.below(count.max(1)) as u16)
            .collect(),
    }
}

/// A small valid map of any dimension.
pub fn small_map(random: &mut Random) -> Map {
    match random.below(4) {
        0 => free_map(random, GREATEST_DIMENSION),
        _ => any_map(random),
    }
}

/// Sizes of a grid, each up to the given one.
pub fn sizes<const N: usize>(random: &mut Random, most: [usize; N]) -> [usize; N] {
    most.map(|most| random.between(1, most))
}

/// A valid map of up to some hundred darts, mostly with its darts in disorder.
pub fn larger_map(random: &mut Random) -> Map {
    let [few, many] = sizes(random, [9, 40]);
    let open = random.pick(&[0, 20, 60]);
    let [x, y, z] = sizes(random, [5, 5, 2]);
    let map = match random.below(9) {
        0 => polygon(random, many),
        1 => fan(random, few),
        2 => grid(random, &[many], open),
        3..=5 => grid(random, &[x, y], open),
        6 => grid(random, &[z, 1, z], open),
        7 => grid(random, &[1; 4], open),
        _ => any_tower(random),
    };
    match random.below(3) {
        0 => map,
        _ => renumbered(random, &map),
    }
}

/// A lift of a small map. Its rows are drawn anew, so it need not be low.
pub fn any_tower(random: &mut Random) -> Map {
    let [few, many] = sizes(random, [2, 6]);
    let plan = match random.below(4) {
        0 => polygon(random, many),
        1 => fan(random, few),
        2 => grid(random, &[few, few], 30),
        _ => grid(random, &[many], 30),
    };
    tower(random, plan)
}

/// Sound tables of a small map, of a larger one.
pub fn sound(random: &mut Random) -> Plan {
    let map = small_map(random);
    tables(random, &map)
}

pub fn sound_larger(random: &mut Random) -> Plan {
    let map = larger_map(random);
    tables(random, &map)
}

/// Tables refused by a given number, at any dart or not at the first.
pub fn refused(random: &mut Random) -> Plan {
    let number = random.between(LINK_BEYOND.into(), ROWS_DIFFER.into()) as u8;
    match random.below(4) {
        0 => damaged_late(random, number),
        _ => damaged(random, number),
    }
}

/// Tables with two faults.
pub fn refused_twice(random: &mut Random) -> Plan {
    let low = random.between(LINK_BEYOND.into(), BAD_ROW.into());
    let high = random.between(low + 1, ROWS_DIFFER.into());
    damaged_twice(random, low as u8, high as u8)
}

/// Overwrites one number anywhere in a table, used or not, by one that is near
/// what stood there, small, or rubbish.
pub fn overwrite(random: &mut Random, plan: &mut Plan) {
    let table = random.below(3);
    let near = random.below(5) as i32 - 2;
    if table == 0 && !plan.links.is_empty() {
        let at = random.below(plan.links.len());
        plan.links[at] = match random.below(3) {
            0 => plan.links[at].wrapping_add(near as u16),
            1 => random.below(plan.count.saturating_add(1)) as u16,
            _ => litter_u16(random, 1)[0],
        };
        return;
    }
    let numbers = match table {
        1 => &mut plan.places,
        _ => &mut plan.spans,
    };
    if !numbers.is_empty() {
        let at = random.below(numbers.len());
        numbers[at] = match random.below(2) {
            0 => numbers[at].wrapping_add(near),
            _ => litter_i32(random, 1)[0],
        };
    }
}

/// Tables of any map with one to four numbers overwritten.
pub fn overwritten(random: &mut Random) -> Plan {
    let mut plan = match random.below(2) {
        0 => sound(random),
        _ => sound_larger(random),
    };
    for _ in 0..random.between(1, 4) {
        overwrite(random, &mut plan);
    }
    plan
}

/// Sound tables with another dimension.
pub fn other_dimension(random: &mut Random) -> Plan {
    let mut plan = sound(random);
    plan.dimension = any_dimension(random);
    plan
}

/// Sound tables with another count: lower, a little higher, or huge.
pub fn other_count(random: &mut Random) -> Plan {
    let mut plan = sound(random);
    plan.count = match random.below(3) {
        0 => random.below(plan.count + 1),
        1 => plan.count + random.between(1, 3),
        _ => huge(random, plan.count),
    };
    plan
}

/// Sound tables, some of them cut off: by one number, or anywhere.
pub fn cut_off(random: &mut Random) -> Plan {
    let mut plan = sound(random);
    let cut = |random: &mut Random, length: usize, whole: usize| match random.below(4) {
        0 => random.below(length + 1),
        1 => whole.saturating_sub(1),
        _ => length,
    };
    let count = plan.count;
    let length = cut(random, plan.links.len(), LINKS * count);
    plan.links.truncate(length);
    let length = cut(random, plan.places.len(), COORDINATES * count);
    plan.places.truncate(length);
    let length = cut(random, plan.spans.len(), SPAN_NUMBERS * count);
    plan.spans.truncate(length);
    plan.work = cut(random, plan.work, WORK * count);
    plan
}

/// Tables of rubbish; links below the count now and then, so that later tests
/// are met.
pub fn rubbish(random: &mut Random) -> Plan {
    let rows = random.below(7);
    let more = random.below(LINKS);
    let count = match random.below(4) {
        0 => huge(random, rows),
        1 => rows + 1,
        _ => random.below(rows + 1),
    };
    let mut links = litter_u16(random, LINKS * rows + more);
    if random.chance(70) {
        links.fill_with(|| random.below(count.clamp(1, 4)) as u16);
    }
    Plan {
        links,
        places: litter_i32(random, COORDINATES * rows + more),
        spans: litter_i32(random, SPAN_NUMBERS * rows + more),
        work: WORK * rows + more,
        dimension: any_dimension(random),
        count,
    }
}

/// Free darts with full rows, the last of which may claim a ninth span; what
/// lies behind the row would pass for one.
pub fn ninth_span(random: &mut Random) -> Plan {
    let count = random.between(1, 3);
    let mut full = vec![SPANS as i32];
    for at in 0..SPANS as i32 {
        full.extend([2 * at - 40, 2 * at - 39, at]);
    }
    let mut spans = full.repeat(count);
    spans.extend([0, 1, 2]);
    spans[SPAN_NUMBERS * (count - 1)] += random.below(2) as i32;
    Plan {
        links: (0..LINKS * count).map(|at| (at / LINKS) as u16).collect(),
        places: litter_i32(random, COORDINATES * count),
        spans,
        work: WORK * count,
        dimension: random.between(1, 5) as u8,
        count,
    }
}

/// Tables that are wrong or right by an object: one out of 16 bits in a span in
/// use, or in spans that are not, the greatest one, rows that differ in one alone.
pub fn other_object(random: &mut Random) -> Plan {
    let wrong = random.pick(&[-1, OBJECT_LIMIT, i32::MIN, i32::MAX]);
    let used = random.pick(&[0, 1, u16::MAX]);
    match random.below(4) {
        0 => with_object(random, wrong),
        1 => with_strangers(random),
        _ => with_objects(random, used, wrong),
    }
}

/// Tables with a row in which spans of one object overlap, or of two.
pub fn overlapping(random: &mut Random) -> Plan {
    let is_of_one = random.chance(60);
    with_overlap(random, is_of_one)
}

/// A way to draw tables, and its share in a hundred.
pub type Share = (fn(&mut Random) -> Plan, usize);

/// The tables that the check is given.
pub const CHECKS: [Share; 12] = [
    (sound, 10),
    (sound_larger, 6),
    (refused, 18),
    (refused_twice, 4),
    (other_object, 6),
    (overwritten, 16),
    (other_dimension, 10),
    (other_count, 10),
    (cut_off, 8),
    (rubbish, 8),
    (ninth_span, 2),
    (overlapping, 2),
];
