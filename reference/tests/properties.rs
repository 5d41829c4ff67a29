//! What holds after every run and for every valid plan, tried on many drawn
//! ones.

mod common;

use reference::calls;
use reference::cases::{Case, LiftedTables};
use reference::command::Command;
use reference::draw::draw;
use reference::lift::{Lifted, lift};
use reference::map::{Map, is_valid};
use reference::orbit::count_cells;
use reference::random::Random;
use reference::raws::{any_map, free_map, tables};
use reference::run::{Ended, run, trace};
use reference::scenes::{sews, twist, unpairable, wide_sews};
use reference::sew::{distant_axes, pairing, partners};
use reference::sketch::Sketch;
use reference::span::{ends, pieces, spans_around};
use reference::table::Raw;
use std::collections::BTreeMap;

/// The accounts of a run agree with its replies.
fn accounts_agree(ended: &Ended) {
    let accepted = ended.replies.iter().filter(|r| r.number == 0).count();
    assert_eq!(ended.taken, ended.replies.len());
    assert_eq!(ended.accepted, accepted);
    assert_eq!(ended.taken, ended.accepted + ended.refused);
    assert!([0, 1, 2, 23].contains(&ended.number));
    assert!(ended.replies.iter().all(|r| r.number == 0 || r.value == 0));
}

/// Pieces around each cell: apart, covering exactly what the spans cover, and
/// fewer than twice the spans.
fn pieces_are_right(map: &Map) {
    for dart in 0..map.count() {
        for axis in 0..=map.dim {
            let found = pieces(map, dart, axis);
            let around = spans_around(map, dart, axis);
            assert!(found.len() < 2 * around || (found.is_empty() && around == 0));
            assert!(found.windows(2).all(|w| w[0].hi <= w[1].lo));
            let heights: Vec<i32> = ends(map, dart, axis).into_iter().collect();
            let members = reference::orbit::cell(map, dart, axis);
            for pair in heights.windows(2) {
                let inside = |lo: i32, hi: i32| lo <= pair[0] && pair[1] <= hi;
                let by_spans = members
                    .iter()
                    .any(|&e| map.row(e).iter().any(|s| inside(s.lo, s.hi)));
                let by_pieces = found.iter().any(|s| inside(s.lo, s.hi));
                assert_eq!(by_spans, by_pieces);
            }
        }
    }
}

/// Each lifted dart carries an object, and those of one top cell the same: only
/// the top axis leads from one span to another.
fn top_cells_have_one_object(lifted: &Lifted) {
    let Lifted { map, objects } = lifted;
    assert_eq!(objects.len(), map.count());
    for dart in 0..map.count() {
        let mut cell = reference::orbit::top_cell(map, dart).into_iter();
        assert!(cell.all(|e| objects[e] == objects[dart]), "{lifted:?}");
    }
}

/// Follows a run command by command.
fn follow(bytes: &[u8], plan: usize, lifted: usize, reply: usize) {
    let ended = run(bytes, plan, lifted, reply);
    accounts_agree(&ended);
    let mut lifted_then = Lifted::blank();
    for taken in trace(bytes, plan, lifted, reply) {
        assert!(is_valid(&taken.plan), "{taken:?}");
        assert!(is_valid(&taken.lifted.map), "{taken:?}");
        top_cells_have_one_object(&taken.lifted);
        let accepted = taken.reply.number == 0;
        if !accepted {
            assert_eq!(taken.plan, taken.plan_before);
        }
        if taken.command == Command::Lift && accepted {
            lifted_then = lift(&taken.plan_before, usize::MAX).expect("a lift");
        }
        assert_eq!(taken.lifted, lifted_then);
    }
    assert_eq!(ended.lifted, lifted_then);
    pieces_are_right(&ended.plan);
}

#[test]
fn drawn_runs_keep_both_maps_valid() {
    for seed in 100..110 {
        for case in draw(seed) {
            match case {
                Case::Run {
                    bytes,
                    plan_capacity,
                    lifted_capacity,
                    reply_length,
                    ..
                } => follow(&bytes, plan_capacity, lifted_capacity, reply_length),
                Case::Tables {
                    bytes,
                    lengths,
                    before,
                    ..
                } => follow(
                    &bytes,
                    lengths.plan_capacity(),
                    lengths.lifted_capacity(),
                    before.len(),
                ),
                _ => {}
            }
        }
    }
}

#[test]
fn wild_bytes_keep_both_maps_valid() {
    let random = &mut Random::new(5);
    let liked = [
        0x10, 0x11, 0x11, 0x12, 0x13, 0x14, 0x15, 0x16, 0x17, 0x18, 0x19, 0x1a,
    ];
    for _ in 0..3_000 {
        let mut bytes = vec![0x10, random.between(1, 4) as u8, 0x11, 0x11, 0x11];
        for _ in 0..random.below(120) {
            let byte = match random.below(3) {
                0 => random.pick(&liked),
                1 => 0,
                _ => random.below(4) as u8,
            };
            bytes.push(byte);
        }
        let (plan, lifted) = (random.below(12), random.below(60));
        let reply = random.below(200);
        follow(&bytes, plan, lifted, reply);
    }
}

#[test]
fn lifts_of_valid_plans_are_valid() {
    let random = &mut Random::new(6);
    for _ in 0..1_500 {
        let map = any_map(random);
        assert!(is_valid(&map));
        pieces_are_right(&map);
        let lifted = lift(&map, usize::MAX).expect("a lift");
        top_cells_have_one_object(&lifted);
        let lifted = lifted.map;
        assert!(is_valid(&lifted), "{map:?}");
        assert_eq!(lifted.dim, map.dim + 1);
        let spans: usize = (0..map.count())
            .filter(|&d| reference::orbit::top_cell(&map, d).first() == Some(&d))
            .map(|d| map.row(d).len())
            .sum();
        assert_eq!(count_cells(&lifted, lifted.dim), spans);
    }
}

/// Changes a link, a place, a row or an object, or nothing.
fn spoil(random: &mut Random, map: &mut Map) {
    let d = random.below(map.count());
    let (axis, e) = (random.below(map.dim + 1), random.below(map.count()));
    match random.below(8) {
        0 => map.darts[d].links[axis] = e,
        1 => map.darts[d].links[axis] = map.count() + e,
        2 | 3 if map.is_free(d, axis) && map.is_free(e, axis) => common::swap(map, axis, d, e),
        4 => map.darts[d].place[random.below(map.dim)] ^= 1,
        5 => {
            map.darts[d].row.pop();
        }
        6 => map.darts[d].row.extend(common::row(&[(2, 3)])),
        7 => {
            let first = map.darts[d].row.first_mut();
            first.into_iter().for_each(|span| span.object ^= 1);
        }
        _ => {}
    }
}

#[test]
fn a_table_is_accepted_exactly_when_valid() {
    let random = &mut Random::new(7);
    let mut met = [0; 12];
    for _ in 0..6_000 {
        let dim = random.between(1, 5);
        let mut map = free_map(random, dim);
        spoil(random, &mut map);
        let plan = tables(random, &map);
        let answer = calls::check(&plan.raw());
        assert_eq!(answer.number == 0, is_valid(&map), "{map:?}");
        met[usize::from(answer.number)] += 1;
    }
    assert!(
        [0, 6, 7, 8, 9, 10, 11].iter().all(|&n| met[n] > 20),
        "{met:?}"
    );
}

#[test]
fn no_raw_table_stops_a_call() {
    let random = &mut Random::new(8);
    for _ in 0..4_000 {
        let [links, places, spans, work] = [40, 30, 80, 20].map(|most| random.below(most));
        let few = |random: &mut Random| random.pick(&[-1, 0, 0, 1, 2, 3, i32::MIN, i32::MAX]);
        let links: Vec<u16> = (0..links).map(|_| few(random) as u16).collect();
        let places: Vec<i32> = (0..places).map(|_| few(random)).collect();
        let spans: Vec<i32> = (0..spans).map(|_| few(random)).collect();
        let raw = Raw {
            links: &links,
            places: &places,
            spans: &spans,
            work,
            dimension: random.pick(&[0, 1, 1, 1, 2, 3, 4, 5, 6, 255]),
            count: random.pick(&[0, 1, 1, 2, 2, 3, 16_384, 16_385, usize::MAX]),
        };
        let dart = random.pick(&[0, 1, 2, 65_535, usize::MAX]);
        let axis = random.pick(&[0, 1, 2, 5, 6, 255]);
        let mut memory = vec![0; random.below(9)];
        calls::check(&raw);
        calls::pieces(&raw, dart, axis, &mut memory);
        calls::row(&links, &links, axis, dart);
        calls::looseness(&links, axis, dart);
        let mut lifted = LiftedTables {
            links: vec![0; 61],
            places: vec![0; 55],
            objects: vec![0; random.below(12)],
            work: work * 4,
        };
        calls::lift(&raw, lifted.lent());
    }
}

#[test]
fn calls_on_sound_tables_agree_with_the_map() {
    let random = &mut Random::new(9);
    for _ in 0..500 {
        let map = any_map(random);
        let plan = tables(random, &map);
        assert_eq!(plan.raw().map(), map);
        let Lifted {
            map: lifted,
            objects,
        } = lift(&map, usize::MAX).expect("a lift");
        let rows = lifted.count();
        let mut lent = common::lifted_tables(rows, 3);
        let answer = calls::lift(&plan.raw(), lent.lent());
        assert_eq!((answer.number, answer.value), (0, rows));
        assert_eq!(lent.objects, objects);
        let links = lent.links;
        for d in 0..rows {
            let part = calls::row(&[], &links, 1, d);
            let wanted: Vec<u16> = (0..6).map(|i| lifted.link(d, i) as u16).collect();
            assert_eq!(part, wanted);
            let loose = calls::looseness(&links, lifted.dim as u8, d);
            let free = (0..=lifted.dim).filter(|&i| lifted.is_free(d, i)).count();
            assert_eq!(loose.ones as usize, free);
        }
    }
}

/// All one-to-one maps of a list onto another of the same length.
fn all_pairings(from: &[usize], onto: &[usize]) -> Vec<BTreeMap<usize, usize>> {
    let Some((&first, rest)) = from.split_first() else {
        return vec![BTreeMap::new()];
    };
    let mut all = Vec::new();
    for (at, &image) in onto.iter().enumerate() {
        let mut others = onto.to_vec();
        others.remove(at);
        for mut found in all_pairings(rest, &others) {
            found.insert(first, image);
            all.push(found);
        }
    }
    all
}

/// The pairing found by trying every one-to-one map.
fn tried_pairing(map: &Map, i: usize, a: usize, b: usize) -> Option<BTreeMap<usize, usize>> {
    let list = |dart| partners(map, i, dart).into_iter().collect::<Vec<usize>>();
    let (from, onto) = (list(a), list(b));
    if from.len() != onto.len() || from.iter().any(|d| onto.contains(d)) {
        return None;
    }
    let far = distant_axes(map, i);
    let fits = |f: &BTreeMap<usize, usize>| {
        let commutes = |d: usize, j: usize| f[&map.link(d, j)] == map.link(f[&d], j);
        f[&a] == b && from.iter().all(|&d| far.iter().all(|&j| commutes(d, j)))
    };
    let mut fitting = all_pairings(&from, &onto).into_iter().filter(fits);
    let found = fitting.next();
    assert!(fitting.next().is_none(), "a second pairing");
    found
}

#[test]
fn a_pairing_is_found_exactly_when_there_is_one() {
    let random = &mut Random::new(10);
    let (mut some, mut none, mut wide) = (0, 0, 0);
    for _ in 0..300 {
        let mut sketch = Sketch::new(random);
        let scene = sketch.random.pick(&[sews, wide_sews, unpairable, twist]);
        scene(&mut sketch);
        let map = &sketch.paper.plan;
        for i in 0..=map.dim {
            for a in 0..map.count() {
                for b in 0..map.count() {
                    let found = pairing(map, i, a, b);
                    assert_eq!(found, tried_pairing(map, i, a, b));
                    match found {
                        None => none += 1,
                        Some(f) if f.len() > 1 => wide += 1,
                        Some(_) => some += 1,
                    }
                }
            }
        }
    }
    assert!(
        some > 500 && none > 500 && wide > 100,
        "{some} {none} {wide}"
    );
}

#[test]
fn a_lift_that_no_table_holds_is_refused() {
    // Many parcels around one corner, each with eight spans of its own.
    let parcels = 400;
    let mut wide = common::free_map(4, 2 * parcels);
    for p in 0..parcels {
        common::swap(&mut wide, 3, 2 * p, 2 * p + 1);
        common::swap(&mut wide, 4, 2 * p + 1, (2 * p + 2) % (2 * parcels));
        let at = 8 * p as i32;
        let spans: Vec<(i32, i32)> = (at..at + 8).map(|lo| (lo, lo + 1)).collect();
        wide.darts[2 * p].row = common::row(&spans);
        wide.darts[2 * p + 1].row = common::row(&spans);
    }
    assert!(lift(&wide, 16_384).is_none());
}
