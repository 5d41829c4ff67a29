//! The generator: one seed, one list of cases, small enough for an evaluator
//! that works slowly.

use crate::cases::{Case, LiftedTables, Plan};
use crate::join_scenes::*;
use crate::lift::{Lifted, lift};
use crate::map::Map;
use crate::object_scenes::*;
use crate::random::Random;
use crate::raws::*;
use crate::refusal::*;
use crate::run::{Lengths, trace};
use crate::scenes::*;
use crate::sketch::{LIFTED_DARTS, PLAN_DARTS, Sketch};
use crate::span;
use crate::table::write_links;
use crate::widths::*;

/// A scene and how many runs are drawn of it.
pub type Share = (fn(&mut Sketch), usize);

/// The runs of a draw by scene.
pub const SHARES: [Share; 39] = [
    (on_a_line, 24),
    (on_a_sheet, 14),
    (in_space, 14),
    (in_time, 12),
    (around, 14),
    (edges, 10),
    (sews, 16),
    (wide_sews, 20),
    (unpairable, 7),
    (unlike, 6),
    (far_ends, 7),
    (orders, 8),
    (twist, 8),
    (climb, 36),
    (shrink, 6),
    (summit, 6),
    (full_row, 8),
    (spans, 8),
    (side_by_side, 8),
    (strangers, 6),
    (far_strangers, 4),
    (inherit, 6),
    (overreach, 6),
    (refused_spans, 5),
    (cut_object, 6),
    (over_some, 16),
    (chain, 8),
    (touching, 10),
    (clashes, 10),
    (full_row_joined, 8),
    (swallowed, 6),
    (far_joins, 9),
    (made_equal, 6),
    (rebuilt, 6),
    (too_early, 6),
    (anything, 6),
    (unknown, 5),
    (cut, 6),
    (jumble, 4),
];

/// How many of the runs are lent what the program has.
const PROGRAM_RUNS: usize = 10;
/// How many runs on tables are drawn.
const TABLE_RUNS: usize = 26;
/// The turns of more of them, of spans that are joined: one span alone, two in
/// three ways, and more.
const JOINED_TABLES: [usize; 7] = [0, 1, 4, 15, 2, 3, 7];
/// Lifted maps above this are kept rarely.
const COMFORTABLE: usize = 31;

/// All cases of a seed.
pub fn draw(seed: u64) -> Vec<Case> {
    let random = &mut Random::new(seed);
    let mut cases = Vec::new();
    draw_runs(random, &mut cases);
    draw_tables(random, &mut cases);
    draw_prints(random, &mut cases);
    draw_checks(random, &mut cases);
    draw_lifts(random, &mut cases);
    draw_pieces(random, &mut cases);
    draw_rows(random, &mut cases);
    draw_loosenesses(random, &mut cases);
    cases
}

/// The greatest counts of both sides and the commands taken, over a run.
fn peaks(bytes: &[u8], plan: usize, lifted: usize) -> (usize, usize, usize) {
    let seen = trace(bytes, plan, lifted, usize::MAX);
    let plans = seen.iter().map(|t| t.plan.count()).max();
    let lifts = seen.iter().map(|t| t.lifted.map.count()).max();
    (plans.unwrap_or(0), lifts.unwrap_or(0), seen.len())
}

/// Whether the maps of a run are small enough to be followed slowly.
fn is_small(bytes: &[u8], plan: usize, lifted: usize) -> bool {
    let (plans, lifts, _) = peaks(bytes, plan, lifted);
    plans <= PLAN_DARTS && lifts <= LIFTED_DARTS
}

/// Whether a run is kept: one with a large lift is kept only now and then.
fn is_kept(random: &mut Random, bytes: &[u8]) -> bool {
    let (_, lifts, _) = peaks(bytes, PLAN_DARTS, LIFTED_DARTS);
    lifts <= COMFORTABLE || random.chance(25)
}

/// The bytes of a scene, at one of its turns.
fn sketch(random: &mut Random, scene: fn(&mut Sketch), turn: usize) -> Vec<u8> {
    let mut sketch = Sketch::new(random);
    sketch.turn = turn;
    scene(&mut sketch);
    sketch.bytes
}

/// Draws a scene until its maps are small in the room chosen for it. Whether
/// it is kept is settled before the room is, so that tight rooms are not
/// preferred for making maps small.
fn small_run(random: &mut Random, scene: fn(&mut Sketch), turn: usize, program: bool) -> Case {
    loop {
        let bytes = sketch(random, scene, turn);
        if !is_kept(random, &bytes) {
            continue;
        }
        let (plan, lifted, reply) = match program {
            true => (PROGRAM_PLAN, PROGRAM_LIFTED, PROGRAM_REPLY),
            false => room_for(random, &bytes),
        };
        if is_small(&bytes, plan, lifted) {
            return Case::run(bytes, plan, lifted, reply);
        }
    }
}

/// Room for a run: mostly exactly what it needs or a little more, sometimes
/// one too few, rarely more than a side may have.
fn room_for(random: &mut Random, bytes: &[u8]) -> (usize, usize, usize) {
    let (plan, lifted, taken) = peaks(bytes, PLAN_DARTS, LIFTED_DARTS);
    let fit = |random: &mut Random, need: usize| match random.below(20) {
        0 => need.saturating_sub(1),
        1..=8 => need,
        9 => random.pick(&[DARTS, DARTS + 1, 100_000]),
        _ => need + random.between(1, 4),
    };
    let reply = match random.below(12) {
        0 => random.below(REPLY_BYTES * taken + 1),
        1..=4 => REPLY_BYTES * taken,
        _ => REPLY_BYTES * taken + random.between(1, 7),
    };
    (fit(random, plan), fit(random, lifted), reply)
}

/// Runs of all scenes. The first of some scenes are lent the program's room.
fn draw_runs(random: &mut Random, cases: &mut Vec<Case>) {
    let mut program_runs = 0;
    for (scene, times) in SHARES {
        for at in 0..times {
            let program = at == 0 && program_runs < PROGRAM_RUNS;
            program_runs += usize::from(program);
            cases.push(small_run(random, scene, at, program));
        }
    }
    cases.push(Case::run(Vec::new(), 0, 0, 0));
    cases.push(Case::run(vec![0x10, 0x01, 0x11], 0, 0, 2));
    cases.push(Case::run(vec![0x10, 0x02, 0x11, 0x17, 0x18], 0, 0, 12));
}

/// A table length with room for so many rows: exactly, or with part of a row
/// or whole rows more.
fn ragged(random: &mut Random, width: usize, rows: usize) -> usize {
    let more = random.pick(&[0, 0, 0, 1, width - 1, width, width + 1]);
    width * rows + more
}

/// The widths of the lifted side's tables: links, places, objects, work.
const LIFTED_WIDTHS: [usize; 4] = [LINKS, COORDINATES, OBJECTS, WORK];

/// Lengths of tables with the given widths for so many rows. Often one table
/// alone sets the capacity and all others have a row more.
fn side_lengths<const N: usize>(
    random: &mut Random,
    widths: [usize; N],
    rows: usize,
) -> [usize; N] {
    let mut lengths = widths.map(|width| ragged(random, width, rows));
    if random.chance(60) {
        let shortest = random.below(N);
        lengths = widths.map(|width| ragged(random, width, rows + 1));
        lengths[shortest] = widths[shortest] * rows + random.below(widths[shortest]);
    }
    lengths
}

/// Lengths of the eight tables for given rows on each side.
pub fn lengths(random: &mut Random, plan: usize, lifted: usize) -> Lengths {
    let [plan_links, plan_places, plan_spans, plan_work] =
        side_lengths(random, [LINKS, COORDINATES, SPAN_NUMBERS, WORK], plan);
    let [lifted_links, lifted_places, lifted_objects, lifted_work] =
        side_lengths(random, LIFTED_WIDTHS, lifted);
    Lengths {
        plan_links,
        plan_places,
        plan_spans,
        plan_work,
        lifted_links,
        lifted_places,
        lifted_objects,
        lifted_work,
    }
}

/// A run on tables of a few rows, with rubbish in the reply memory.
fn small_tables(random: &mut Random, scene: fn(&mut Sketch), turn: usize) -> Case {
    loop {
        let bytes = sketch(random, scene, turn);
        let (plan, lifted, taken) = peaks(&bytes, PLAN_DARTS, LIFTED_DARTS);
        let plan = random.pick(&[plan, plan, plan + 1, plan.saturating_sub(1)]);
        let lifted = match random.below(4) {
            0 => random.below(9),
            1 => lifted + 1,
            _ => lifted,
        };
        if plan > 8 || lifted > 16 {
            continue;
        }
        let length = match random.below(5) {
            0 => random.below(REPLY_BYTES * taken + 1),
            _ => REPLY_BYTES * taken + random.below(6),
        };
        let before = (0..length).map(|_| random.bits() as u8).collect();
        return Case::tables(bytes, lengths(random, plan, lifted), before);
    }
}

/// A run on tables where that of the objects alone sets the lifted side's capacity:
/// just what the run needs, or so many rows less.
fn object_tables(random: &mut Random, scene: fn(&mut Sketch), missing: usize) -> Case {
    loop {
        let bytes = sketch(random, scene, 0);
        let (plan, lifted, taken) = peaks(&bytes, PLAN_DARTS, LIFTED_DARTS);
        if lifted > 16 {
            continue;
        }
        let mut lengths = lengths(random, plan, lifted + 1);
        lengths.lifted_objects = OBJECTS * (lifted - missing);
        let before = (0..REPLY_BYTES * taken).map(|_| random.bits() as u8);
        return Case::tables(bytes, lengths, before.collect());
    }
}

/// A run on tables with just the rows and replies that it needs, after which a row
/// may be shorter than it was: what stood behind it must be gone.
fn joined_tables(random: &mut Random, turn: usize) -> Case {
    loop {
        let bytes = sketch(random, over_some, turn);
        let (plan, lifted, taken) = peaks(&bytes, PLAN_DARTS, LIFTED_DARTS);
        if lifted <= 16 {
            let lengths = lengths(random, plan, lifted);
            let before = (0..REPLY_BYTES * taken).map(|_| random.bits() as u8);
            return Case::tables(bytes, lengths, before.collect());
        }
    }
}

/// Runs on tables of many scenes, and one without a byte.
fn draw_tables(random: &mut Random, cases: &mut Vec<Case>) {
    let scenes = [
        on_a_line,
        on_a_sheet,
        edges,
        climb,
        sews,
        spans,
        too_early,
        anything,
        cut,
        shrink,
        shrink,
        side_by_side,
        strangers,
    ];
    for at in 0..TABLE_RUNS {
        cases.push(small_tables(random, scenes[at % scenes.len()], at));
    }
    for scene in [side_by_side, inherit, overreach] {
        for missing in [0, 0, 1] {
            cases.push(object_tables(random, scene, missing));
        }
    }
    for turn in JOINED_TABLES {
        cases.push(joined_tables(random, turn));
    }
    let before = vec![7; 5];
    cases.push(Case::tables(Vec::new(), lengths(random, 1, 1), before));
}

/// Inputs of the program: small runs, none at all, the longest that is run
/// (it breaks off at once) and the first that is not.
fn draw_prints(random: &mut Random, cases: &mut Vec<Case>) {
    for scene in [
        on_a_line, edges, sews, climb, summit, spans, over_some, too_early, unknown, cut,
    ] {
        if let Case::Run { bytes, .. } = small_run(random, scene, 0, true) {
            cases.push(Case::prints(bytes));
        }
    }
    cases.push(Case::prints(Vec::new()));
    cases.push(Case::prints(vec![0x00; PROGRAM_BYTES]));
    cases.push(Case::prints(vec![0x11; PROGRAM_BYTES + 1]));
}

/// Tables whose count is above their capacity: one table a number short, or
/// a count that no table of this size could hold.
fn over_capacity(random: &mut Random, way: usize) -> Plan {
    let map = any_map(random);
    let mut plan = tables(random, &map);
    let count = plan.count;
    match way {
        0 => plan.links.truncate(LINKS * count - 1),
        1 => plan.places.truncate(COORDINATES * count - 1),
        2 => plan.spans.truncate(SPAN_NUMBERS * count - 1),
        3 => plan.work = WORK * count - 1,
        _ => plan.count = random.pick(&[count + 7, DARTS, DARTS + 1, 65_536, 1_000_000]),
    }
    plan
}

/// Tables without a dart in use, in rubbish or in none at all.
fn no_darts(random: &mut Random, dimension: u8) -> Plan {
    let rows = random.below(2);
    Plan {
        links: litter_u16(random, LINKS * rows),
        places: litter_i32(random, COORDINATES * rows),
        spans: litter_i32(random, SPAN_NUMBERS * rows),
        work: WORK * rows,
        dimension,
        count: 0,
    }
}

/// Sound tables with the dimension replaced.
fn of_dimension(random: &mut Random, dimension: u8) -> Plan {
    let map = any_map(random);
    let mut plan = tables(random, &map);
    plan.dimension = dimension;
    plan
}

/// Tables about objects: one too high and one too low in a span in use (10) and
/// in spans that are not (accepted), the greatest one (accepted), and rows that
/// differ in an object alone (11).
fn object_plans(random: &mut Random) -> Vec<Plan> {
    let mut plans = Vec::new();
    for object in [OBJECT_LIMIT, -1] {
        plans.push(with_object(random, object));
        let used = any_object(random);
        plans.push(with_objects(random, used, object));
    }
    plans.push(with_objects(random, u16::MAX, 0));
    plans.push(with_strangers(random));
    plans.push(with_strangers(random));
    plans
}

/// Tables with rows that overlap within one object, and of two: the check joins
/// nothing (10).
fn overlap_plans(random: &mut Random) -> Vec<Plan> {
    let of_one = [true, true, false];
    of_one.map(|of_one| with_overlap(random, of_one)).into()
}

/// Check calls: sound tables, each fault, two faults at once, and what is
/// refused before any dart is looked at.
fn draw_checks(random: &mut Random, cases: &mut Vec<Case>) {
    for _ in 0..8 {
        let map = any_map(random);
        cases.push(Case::check(tables(random, &map)));
    }
    for _ in 0..2 {
        let map = free_map(random, GREATEST_DIMENSION);
        cases.push(Case::check(tables(random, &map)));
    }
    cases.push(Case::check(no_darts(random, 3)));
    for number in LINK_BEYOND..=ROWS_DIFFER {
        for _ in 0..3 {
            cases.push(Case::check(damaged(random, number)));
        }
        if number < ROWS_DIFFER {
            let any = random.between(usize::from(number) + 1, ROWS_DIFFER.into()) as u8;
            for high in [number + 1, any] {
                cases.push(Case::check(damaged_twice(random, number, high)));
            }
        }
    }
    for plan in object_plans(random) {
        cases.push(Case::check(plan));
    }
    for plan in overlap_plans(random) {
        cases.push(Case::check(plan));
    }
    for dimension in [0, 6, 255] {
        cases.push(Case::check(of_dimension(random, dimension)));
    }
    for way in 0..5 {
        cases.push(Case::check(over_capacity(random, way)));
    }
}

/// A lift call with so many lifted rows.
fn lift_case(random: &mut Random, plan: Plan, rows: usize) -> Case {
    let lengths = side_lengths(random, LIFTED_WIDTHS, rows);
    lift_into(random, plan, lengths)
}

/// A lift call with one of the four lifted tables a number short of the rows.
fn short_lift_case(random: &mut Random, plan: Plan, rows: usize, short: usize) -> Case {
    let mut lengths = LIFTED_WIDTHS.map(|width| ragged(random, width, rows));
    lengths[short] = (LIFTED_WIDTHS[short] * rows).saturating_sub(1);
    lift_into(random, plan, lengths)
}

/// A lift call with lifted tables of the given lengths, full of rubbish.
fn lift_into(random: &mut Random, plan: Plan, lengths: [usize; 4]) -> Case {
    let [links, places, objects, work] = lengths;
    let before = LiftedTables {
        links: litter_u16(random, links),
        places: litter_i32(random, places),
        objects: litter_u16(random, objects),
        work,
    };
    Case::lift(plan, before)
}

/// A map with a lift of at least one dart and not too many, and its size.
fn liftable(random: &mut Random) -> (Map, usize) {
    loop {
        let map = any_map(random);
        let most = if random.chance(20) { LIFTED_DARTS } else { 24 };
        let size = lift(&map, most).map_or(0, |lifted| lifted.map.count());
        if size > 0 {
            return (map, size);
        }
    }
}

/// Lift calls about objects: tables as they are wrong and right by an object, and
/// a table of objects that is just long enough, or one row short, where all the
/// others have rows to spare.
fn draw_object_lifts(random: &mut Random, cases: &mut Vec<Case>) {
    for plan in object_plans(random) {
        cases.push(lift_case(random, plan, LIFTED_DARTS));
    }
    for missing in [0, 0, 1, 1] {
        let (map, size) = liftable(random);
        let plan = tables(random, &map);
        let [links, places, _, work] = LIFTED_WIDTHS.map(|width| width * (size + 1));
        let lengths = [links, places, OBJECTS * (size - missing), work];
        cases.push(lift_into(random, plan, lengths));
    }
}

/// Lift calls: exactly enough room, more, one row too few, and refusals.
fn draw_lifts(random: &mut Random, cases: &mut Vec<Case>) {
    for at in 0..20 {
        let (map, size) = liftable(random);
        let rows = size + usize::from(at % 3 == 0);
        let plan = tables(random, &map);
        cases.push(lift_case(random, plan, rows));
    }
    for short in [0, 1, 2, 3] {
        let (map, size) = liftable(random);
        let plan = tables(random, &map);
        cases.push(short_lift_case(random, plan, size, short));
    }
    draw_object_lifts(random, cases);
    for plan in overlap_plans(random) {
        cases.push(lift_case(random, plan, LIFTED_DARTS));
    }
    let plan = no_darts(random, 2);
    cases.push(lift_case(random, plan, 2));
    for number in LINK_BEYOND..=ROWS_DIFFER {
        let plan = damaged_late(random, number);
        let rows = random.below(3);
        cases.push(lift_case(random, plan, rows));
    }
    for dimension in [0, 6, 5] {
        let plan = of_dimension(random, dimension);
        cases.push(lift_case(random, plan, 1));
    }
    let mut deep = over_capacity(random, 0);
    deep.dimension = GREATEST_DIMENSION as u8;
    cases.push(lift_case(random, deep, 1));
    for way in [2, 3] {
        let plan = over_capacity(random, way);
        cases.push(lift_case(random, plan, 2));
    }
}

/// A pieces call with memory for all pairs and so many numbers more; one fewer
/// when `short` is set and there is a pair.
fn pieces_case(random: &mut Random, map: &Map, more: usize, short: bool) -> Case {
    let dart = random.below(map.count());
    let axis = random.below(map.dim + 1);
    let need = PAIR * span::pieces(map, dart, axis).len();
    let length = if short {
        need.saturating_sub(1)
    } else {
        need + more
    };
    let memory = litter_i32(random, length);
    let plan = tables(random, map);
    Case::pieces(plan, dart, axis as u8, memory)
}

/// Pieces calls: exactly enough memory, more, one number too few, dimension 5,
/// and each refusal; a faulty table is reported before a bad axis.
fn draw_pieces(random: &mut Random, cases: &mut Vec<Case>) {
    for at in 0..22 {
        let map = match at {
            0..=1 => free_map(random, GREATEST_DIMENSION),
            _ => liftable(random).0,
        };
        let more = if at % 3 == 0 { random.below(4) } else { 0 };
        cases.push(pieces_case(random, &map, more, at >= 18));
    }
    for plan in object_plans(random) {
        cases.push(Case::pieces(plan, 0, 0, vec![8; 40]));
    }
    for plan in overlap_plans(random) {
        cases.push(Case::pieces(plan, 0, 0, vec![6; 40]));
    }
    for number in LINK_BEYOND..=ROWS_DIFFER {
        let plan = damaged_late(random, number);
        let axis = random.pick(&[0, 1, 255]);
        cases.push(Case::pieces(plan, 0, axis, vec![5; 4]));
    }
    for (dart_beyond, axis) in [(0, 6), (0, 255), (1, 0), (1, 9), (60_000, 1)] {
        let map = any_map(random);
        let plan = tables(random, &map);
        let dart = map.count() * usize::from(dart_beyond > 0) + dart_beyond.max(1) - 1;
        cases.push(Case::pieces(plan, dart, axis, vec![-3; 6]));
    }
    let plan = no_darts(random, 1);
    cases.push(Case::pieces(plan, 0, 1, vec![1; 2]));
    let plan = of_dimension(random, 0);
    cases.push(Case::pieces(plan, 0, 0, vec![1; 2]));
    let plan = over_capacity(random, 3);
    cases.push(Case::pieces(plan, 0, 0, vec![1; 2]));
}

/// Row calls: both sides, rows of maps and rubbish, beyond the rows, another
/// side.
fn draw_rows(random: &mut Random, cases: &mut Vec<Case>) {
    for at in 0..14 {
        let (map, size) = liftable(random);
        let lifted = lift(&map, size).unwrap_or_else(Lifted::blank).map;
        let plan_length = ragged(random, LINKS, map.count());
        let lifted_length = ragged(random, LINKS, size);
        let mut plan_links = write_links(&map, plan_length);
        let lifted_links = write_links(&lifted, lifted_length);
        if at == 13 {
            plan_links.clear();
        }
        let side = random.pick(&[0, 0, 1, 1, 1, 2, 255]);
        let rows = [plan_links.len() / LINKS, lifted_links.len() / LINKS];
        let whole = rows[usize::from(side == 1)];
        let dart = match random.below(5) {
            0 => whole,
            1 => random.pick(&[whole + 1, 65_535]),
            _ => random.below(whole),
        };
        cases.push(Case::row(plan_links, lifted_links, side, dart));
    }
}

/// Looseness calls: rows of maps and rubbish, every dimension, beyond the
/// rows.
fn draw_loosenesses(random: &mut Random, cases: &mut Vec<Case>) {
    for dimension in [0, 6, 255, 1, 2, 3, 4, 5, 5] {
        let map = any_map(random);
        let links = tables(random, &map).links;
        let dart = random.below(map.count());
        cases.push(Case::looseness(links, dimension, dart));
    }
    for _ in 0..8 {
        let map = any_map(random);
        let links = tables(random, &map).links;
        let rows = links.len() / LINKS;
        let dart = match random.below(3) {
            0 => random.pick(&[rows, rows + 1, 70_000]),
            _ => random.below(rows),
        };
        cases.push(Case::looseness(links, map.dim as u8, dart));
    }
    cases.push(Case::looseness(vec![9; 5], 2, 0));
}
