//! The proved lift held against the reference, on seeded plans of dimension 1 to
//! 4 and on tables that are refused. All tables are lent with rubbish in them and
//! around them and compared whole afterwards.

mod common;

use common::lent::*;
use common::plans::*;
use laremban::{Refusal, Refused};
use proved::maps::{fan, grid, interleaved, polygon, renumbered, tower, wedges, with_rows};
use proved::{Answer, LiftedMut, Tables};
use reference::calls;
use reference::cases::{Case, LiftedTables, Plan, write};
use reference::lift::{Lifted, lift, names};
use reference::map::{Map, Span};
use reference::random::Random;
use reference::raws::*;
use reference::refusal::*;
use reference::scenes::any_object;
use reference::table::lifted_capacity;
use reference::widths::*;
use std::collections::BTreeMap;

/// How many sound plans are lifted.
const PLANS: usize = 50_000;
/// How many other tables the call is given.
const OTHERS: usize = 24_000;
/// How often each kind has to be met.
const LEAST: usize = 300;
/// The most lifted darts of a drawn plan: the reference takes its time.
const MOST: usize = 700;

// ---- Plans ----

/// A row whose ends are from a short list, the extremes among them, so that
/// spans touch each other and interleave with the neighbours'.
fn close_row(random: &mut Random) -> Vec<Span> {
    let mut heights = vec![
        i32::MIN,
        i32::MIN + 1,
        -2,
        -1,
        0,
        1,
        2,
        i32::MAX - 1,
        i32::MAX,
    ];
    heights.retain(|_| random.chance(35));
    let mut row = Vec::new();
    for pair in heights.windows(2) {
        if random.chance(70) {
            let (lo, hi, object) = (pair[0], pair[1], any_object(random));
            row.push(Span { lo, hi, object });
        }
    }
    row
}

/// The same row with other objects, or not.
fn with_owners(random: &mut Random, row: &[Span]) -> Vec<Span> {
    let mut row = row.to_vec();
    for span in &mut row {
        span.object = any_object(random);
    }
    row
}

/// A lift of a small map, or a lift of that, and so on, up to dimension 4.
fn stack(random: &mut Random) -> Map {
    let mut map = match random.below(3) {
        0 => polygon(random, 3),
        1 => free_map(random, 2),
        _ => grid(random, &[2], 30),
    };
    for _ in 0..random.between(1, 3) {
        match lift(&map, 60) {
            Some(lifted) if map.dim < 4 && lifted.map.count() > 0 => {
                map = with_rows(lifted.map, |_| close_row(random));
            }
            _ => break,
        }
    }
    map
}

/// A map of any kind: built or drawn freely, so also open and twisted ones,
/// grids of parcels, fans around a corner, stacks.
fn any_plan(random: &mut Random) -> Map {
    let [few, many] = sizes(random, [4, 6]);
    let open = random.pick(&[0, 20, 60]);
    match random.below(20) {
        0..=8 => any_map(random),
        9..=11 => {
            let dim = random.between(1, 4);
            free_map(random, dim)
        }
        12..=14 => grid(random, &[few, 3], open),
        15 => fan(random, few),
        16 => wedges(many),
        17 => grid(random, &[many], open),
        _ => stack(random),
    }
}

/// A plan whose lift is not too large, with the number of its darts.
fn liftable(random: &mut Random) -> (Map, usize) {
    loop {
        let mut map = any_plan(random);
        map = match random.below(10) {
            0..=3 => with_rows(map, |_| close_row(random)),
            4..=6 => {
                let row = close_row(random);
                with_rows(map, |_| with_owners(random, &row))
            }
            _ => map,
        };
        if random.chance(30) {
            map = renumbered(random, &map);
        }
        if let Some(list) = names(&map, MOST) {
            return (map, list.len());
        }
    }
}

// ---- Rooms ----

/// The lengths of the lifted side's tables, in their order: links, places, objects,
/// work.
type Rooms = [usize; 4];

/// The widths of their rows.
const WIDTHS: Rooms = [LINKS, COORDINATES, OBJECTS, WORK];

/// The capacity of tables of such lengths.
fn capacity([links, places, objects, work]: Rooms) -> usize {
    lifted_capacity(links, places, objects, work)
}

/// Whether the objects alone set that capacity.
fn is_by_objects([links, places, objects, work]: Rooms) -> bool {
    capacity([links, places, objects + OBJECTS, work]) > capacity([links, places, objects, work])
}

/// The lifted side's four tables, lent.
#[derive(Clone)]
struct LentLifted {
    links: Lent<u16>,
    places: Lent<i32>,
    objects: Lent<u16>,
    work: Lent<u16>,
}

impl LentLifted {
    /// Tables of the given lengths, full of rubbish.
    fn new(random: &mut Random, [links, places, objects, work]: Rooms) -> LentLifted {
        let links = litter_u16(random, links);
        let places = litter_i32(random, places);
        let [objects, work] = [objects, work].map(|length| litter_u16(random, length));
        LentLifted {
            links: lend16(random, &links),
            places: lend32(random, &places),
            objects: lend16(random, &objects),
            work: lend16(random, &work),
        }
    }

    fn tables_mut(&mut self) -> LiftedMut<'_> {
        let (links, places) = (self.links.part_mut(), self.places.part_mut());
        let (objects, work) = (self.objects.part_mut(), self.work.part_mut());
        LiftedMut::new(links, places, objects, work)
    }

    /// The tables as they were.
    fn before(&self) -> LiftedTables {
        LiftedTables {
            links: self.links.part_before().to_vec(),
            places: self.places.part_before().to_vec(),
            objects: self.objects.part_before().to_vec(),
            work: self.work.part().len(),
        }
    }

    /// The tables as they are.
    fn after(&self) -> LiftedTables {
        LiftedTables {
            links: self.links.part().to_vec(),
            places: self.places.part().to_vec(),
            objects: self.objects.part().to_vec(),
            work: self.work.part().len(),
        }
    }

    /// Nothing was written beside the tables.
    fn is_untouched_around(&self) -> bool {
        self.links.is_untouched_behind(self.links.part().len())
            && self.places.is_untouched_behind(self.places.part().len())
            && self.objects.is_untouched_behind(self.objects.part().len())
            && self.work.is_untouched_behind(self.work.part().len())
    }
}

/// Lengths of the lifted tables with room for exactly so many darts: one table
/// has no row more, mostly it alone, and each may have part of one.
fn lengths(random: &mut Random, darts: usize) -> Rooms {
    let shortest = random.pick(&[0, 1, 2, 2, 3]);
    let least = random.pick(&[0, 1, 1]);
    let mut table = 0;
    WIDTHS.map(|width| {
        let more = random.between(least, 2) * usize::from(table != shortest);
        table += 1;
        width * (darts + more) + random.pick(&[0, 0, 1, width - 1]) % width
    })
}

/// Room where so many darts are needed: exactly that, one dart too few, more,
/// or anything less.
fn any_room(random: &mut Random, needed: usize) -> Rooms {
    let darts = match random.below(10) {
        0..=3 => needed,
        4..=5 => needed.saturating_sub(1),
        6..=8 => needed + random.between(1, 40),
        _ => random.below(needed + 1),
    };
    lengths(random, darts)
}

// ---- The comparison ----

/// How often each kind of call was met, by a word and a number.
type Kinds = BTreeMap<(&'static str, usize), usize>;

const REFUSED: &str = "refused by";
const LIFTED: &str = "lifted from dimension";
const EXACT: &str = "lifted in just enough room, from dimension";
const SHORT: &str = "refused for one dart, from dimension";
const EMPTY: &str = "lifted to no dart, from dimension";
const BEHIND: &str = "lifted with rows or part of one behind, from dimension";
const TOUCHING: &str = "lifted with touching spans, from dimension";
const EXTREME: &str = "lifted with an extreme height, from dimension";
const BESIDE: &str = "lifted with another row over the top axis, from dimension";
const OBJECTS_BESIDE: &str = "lifted with other objects over one dart, from dimension";
const OWNERS: &str =
    "lifted with rows over the top axis that differ in an object alone, from dimension";
const EXACT_OBJECTS: &str = "lifted where the objects alone just have room, from dimension";
const SHORT_OBJECTS: &str = "refused where the objects alone are one row short, from dimension";

/// The kinds that must be met.
fn wanted_kinds() -> Vec<(&'static str, usize)> {
    let refused = [3, 4, 6, 7, 8, 9, 10, 11, 20, 22].map(|number| (REFUSED, number));
    let kinds = [
        LIFTED,
        EXACT,
        SHORT,
        EMPTY,
        BEHIND,
        TOUCHING,
        EXTREME,
        BESIDE,
        OBJECTS_BESIDE,
        OWNERS,
        EXACT_OBJECTS,
        SHORT_OBJECTS,
    ];
    let each = kinds.into_iter().flat_map(|k| (1..=4).map(move |m| (k, m)));
    refused.into_iter().chain(each).collect()
}

/// Counts the kinds of an accepted lift.
fn meet_lifted(map: &Map, darts: usize, room: Rooms, met: &mut Kinds) {
    let mut meet = |kind, is_met: bool| {
        *met.entry((kind, map.dim)).or_default() += usize::from(is_met);
    };
    let rows = || map.darts.iter().map(|dart| &dart.row);
    let is_touched = |row: &Vec<Span>| row.windows(2).any(|w| w[0].hi == w[1].lo);
    let is_extreme = |span: &Span| span.lo == i32::MIN || span.hi == i32::MAX;
    let over = |d: usize| map.link(d, map.dim);
    let is_beside = |d: usize| map.row(d) != map.row(over(d));
    let is_owned = |d: usize| is_beside(d) && ends(map.row(d)).eq(ends(map.row(over(d))));
    let is_mixed = |row: &Vec<Span>| row.windows(2).any(|w| w[0].object != w[1].object);
    let is_exact = darts > 0 && capacity(room) == darts;
    let [links, places, objects, _] = room;
    meet(LIFTED, true);
    meet(EXACT, is_exact);
    meet(EXACT_OBJECTS, is_exact && is_by_objects(room));
    meet(EMPTY, darts == 0);
    meet(
        BEHIND,
        links > LINKS * darts && places > COORDINATES * darts && objects > OBJECTS * darts,
    );
    meet(OBJECTS_BESIDE, rows().any(is_mixed));
    meet(OWNERS, (0..map.count()).any(is_owned));
    meet(TOUCHING, rows().any(is_touched));
    meet(EXTREME, rows().flatten().any(is_extreme));
    meet(BESIDE, (0..map.count()).any(is_beside));
}

/// The ends of the spans of a row, without their objects.
fn ends(row: &[Span]) -> impl Iterator<Item = (i32, i32)> {
    row.iter().map(|span| (span.lo, span.hi))
}

/// One lift call: proved and reference agree on the answer and on all whole
/// tables; of the plan's tables nothing but work is written.
fn compare_lift(random: &mut Random, plan: &Plan, room: Rooms) -> Answer {
    let mut lifted = LentLifted::new(random, room);
    let mut tables = lifted.before();
    let calls::Answer { number, value } = calls::lift(&plan.raw(), tables.lent());
    let value = value as u16;
    let wanted = Answer { number, value };
    let mut lent = LentPlan::new(random, plan);
    let answer = proved::lift(&mut lent.tables(), &mut lifted.tables_mut());
    let is_kept = lent.is_untouched_but_work() && lifted.is_untouched_around();
    let agree = lifted.after() == tables;
    assert!(
        answer == wanted && agree && is_kept,
        "{answer:?}, tables agree {agree}, the rest kept {is_kept}, wanted\n{}",
        write(&Case::lift(plan.clone(), lifted.before()))
    );
    let dart = (LINK_BEYOND..=ROWS_DIFFER).contains(&number);
    let refusal = Refusal::from_number(number);
    let refused = refusal.map(|refusal| Refused::new(refusal, dart.then_some(value)));
    assert_eq!(answer.result().err(), refused);
    wanted
}

/// A sound plan in any room.
fn compare_sound(random: &mut Random, met: &mut Kinds) {
    let (map, needed) = liftable(random);
    let plan = tables(random, &map);
    let room = any_room(random, needed);
    let answer = compare_lift(random, &plan, room);
    if answer.number == ACCEPTED {
        assert_eq!(usize::from(answer.value), needed);
        meet_lifted(&map, needed, room, met);
        return;
    }
    assert_eq!(answer.number, TOO_LARGE);
    let mut meet = |kind| *met.entry(kind).or_default() += 1;
    meet((REFUSED, TOO_LARGE.into()));
    if capacity(room) + 1 == needed {
        meet((SHORT, map.dim));
        if is_by_objects(room) {
            meet((SHORT_OBJECTS, map.dim));
        }
    }
}

/// Tables that may be refused, in a little room.
fn compare_other(random: &mut Random, draw: fn(&mut Random) -> Plan, met: &mut Kinds) {
    let plan = draw(random);
    let darts = random.below(80);
    let room = lengths(random, darts);
    let number = compare_lift(random, &plan, room).number;
    *met.entry((REFUSED, number.into())).or_default() += 1;
}

/// A map of dimension 5, which no lift takes, sound or not and with a count
/// that its tables may not hold.
fn too_deep(random: &mut Random) -> Plan {
    let map = free_map(random, GREATEST_DIMENSION);
    let mut plan = tables(random, &map);
    match random.below(3) {
        0 => plan.count += random.between(1, 9),
        1 => overwrite(random, &mut plan),
        _ => {}
    }
    plan
}

/// The other tables that the call is given.
const OTHER_TABLES: [Share; 11] = [
    (sound, 2),
    (refused, 36),
    (refused_twice, 4),
    (other_object, 6),
    (overwritten_small, 14),
    (other_dimension, 8),
    (other_count, 10),
    (cut_off, 8),
    (rubbish, 6),
    (ninth_span, 2),
    (too_deep, 4),
];

/// Tables of a small map with a few numbers overwritten.
fn overwritten_small(random: &mut Random) -> Plan {
    let mut plan = sound(random);
    for _ in 0..random.between(1, 3) {
        overwrite(random, &mut plan);
    }
    plan
}

#[test]
fn lift_agrees() {
    let random = &mut Random::new(17);
    let met = &mut Kinds::new();
    for _ in 0..PLANS {
        compare_sound(random, met);
    }
    for (draw, share) in OTHER_TABLES {
        for _ in 0..OTHERS * share / 100 {
            compare_other(random, draw, met);
        }
    }
    println!("lift: {} inputs", PLANS + OTHERS);
    for (kind, number) in wanted_kinds() {
        let times = met.get(&(kind, number)).copied().unwrap_or(0);
        println!("  {times:6} {kind} {number}");
        assert!(times >= LEAST, "{kind} {number}: only {times} times");
    }
}

// ---- Large maps ----

/// Plans whose lifts nearly fill a side, or do not fit.
fn large_plans(random: &mut Random) -> Vec<Map> {
    let sheet = with_rows(grid(random, &[12, 12], 0), |c| interleaved(12, c));
    let mixed = renumbered(random, &sheet);
    let too_large = with_rows(grid(random, &[45, 45], 0), |c| interleaved(45, c));
    let boxes = grid(random, &[2, 3, 2], 10);
    let deep = with_rows(grid(random, &[1, 1, 2, 1], 0), |c| interleaved(1, c));
    let solids = grid(random, &[2, 2], 0);
    let solids = tower(random, with_rows(solids, |c| interleaved(2, c)));
    let stairs = |c: usize| vec![span(c as i32, 100 - c as i32)];
    let round = with_rows(wedges(40), stairs);
    let sparse = |c: usize| vec![span(0, 9); usize::from(c.is_multiple_of(7))];
    let sparse = with_rows(grid(random, &[45, 45], 20), sparse);
    vec![sheet, mixed, too_large, boxes, deep, solids, round, sparse]
}

/// The most that a side may have, one dart less, and more rows than that.
#[test]
fn large_lifts_agree() {
    let random = &mut Random::new(15_184);
    let met = &mut Kinds::new();
    for map in large_plans(random) {
        let plan = tables(random, &map);
        let room = lengths(random, DARTS + 5);
        let answer = compare_lift(random, &plan, room);
        *met.entry(("answered by", answer.number.into()))
            .or_default() += 1;
        if answer.number == ACCEPTED {
            let exact = lengths(random, answer.value.into());
            assert_eq!(compare_lift(random, &plan, exact), answer);
            let short = lengths(random, usize::from(answer.value) - 1);
            assert_eq!(compare_lift(random, &plan, short).number, TOO_LARGE);
        }
    }
    println!("large lifts: {met:?}");
    assert_eq!(met.get(&("answered by", ACCEPTED.into())), Some(&7));
}

// ---- Examples ----

fn span(lo: i32, hi: i32) -> Span {
    span_of(lo, hi, SPAN_OBJECT)
}

fn span_of(lo: i32, hi: i32, object: u16) -> Span {
    Span { lo, hi, object }
}

/// A map's lift by the proved call, in tables without a row to spare, and its
/// numbers of cells by axis.
fn lifted(map: &Map, darts: usize) -> (Lifted, Vec<u16>) {
    let random = &mut Random::new(darts as u64);
    let plan = tables(random, map);
    let mut lent = LentPlan::new(random, &plan);
    let mut side = LentLifted::new(random, WIDTHS.map(|width| width * darts));
    let answer = proved::lift(&mut lent.tables(), &mut side.tables_mut());
    assert_eq!(answer.result(), Ok(darts as u16));
    let spans = vec![0; SPAN_NUMBERS * darts];
    let (links, places, work) = (
        side.links.part(),
        side.places.part(),
        &mut vec![0; WORK * darts],
    );
    let mut tables = Tables::new(links, places, &spans, work, map.dim as u8 + 1, darts);
    let cells = laremban::counts(&mut tables).expect("a valid map");
    let (map, objects) = (adopted(&tables), side.objects.part().to_vec());
    (Lifted { map, objects }, cells)
}

/// The map that tables hold.
fn adopted(tables: &Tables) -> Map {
    let plan = Plan {
        links: tables.links.to_vec(),
        places: tables.places.to_vec(),
        spans: tables.spans.to_vec(),
        work: tables.work.len(),
        dimension: tables.dimension,
        count: tables.count,
    };
    plan.raw().map()
}

/// Edges in a row, each with its own row of spans.
fn edges(rows: &[Vec<Span>]) -> Map {
    let random = &mut Random::new(0);
    with_rows(grid(random, &[rows.len()], 0), |c| rows[c].clone())
}

/// The face with 14 sides of documents 000 and 001, lifted through height,
/// years and level of detail: the cells that they print.
#[test]
fn fourteen_sides_have_the_printed_cells() {
    let face = polygon(&mut Random::new(0), 14);
    let face = with_rows(face, |_| vec![span(0, 25)]);
    let (solid, cells) = lifted(&face, 168);
    assert_eq!(cells, [28, 42, 16, 1]);
    let solid = with_rows(solid.map, |_| vec![span(1960, 2060)]);
    let (years, cells) = lifted(&solid, 1_344);
    assert_eq!(cells, [56, 112, 74, 18, 1]);
    let years = with_rows(years.map, |_| vec![span(1, 5)]);
    let (_, cells) = lifted(&years, 13_440);
    assert_eq!(cells, [112, 280, 260, 110, 20, 1]);
}

/// The two triangles of document 001, which share a side: six layers of twelve
/// darts.
#[test]
fn two_triangles_become_two_prisms() {
    let mut map = fan(&mut Random::new(0), 3);
    map.darts.truncate(12);
    for d in 0..12 {
        let free = map.darts[d].links[2] >= 12;
        map.darts[d].links[2] = if free { d } else { map.darts[d].links[2] };
    }
    let map = with_rows(map, |_| vec![span(0, 1)]);
    assert_eq!(lifted(&map, 6 * 12).1, [8, 14, 9, 2]);
}

#[test]
fn examples_of_edges() {
    let (map, cells) = lifted(&edges(&[vec![span(0, 3)]]), 8);
    assert_eq!((map.map.count(), cells), (8, vec![4, 4, 1]));
    assert_eq!(
        lifted(&edges(&[vec![span(0, 2), span(2, 5)]]), 16).1,
        [6, 7, 2]
    );
    let apart = lifted(&edges(&[vec![span(0, 1)], vec![span(1, 2)]]), 16).1;
    assert_eq!(apart[0], 8);
    let (map, _) = lifted(&edges(&[vec![span(0, 3)], vec![span(1, 5)]]), 20);
    let plan = edges(&[vec![span(0, 3)], vec![span(1, 5)]]);
    assert_eq!(Some(map), lift(&plan, 20));
    assert_eq!(lifted(&edges(&[vec![]]), 0).1, [0, 0, 0]);
}

/// E3 with objects: each dart carries that of the span on its side, and the map is
/// the same as without.
#[test]
fn e3_carries_two_objects() {
    let plan = |one, other| edges(&[vec![span_of(0, 2, one), span_of(2, 5, other)]]);
    let (mixed, cells) = lifted(&plan(7, 9), 16);
    assert_eq!(mixed.objects, [7, 7, 9, 9].repeat(4));
    assert_eq!(
        (mixed.map, cells),
        (lifted(&plan(0, 0), 16).0.map, vec![6, 7, 2])
    );
}

/// The table of objects counts for the capacity, and stays whole where it is too
/// short.
#[test]
fn objects_one_row_short_are_refused() {
    let random = &mut Random::new(10);
    let row = vec![span_of(0, 2, 7), span_of(2, 5, u16::MAX)];
    let plan = tables(random, &edges(&[row]));
    for (rows, number, value) in [(16, ACCEPTED, 16), (15, TOO_LARGE, 0)] {
        let [links, places, _, work] = WIDTHS.map(|width| width * 20);
        let room = [links, places, rows, work];
        assert_eq!(compare_lift(random, &plan, room), Answer { number, value });
    }
}

/// E9: eight darts fit, seven do not, and then nothing is written.
#[test]
fn one_dart_too_few_is_refused() {
    let random = &mut Random::new(9);
    let plan = tables(random, &edges(&[vec![span(0, 3)]]));
    for (darts, number, value) in [(8, ACCEPTED, 8), (7, TOO_LARGE, 0)] {
        let room = lengths(random, darts);
        assert_eq!(compare_lift(random, &plan, room), Answer { number, value });
    }
}
