//! Names and cases, worked out from the plan, make the proved lift: every dart's
//! place, its object and every link.

use super::*;
use crate::{Commands, DARTS, LiftedTables, PlanTables, lift, run, sizes};
use std::collections::BTreeSet;

/// Drawn numbers, the same ones each time.
struct Draw(u64);

impl Draw {
    fn below(&mut self, bound: u16) -> u16 {
        self.0 = self.0.wrapping_mul(6_364_136_223_846_793_005);
        self.0 = self.0.wrapping_add(1_442_695_040_888_963_407);
        ((self.0 >> 33) % u64::from(bound)) as u16
    }

    fn spans(&mut self, list: &mut Commands, darts: u16, many: u16) {
        for _ in 0..many {
            let lo = i32::from(self.below(7)) - 3;
            let (dart, hi) = (self.below(darts), lo + 1 + i32::from(self.below(3)));
            list.span_of(dart, lo, hi, self.below(4));
        }
    }

    /// Edges of a plan, sewn as it comes: what can't be sewn is refused.
    fn edges(&mut self, list: &mut Commands, dimension: u8, edges: u16) {
        list.new_plan(dimension).darts(2 * usize::from(edges));
        for edge in 0..edges {
            list.sew(0, 2 * edge, 2 * edge + 1);
        }
        for _ in 0..6 * edges {
            let axis = self.below(u16::from(dimension) + 1) as u8;
            let (a, b) = (self.below(2 * edges), self.below(2 * edges));
            list.sew(axis, a, b);
        }
    }
}

/// A list's plan and its lift, compared dart for dart. How each link was made.
fn compare(list: &Commands) -> BTreeSet<(usize, String)> {
    let (mut plan, mut lifted) = (PlanTables::new(DARTS), LiftedTables::new(DARTS));
    let mut memory = list.reply_memory();
    let ended = run(
        list.bytes(),
        &mut plan.lend(),
        &mut lifted.lend(),
        &mut memory,
    );
    let size = sizes(list.bytes(), &memory, ended).plan;
    let names = Names::of(&plan.map(size.dimension, size.count));
    let mut plan = plan.plan(size.dimension, size.count);
    let count = lift(&mut plan, &mut lifted.lend()).expect("a lift").into();
    assert_eq!(names.count(), count);
    let map = lifted.map(size.dimension + 1, count);
    let mut met = BTreeSet::new();
    for dart in 0..count {
        let name = names.get(dart).expect("a name");
        assert_eq!(names.number(name), Some(dart), "{name}");
        let (own, top) = (plan.map().place(name.dart), [name.height]);
        assert_eq!(map.place(dart), [own, &top].concat(), "{name}");
        assert_eq!(names.object(name), Some(map.object(dart)), "{name}");
        for axis in 0..=map.dimension() {
            let case = names.case(name, axis).expect("a case");
            let other = names.link(name, axis).expect("a dart");
            assert_eq!(
                names.number(other),
                Some(map.link(dart, axis)),
                "{name} {axis}: {case}"
            );
            met.insert((size.dimension.into(), case.to_string()));
        }
        assert_eq!(names.case(name, map.dimension() + 1), None);
    }
    assert_eq!(names.get(count), None);
    met
}

#[test]
fn drawn_plans() {
    let mut met = BTreeSet::new();
    for seed in 0..200 {
        let mut draw = Draw(seed);
        let dimension = 1 + (seed % 4) as u8;
        let mut list = Commands::new();
        draw.edges(&mut list, dimension, 6);
        draw.spans(&mut list, 12, 8);
        met.append(&mut compare(&list));
        if dimension < 4 {
            list.lift().adopt();
            draw.spans(&mut list, 40, 20);
            met.append(&mut compare(&list));
        }
    }
    // Eleven ways in all; a line has no i ≥ k + 2 below n.
    for (dimension, ways) in [(1, 10), (2, 11), (3, 11), (4, 11)] {
        let of = met.iter().filter(|(of, _)| *of == dimension);
        assert_eq!(of.count(), ways, "{met:#?}");
    }
}

#[test]
fn what_is_no_name_has_no_number() {
    let mut list = Commands::new();
    list.new_plan(1)
        .darts(3)
        .sew(0, 0, 1)
        .span(0, 0, 2)
        .span(0, 2, 5);
    let (mut plan, mut lifted) = (PlanTables::new(3), LiftedTables::new(0));
    let mut memory = list.reply_memory();
    let ended = run(
        list.bytes(),
        &mut plan.lend(),
        &mut lifted.lend(),
        &mut memory,
    );
    assert_eq!(ended.refused, 0);
    let names = Names::of(&plan.map(1, 3));
    assert_eq!(names.count(), 16);
    for (dart, level, height, side) in [
        (0, 0, 0, Toward::Down),
        (0, 0, 1, Toward::Up),
        (0, 0, 5, Toward::Up),
        (0, 2, 0, Toward::Up),
        (2, 0, 0, Toward::Up),
        (3, 0, 0, Toward::Up),
        (usize::MAX, usize::MAX, 0, Toward::Up),
    ] {
        let name = Name {
            dart,
            level,
            height,
            side,
        };
        assert_eq!(
            (names.number(name), names.case(name, 0), names.link(name, 0)),
            (None, None, None)
        );
        assert_eq!(names.object(name), None);
    }
    assert_eq!(Names::of(&PlanTables::new(0).map(0, 0)).count(), 0);
}

/// One corner with many edges, all with spans of their own, so that
/// its ends are many.
#[test]
fn many_ends_at_one_corner() {
    let edges: u16 = 60;
    let mut list = Commands::new();
    list.new_plan(2).darts(2 * usize::from(edges));
    for edge in 0..edges {
        list.sew(0, 2 * edge, 2 * edge + 1);
    }
    for edge in 0..edges / 2 {
        list.sew(1, 4 * edge, 4 * edge + 2);
    }
    for edge in 0..edges / 2 {
        list.sew(2, 4 * edge + 2, (4 * edge + 4) % (2 * edges));
    }
    for face in 0..edges / 2 {
        list.span(4 * face, i32::from(face), 100 + i32::from(face));
    }
    assert!(!compare(&list).is_empty());
}
