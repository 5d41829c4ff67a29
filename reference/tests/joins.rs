//! New spans over spans of their own object: what becomes one, what stays by itself,
//! and what is refused.

mod common;

use common::*;
use reference::joins::{KINDS, kinds};
use reference::map::{Span, is_row};
use reference::random::Random;
use reference::run::{Lengths, run_on_tables};
use reference::span::{Side, covering, overlap, with_span};
use reference::widths::*;
use std::collections::BTreeSet;

/// The object of the spans in these tests, where they have one.
const OWN: u16 = 7;

/// A span as it is written here: its ends and its object.
type Told = (i32, i32, u16);

/// The spans of a row, told.
fn told(row: &[Span]) -> Vec<Told> {
    row.iter().map(|s| (s.lo, s.hi, s.object)).collect()
}

/// Spans of one object.
fn own(spans: &[(i32, i32)]) -> Vec<Told> {
    spans.iter().map(|&(lo, hi)| (lo, hi, OWN)).collect()
}

/// The commands that give dart 0 these spans.
fn spans(row: &[Told]) -> String {
    let one = |&(lo, hi, object): &Told| span_of(0, lo, hi, object);
    row.iter().map(one).collect()
}

/// The reply to a new span where a dart alone has these, and the row after it.
fn put(row: &[Told], (lo, hi, object): Told) -> ((u8, u16), Vec<Told>) {
    let text = darts(1, 1) + &spans(row) + &span_of(0, lo, hi, object);
    (last(&text), told(program(&text).plan.row(0)))
}

/// A new span of the one object is accepted, and leaves these.
fn joins(row: &[(i32, i32)], (lo, hi): (i32, i32), wanted: &[(i32, i32)]) {
    let answer = put(&own(row), (lo, hi, OWN));
    assert_eq!(answer, ((0, 1), own(wanted)), "{row:?} and {lo}..{hi}");
}

/// A new span is refused, and the row stays.
fn refuses(row: &[Told], added: Told, number: u8) {
    let answer = put(row, added);
    assert_eq!(answer, ((number, 0), row.to_vec()), "{added:?}");
}

#[test]
fn one_that_overlaps_becomes_one_with_all_it_overlaps() {
    let three = [(0, 2), (4, 6), (8, 10)];
    joins(&three, (1, 9), &[(0, 10)]);
    joins(&three, (1, 5), &[(0, 6), (8, 10)]);
    joins(&three, (5, 9), &[(0, 2), (4, 10)]);
    joins(&three, (-1, 11), &[(-1, 11)]);
    joins(&three, (3, 7), &[(0, 2), (3, 7), (8, 10)]);
    joins(&three, (-3, 1), &[(-3, 2), (4, 6), (8, 10)]);
    joins(&three, (9, 12), &[(0, 2), (4, 6), (8, 12)]);
}

#[test]
fn one_that_touches_stays_by_itself() {
    let three = [(0, 2), (4, 6), (8, 10)];
    joins(&three, (2, 4), &[(0, 2), (2, 4), (4, 6), (8, 10)]);
    joins(&three, (2, 3), &[(0, 2), (2, 3), (4, 6), (8, 10)]);
    joins(&three, (7, 8), &[(0, 2), (4, 6), (7, 8), (8, 10)]);
    joins(&three, (10, 11), &[(0, 2), (4, 6), (8, 10), (10, 11)]);
    joins(&three, (-1, 0), &[(-1, 0), (0, 2), (4, 6), (8, 10)]);
}

#[test]
fn joining_does_not_go_on() {
    // What it joins touches 0..3, and it touches 8..9 itself.
    let row = [(0, 3), (3, 5), (8, 9)];
    joins(&row, (4, 8), &[(0, 3), (3, 8), (8, 9)]);
    let chain = [(0, 2), (2, 4), (4, 6), (6, 8)];
    joins(&chain, (3, 4), &chain);
    joins(&chain, (2, 4), &chain);
    joins(&chain, (3, 5), &[(0, 2), (2, 6), (6, 8)]);
    joins(&chain, (1, 3), &[(0, 4), (4, 6), (6, 8)]);
}

#[test]
fn one_inside_its_own_leaves_the_row() {
    let row = [(0, 5), (7, 9)];
    for added in [(1, 2), (0, 2), (3, 5), (0, 5), (7, 9)] {
        joins(&row, added, &row);
    }
}

#[test]
fn an_overlap_with_another_object_is_18_and_joins_nothing() {
    let row = [(0, 2, 7), (2, 4, 8), (6, 9, 7)];
    refuses(&row, (1, 3, 7), 18);
    refuses(&row, (3, 7, 7), 18);
    refuses(&row, (0, 9, 7), 18);
    refuses(&row, (-1, 10, 8), 18);
    refuses(&row, (3, 4, 7), 18);
    refuses(&row, (7, 8, 9), 18);
    // What is another's may be touched.
    let wanted = vec![(-1, 2, 7), (2, 4, 8), (6, 9, 7)];
    assert_eq!(put(&row, (-1, 2, 7)), ((0, 1), wanted));
    let wanted = vec![(0, 2, 7), (2, 4, 8), (4, 9, 7)];
    assert_eq!(put(&row, (4, 8, 7)), ((0, 1), wanted));
}

#[test]
fn a_full_row_takes_what_it_can_join() {
    let mut row: Vec<Told> = (0..8).map(|at| (4 * at, 4 * at + 2, OWN)).collect();
    row[7].2 = 8;
    for (added, lo, hi) in [((1, 3), 0, 3), ((0, 2), 0, 2), ((-4, 1), -4, 2)] {
        let mut wanted = row.clone();
        wanted[0] = (lo, hi, OWN);
        assert_eq!(put(&row, (added.0, added.1, OWN)), ((0, 1), wanted));
    }
    let answer = put(&row, (1, 5, OWN));
    assert_eq!(answer.1.len(), 7);
    assert_eq!(put(&row, (-1, 27, OWN)).1, [(-1, 27, OWN), row[7]]);
    // It touches one, or both its neighbours, or none.
    for (lo, hi) in [(2, 3), (2, 4), (-1, 0), (30, 31), (40, 41)] {
        refuses(&row, (lo, hi, OWN), 19);
    }
    refuses(&row, (29, 31, OWN), 18);
    refuses(&row, (25, 29, OWN), 18);
    refuses(&row, (1, 3, 8), 18);
}

#[test]
fn span_is_of_object_0() {
    let with = |spans: &str| told(program(&(darts(1, 1) + spans)).plan.row(0));
    assert_eq!(with(&(span(0, 0, 3) + &span(0, 2, 5))), [(0, 5, 0)]);
    let mixed = span_of(0, 0, 3, 0) + &span(0, 2, 5) + &span_of(0, 4, 6, 0);
    assert_eq!(with(&mixed), [(0, 6, 0)]);
    let text = darts(1, 1) + &span_of(0, 0, 3, 1) + &span(0, 2, 5);
    assert_eq!(last(&text), (18, 0));
    let text = darts(1, 1) + &span(0, 0, 3) + &span_of(0, 2, 5, 1);
    assert_eq!(last(&text), (18, 0));
}

#[test]
fn heights_are_signed_and_may_be_the_outermost() {
    let (low, high) = (i32::MIN, i32::MAX);
    let row = [(low, -10), (-8, -2), (1, 4), (9, high)];
    joins(&row, (-3, 2), &[(low, -10), (-8, 4), (9, high)]);
    joins(&row, (-11, -3), &[(low, -2), (1, 4), (9, high)]);
    joins(&row, (3, high), &[(low, -10), (-8, -2), (1, high)]);
    joins(&row, (low, high), &[(low, high)]);
    joins(&[(low, high)], (-1, 1), &[(low, high)]);
}

#[test]
fn the_whole_cell_is_joined_and_its_neighbour_is_not() {
    // Two edges that meet in darts 1 and 2.
    let edges = darts(1, 4) + &sew(0, 0, 1) + &sew(0, 2, 3) + &sew(1, 1, 2);
    let text = edges + &span(0, 0, 3) + &span(2, 0, 3) + &span(1, 2, 5);
    assert_eq!(last(&text), (0, 2));
    let plan = program(&text).plan;
    for (dart, wanted) in [(0, 5), (1, 5), (2, 3), (3, 3)] {
        assert_eq!(plan.row(dart), row(&[(0, wanted)]));
    }
    // Dart 1 is cut at 3, where dart 2 ends: it has six, and each other four.
    assert_eq!(last(&(text + " 17")), (0, 18));
}

#[test]
fn rows_made_equal_are_sewn() {
    let one = darts(1, 2) + &span(0, 0, 5) + &span(1, 0, 3);
    let touching = one.clone() + &span(1, 3, 5);
    assert_eq!(last(&(touching.clone() + &sew(0, 0, 1))), (16, 0));
    assert_eq!(last(&(touching + &span(1, 2, 4) + &sew(0, 0, 1))), (0, 2));
    assert_eq!(last(&(one + &span(1, 2, 5) + &sew(0, 0, 1))), (0, 2));
}

#[test]
fn numbers_behind_a_shorter_row_are_0() {
    let rows = 3;
    let lengths = Lengths {
        plan_links: LINKS * rows,
        plan_places: COORDINATES * rows,
        plan_spans: SPAN_NUMBERS * rows + 4,
        plan_work: WORK * rows,
        lifted_links: 0,
        lifted_places: 0,
        lifted_objects: 0,
        lifted_work: 0,
    };
    let three = [(0, 2, 7), (4, 6, 7), (8, 10, 7), (12, 13, 9)];
    let edge = darts(1, 2) + &sew(0, 0, 1) + &spans(&three);
    for (added, wanted) in [
        ((1, 9), vec![2, 0, 10, 7, 12, 13, 9]),
        ((5, 9), vec![3, 0, 2, 7, 4, 10, 7, 12, 13, 9]),
        ((5, 6), vec![4, 0, 2, 7, 4, 6, 7, 8, 10, 7, 12, 13, 9]),
    ] {
        let bytes = hex(&(edge.clone() + &span_of(1, added.0, added.1, 7)));
        let after = run_on_tables(&bytes, lengths, &[0; 99]);
        assert_eq!((after.number, after.refused), (0, 0));
        let mut row = wanted;
        row.resize(SPAN_NUMBERS, 0);
        let table = [row.clone(), row, vec![0; SPAN_NUMBERS + 4]].concat();
        assert_eq!(after.plan_spans, table);
    }
}

/// A row of so many small spans of few objects, which touch or leave gaps.
fn any_row(random: &mut Random) -> Vec<Span> {
    let mut row = Vec::new();
    let mut lo = random.below(6) as i32 - 8;
    for _ in 0..random.below(SPANS + 1) {
        let hi = lo + random.between(1, 3) as i32;
        let object = random.pick(&[0, 0, 0, 1]);
        row.push(Span { lo, hi, object });
        lo = hi + random.pick(&[0, 0, 1, 2]);
    }
    row
}

/// What holds of every row and every new span, height by height.
#[test]
fn a_row_with_a_span_covers_what_the_two_cover() {
    let random = &mut Random::new(12);
    let mut met = BTreeSet::new();
    for _ in 0..20_000 {
        let row = any_row(random);
        let lo = random.below(30) as i32 - 10;
        let hi = lo + random.pick(&[1, 1, 2, 3, 5, 8, 25]);
        let object = random.pick(&[0, 0, 0, 1]);
        let added = Span { lo, hi, object };
        met.extend(kinds(&row, added));
        let over: Vec<&Span> = row.iter().filter(|held| overlap(**held, added)).collect();
        if over.iter().any(|held| held.object != object) {
            continue;
        }
        let after = with_span(&row, added);
        assert_eq!(after.len(), row.len() + 1 - over.len());
        // A row of nine is refused, and in order all the same.
        for part in [
            &after[..after.len().min(SPANS)],
            &after[after.len().saturating_sub(SPANS)..],
        ] {
            assert!(is_row(part), "{after:?}");
        }
        for height in -12..46 {
            for side in Side::BOTH {
                let before = covering(&row, height, side).map(|held| held.object);
                let new = covering(&[added], height, side).map(|held| held.object);
                let now = covering(&after, height, side).map(|held| held.object);
                assert_eq!(now, before.or(new), "{row:?} {added:?} {height}");
            }
        }
    }
    // Of all kinds only the two of the outermost heights have to be looked for.
    assert_eq!(met.len(), KINDS.len() - 2);
}

#[test]
fn no_two_kinds_have_one_name() {
    let all: BTreeSet<&str> = KINDS.into_iter().collect();
    assert_eq!(all.len(), KINDS.len());
    let (lo, hi, object) = (0, 1, OWN);
    assert!(kinds(&[], Span { lo, hi, object }).is_empty());
}
