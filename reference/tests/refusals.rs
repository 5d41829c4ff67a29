//! One small test for each order in which refusals are tried, and the traps.

mod common;

use common::*;
use reference::calls::{check, lift, looseness, pieces};
use reference::cases::Plan;
use reference::map::Map;
use reference::run::{Lengths, run, run_on_tables};
use reference::widths::*;

#[test]
fn new_meets_only_the_range() {
    for dim in ["00", "05", "06", "ff"] {
        assert_eq!(last(&format!("10 {dim}")), (3, 0));
    }
    for dim in 1..=4 {
        assert_eq!(last(&format!("10 {dim:02x}")), (0, 0));
    }
}

#[test]
fn dart_12_then_13() {
    let ended = run(&hex("11 10 01 11 11"), 1, 0, 99);
    let numbers: Vec<u8> = ended.replies.iter().map(|r| r.number).collect();
    assert_eq!(numbers, [12, 0, 0, 13]);
    assert_eq!(last(&darts(4, 9)), (0, 8));
}

#[test]
fn sew_12_3_4_14_15_16() {
    assert_eq!(last(&sew(9, 9, 9)), (12, 0));
    assert_eq!(last(&(darts(2, 1) + &sew(3, 9, 9))), (3, 0));
    assert_eq!(last(&(darts(2, 1) + &sew(2, 1, 0))), (4, 0));
    assert_eq!(last(&(darts(2, 1) + &sew(2, 0, 1))), (4, 0));
    let edge = darts(2, 3) + &sew(0, 0, 1);
    assert_eq!(last(&(edge.clone() + &sew(0, 0, 0))), (14, 0));
    assert_eq!(last(&(edge.clone() + &sew(0, 2, 1))), (14, 0));
    assert_eq!(last(&(edge.clone() + &sew(2, 0, 1))), (15, 0));
    let moved = edge.clone() + " 14 0002 00 00000001";
    assert_eq!(last(&(moved.clone() + &sew(2, 0, 2))), (15, 0));
    assert_eq!(last(&(moved + &sew(1, 0, 2))), (16, 0));
}

#[test]
fn sew_fails_to_pair_for_each_reason() {
    let edge = darts(2, 3) + &sew(0, 0, 1);
    assert_eq!(last(&(edge.clone() + &sew(2, 0, 2))), (15, 0));
    assert_eq!(last(&(edge + &sew(2, 2, 0))), (15, 0));
    let alike = darts(3, 4) + &sew(0, 0, 1) + &sew(1, 2, 3);
    assert_eq!(last(&(alike + &sew(3, 0, 2))), (15, 0));
    let wide = darts(3, 4) + &sew(0, 0, 1) + &sew(0, 2, 3);
    assert_eq!(last(&(wide + &sew(3, 0, 3))), (0, 4));
}

#[test]
fn sew_compares_all_pairs() {
    // The named darts agree; their partners at the other end do not.
    let edges = darts(2, 4) + &sew(0, 0, 1) + &sew(0, 2, 3) + " 14 0003 01 00000007";
    assert_eq!(last(&(edges + &sew(2, 0, 2))), (16, 0));
    // Rows count below the top axis, places from axis 1 on.
    let spanned = darts(1, 2) + &span(0, 0, 1);
    assert_eq!(last(&(spanned.clone() + &sew(0, 0, 1))), (16, 0));
    assert_eq!(last(&(spanned + &sew(1, 0, 1))), (0, 2));
    let moved = darts(1, 2) + " 14 0000 00 80000000";
    assert_eq!(last(&(moved.clone() + &sew(0, 0, 1))), (0, 2));
    assert_eq!(last(&(moved + &sew(1, 0, 1))), (16, 0));
    // Touching spans are not the one span they add up to.
    let cut = darts(1, 2) + &span(0, 0, 2) + &span(0, 2, 5) + &span(1, 0, 5);
    assert_eq!(last(&(cut + &sew(0, 0, 1))), (16, 0));
}

#[test]
fn unsew_12_3_4_17() {
    assert_eq!(last("13 09 0009"), (12, 0));
    assert_eq!(last("10 01 13 02 0000"), (3, 0));
    assert_eq!(last("10 01 13 01 0000"), (4, 0));
    assert_eq!(last("10 01 11 13 01 0000"), (17, 0));
    let wide = darts(2, 4) + &sew(0, 0, 1) + &sew(0, 2, 3) + &sew(2, 0, 2);
    assert_eq!(last(&(wide + " 13 02 0003")), (0, 4));
}

#[test]
fn unsew_of_a_twist_frees_four() {
    let twist = darts(3, 4) + &sew(0, 0, 1) + &sew(0, 2, 3) + &sew(2, 0, 2) + &sew(3, 0, 3);
    let ended = program(&(twist + " 13 00 0000"));
    assert_eq!(ended.refused, 0);
    assert_eq!(ended.replies.last().map(|r| r.value), Some(4));
    assert!((0..4).all(|d| ended.plan.is_free(d, 0)));
}

#[test]
fn place_12_3_4() {
    assert_eq!(last("14 0009 09 00000000"), (12, 0));
    assert_eq!(last("10 02 14 0009 02 00000000"), (3, 0));
    assert_eq!(last("10 02 14 0000 01 00000000"), (4, 0));
    let corner = darts(2, 3) + &sew(1, 0, 2) + " 14 0002 01 ffffffff";
    let ended = program(&corner);
    assert_eq!(ended.replies.last().map(|r| r.value), Some(2));
    let places: Vec<&[i32]> = (0..3).map(|d| ended.plan.place(d)).collect();
    assert_eq!(places, [[0, -1], [0, 0], [0, -1]]);
}

#[test]
fn span_12_4_5_18_19() {
    assert_eq!(last(&span(9, 3, 3)), (12, 0));
    assert_eq!(last(&(darts(1, 0) + &span(0, 3, 3))), (4, 0));
    let mut full = darts(1, 1);
    for at in 0..8 {
        full += &span(0, at, at + 1);
    }
    assert_eq!(last(&full), (0, 1));
    assert_eq!(last(&(full.clone() + &span(0, 3, 3))), (5, 0));
    assert_eq!(last(&(full.clone() + &span_of(0, 7, 9, 1))), (18, 0));
    assert_eq!(last(&(full + &span(0, 8, 9))), (19, 0));
    let extreme = darts(1, 1) + &span_of(0, i32::MIN, i32::MAX, 1);
    assert_eq!(last(&extreme), (0, 1));
    assert_eq!(last(&(extreme + &span(0, -1, 0))), (18, 0));
}

#[test]
fn clear_12_4() {
    assert_eq!(last("16 0000"), (12, 0));
    assert_eq!(last("10 01 16 0000"), (4, 0));
    let ended = program(&(darts(1, 2) + &sew(0, 0, 1) + &span(1, 0, 1) + " 16 0000"));
    assert_eq!(ended.replies.last().map(|r| r.value), Some(2));
    assert!(ended.plan.darts.iter().all(|d| d.row.is_empty()));
}

#[test]
fn lift_12_22_20() {
    assert_eq!(last("17"), (12, 0));
    // At dimension 5 a lift is 22 even where it would be too large as well.
    let summit = hex(&(darts(4, 1) + &span(0, 0, 1) + " 17 18" + &span(0, 0, 1) + " 17"));
    let ended = run(&summit, 10, 10, 99);
    let numbers: Vec<u8> = ended.replies.iter().map(|r| r.number).collect();
    assert_eq!(numbers, [0, 0, 0, 0, 0, 0, 22]);
    assert_eq!(ended.replies[5].value, 10);
    assert_eq!(last("10 04 17 18 17"), (22, 0));
    let low = run(&hex(&(darts(1, 1) + &span(0, 0, 1) + " 17")), 1, 3, 99);
    assert_eq!(low.replies[3].number, 20);
}

#[test]
fn adopt_21_13() {
    assert_eq!(last("18"), (21, 0));
    let bytes = hex(&(darts(1, 1) + &span(0, 0, 1) + " 17 18"));
    assert_eq!(run(&bytes, 3, 4, 99).replies[4].number, 13);
    let fits = run(&bytes, 4, 4, 99);
    assert_eq!((fits.replies[4].number, fits.replies[4].value), (0, 4));
    assert_eq!(fits.plan, fits.lifted.map);
    // A new plan does not touch the lifted map, and adopting asks for no plan.
    let again = program(&(darts(1, 1) + &span(0, 0, 1) + " 17 10 03 19 01 00 18 19 00 02"));
    assert_eq!(again.refused, 0);
    assert_eq!(again.plan.dim, 2);
}

#[test]
fn count_side_then_blank_then_axis() {
    assert_eq!(last("19 02 09"), (3, 0));
    assert_eq!(last("19 00 09"), (12, 0));
    assert_eq!(last("19 01 09"), (21, 0));
    assert_eq!(last("10 01 19 00 02"), (3, 0));
    assert_eq!(last("10 01 19 01 00"), (21, 0));
    assert_eq!(last("10 01 17 19 01 03"), (3, 0));
    assert_eq!(last("10 01 17 19 01 02"), (0, 0));
}

#[test]
fn ends_of_a_run() {
    assert_eq!(four(&run(&[], 0, 0, 0)), (0, 0, 0, 0));
    assert_eq!(four(&run(&[0xff], 9, 9, 2)), (23, 0, 0, 0));
    assert_eq!(four(&run(&[0xff, 0x11], 9, 9, 3)), (1, 1, 0, 1));
    assert_eq!(four(&run(&[0x10], 9, 9, 3)), (2, 1, 0, 1));
    assert_eq!(four(&run(&[0x12, 9, 0, 0, 0], 9, 9, 3)), (2, 1, 0, 1));
    assert_eq!(four(&run(&[0x11; 5], 9, 9, 8)), (23, 2, 0, 2));
    assert_eq!(four(&run(&[0x11; 2], 9, 9, 6)), (0, 2, 0, 2));
    let program = run(&[0x11; 1_025], PROGRAM_PLAN, PROGRAM_LIFTED, PROGRAM_REPLY);
    assert_eq!(four(&program), (23, 1_024, 0, 1_024));
}

#[test]
fn capacities_are_cut() {
    let mut bytes = vec![0x10, 0x01];
    bytes.extend(vec![0x11; 16_385]);
    let ended = run(&bytes, usize::MAX, usize::MAX, usize::MAX);
    assert_eq!(four(&ended), (0, 16_386, 16_385, 1));
    assert_eq!(ended.replies.last().map(|r| r.number), Some(13));
}

#[test]
fn tables_hold_the_maps_and_zeros() {
    let lengths = Lengths {
        plan_links: 17,
        plan_places: 11,
        plan_spans: 50,
        plan_work: 9,
        lifted_links: 30,
        lifted_places: 21,
        lifted_objects: 6,
        lifted_work: 16,
    };
    assert_eq!((lengths.plan_capacity(), lengths.lifted_capacity()), (2, 4));
    let bytes = hex(&(darts(1, 1) + &span_of(0, -1, 1, 7) + " 17 11 11"));
    let after = run_on_tables(&bytes, lengths, &[7; 20]);
    assert_eq!((after.number, after.taken, after.refused), (0, 6, 1));
    let mut links = vec![0; 6];
    links.extend([1; 6]);
    links.extend([0; 5]);
    assert_eq!(after.plan_links, links);
    assert_eq!(after.plan_spans[..5], [1, -1, 1, 7, 0]);
    assert_eq!(after.plan_places, [0; 11]);
    let row0 = [1, 2, 0, 0, 0, 0];
    assert_eq!(after.lifted_links[..6], row0);
    assert_eq!(after.lifted_links[24..], [0; 6]);
    assert_eq!(after.lifted_places[..10], [0, -1, 0, 0, 0, 0, 1, 0, 0, 0]);
    assert_eq!(after.lifted_objects, [7, 7, 7, 7, 0, 0]);
    let replies = [0, 0, 0, 0, 0, 0, 0, 0, 1, 0, 0, 4, 0, 0, 1, 13, 0, 0, 7, 7];
    assert_eq!(after.reply, replies);
}

/// A valid map of the plane: two edges around a corner, with spans.
fn sound() -> Map {
    let mut map = free_map(2, 4);
    swap(&mut map, 1, 0, 1);
    swap(&mut map, 1, 2, 3);
    swap(&mut map, 2, 1, 2);
    for (d, spans) in [(0, (0, 3)), (1, (0, 3)), (2, (1, 5)), (3, (1, 5))] {
        map.darts[d].row = row(&[spans]);
    }
    map
}

/// What check answers, as a pair.
fn checked(plan: &Plan) -> (u8, usize) {
    let answer = check(&plan.raw());
    (answer.number, answer.value)
}

#[test]
fn check_3_4_6_to_11() {
    let mut plan = tables(&sound());
    assert_eq!(checked(&plan), (0, 0));
    // One fault after the other, each tried before those already there.
    plan.spans[SPAN_NUMBERS] = 2;
    plan.spans[SPAN_NUMBERS + 4..][..2].copy_from_slice(&[3, 4]);
    assert_eq!(checked(&plan), (11, 0));
    plan.spans[3 * SPAN_NUMBERS] = -1;
    assert_eq!(checked(&plan), (10, 3));
    plan.places[3 * 5 + 1] = 1;
    assert_eq!(checked(&plan), (9, 2));
    plan.links[0] = 1;
    plan.links[6] = 0;
    assert_eq!(checked(&plan), (8, 0));
    plan.links[3 * 6 + 2] = 0;
    assert_eq!(checked(&plan), (7, 3));
    plan.links[3 * 6 + 1] = 4;
    assert_eq!(checked(&plan), (6, 3));
    plan.work -= 1;
    assert_eq!(checked(&plan), (4, 0));
    for dimension in [0, 6, 255] {
        plan.dimension = dimension;
        assert_eq!(checked(&plan), (3, 0));
    }
}

#[test]
fn bad_rows_are_10() {
    // Overlap is that whatever the objects are: the check joins nothing.
    let bad: [&[i32]; 10] = [
        &[-1],
        &[9],
        &[i32::MIN],
        &[i32::MAX],
        &[1, 3, 3],
        &[2, 0, 3, 0, 2, 5, 0],
        &[2, 0, 3, 7, 2, 5, 8],
        &[2, 0, 3, 7, 0, 3, 7],
        &[3, 0, 9, 7, 1, 2, 7, 9, 10, 7],
        &[2, 3, 5, 0, 0, 3, 0],
    ];
    for numbers in bad {
        let mut plan = tables(&free_map(1, 2));
        plan.spans[SPAN_NUMBERS..][..numbers.len()].copy_from_slice(numbers);
        assert_eq!(checked(&plan), (10, 1), "{numbers:?}");
    }
    let mut plan = tables(&free_map(1, 1));
    plan.spans[0] = 8;
    for at in 0..8 {
        let lo = at as i32;
        plan.spans[1 + PER_SPAN * at..][..2].copy_from_slice(&[lo, lo + 1]);
    }
    assert_eq!(checked(&plan), (0, 0));
}

#[test]
fn unused_numbers_are_not_looked_at() {
    let mut plan = tables(&sound());
    for d in 0..4 {
        plan.links[6 * d + 3..6 * d + 6].fill(u16::MAX);
        plan.places[5 * d + 2..5 * d + 5].fill(d as i32);
        plan.spans[SPAN_NUMBERS * d..][4..SPAN_NUMBERS].fill(-(d as i32));
    }
    plan.links.extend([9; 7]);
    plan.places.extend([9; 6]);
    plan.spans.extend([9; SPAN_NUMBERS + 1]);
    assert_eq!(checked(&plan), (0, 0));
    let (mut one, mut other) = (lifted_tables(100, 1), lifted_tables(100, 2));
    let first = lift(&tables(&sound()).raw(), one.lent());
    let second = lift(&plan.raw(), other.lent());
    assert_eq!((first, one), (second, other));
}

#[test]
fn lift_3_22_4_6_to_11_20() {
    let call = |plan: &Plan, rows: usize| {
        let before = lifted_tables(rows, 8);
        let mut after = before.clone();
        let answer = lift(&plan.raw(), after.lent());
        assert_eq!(after == before, answer.number != 0);
        (answer.number, answer.value)
    };
    let mut plan = tables(&sound());
    let size = 4 * (2 * 2 + 2 * 2 + 2);
    assert_eq!(call(&plan, size), (0, size - 4));
    assert_eq!(call(&plan, size - 4), (0, size - 4));
    assert_eq!(call(&plan, size - 5), (20, 0));
    plan.spans[SPAN_NUMBERS] = 7;
    assert_eq!(call(&plan, 0).0, 10);
    plan.links[7] = 4;
    assert_eq!(call(&plan, 0), (6, 1));
    plan.count = 5;
    assert_eq!(call(&plan, 0), (4, 0));
    plan.dimension = 5;
    assert_eq!(call(&plan, 0), (22, 0));
    plan.dimension = 6;
    assert_eq!(call(&plan, 0), (3, 0));
}

#[test]
fn pieces_3_4_6_to_11_axis_dart_20() {
    let call = |plan: &Plan, dart: usize, axis: u8, length: usize| {
        let mut memory = vec![8; length];
        let answer = pieces(&plan.raw(), dart, axis, &mut memory);
        assert!(answer.0 == 0 || memory.iter().all(|&n| n == 8));
        answer
    };
    let mut plan = tables(&sound());
    assert_eq!(call(&plan, 0, 0, 6), (0, 3));
    assert_eq!(call(&plan, 0, 0, 5), (20, 0));
    assert_eq!(call(&plan, 4, 0, 5), (4, 0));
    assert_eq!(call(&plan, 4, 3, 5), (3, 0));
    assert_eq!(call(&plan, 0, 2, 2), (0, 1));
    plan.spans[3 * SPAN_NUMBERS] = 9;
    assert_eq!(call(&plan, 4, 3, 5), (10, 0));
    plan.count = 5;
    assert_eq!(call(&plan, 4, 3, 5), (4, 0));
    plan.dimension = 0;
    assert_eq!(call(&plan, 4, 3, 5), (3, 0));
    let none = tables(&free_map(5, 0));
    assert_eq!(call(&none, 0, 6, 0), (3, 0));
    assert_eq!(call(&none, 0, 5, 0), (4, 0));
    assert_eq!(call(&tables(&free_map(5, 1)), 0, 5, 0), (0, 0));
}

#[test]
fn rows_are_parts() {
    let plan: Vec<u16> = (0..17).collect();
    let lifted: Vec<u16> = (100..112).collect();
    assert_eq!(row_of(&plan, &lifted, 0, 1), [6, 7, 8, 9, 10, 11]);
    assert_eq!(row_of(&plan, &lifted, 1, 1), [106, 107, 108, 109, 110, 111]);
    for (side, dart) in [(0, 2), (1, 2), (2, 0), (255, 0), (0, usize::MAX)] {
        let part = reference::calls::row(&plan, &lifted, side, dart);
        assert!(part.is_empty() && part.as_ptr() == plan.as_ptr());
    }
}

fn row_of<'a>(plan: &'a [u16], lifted: &'a [u16], side: u8, dart: usize) -> &'a [u16] {
    reference::calls::row(plan, lifted, side, dart)
}

#[test]
fn looseness_3_4() {
    let links = [0, 1, 0, 9, 0, 0, 1, 1, 40_000, 1, 1, 1, 2, 2, 2, 2, 2];
    let call = |dimension, dart| {
        let loose = looseness(&links, dimension, dart);
        (loose.number, loose.bits, loose.ones)
    };
    assert_eq!(call(0, 9), (3, 0, 0));
    assert_eq!(call(6, 0), (3, 0, 0));
    assert_eq!(call(1, 2), (4, 0, 0));
    assert_eq!(call(1, usize::MAX), (4, 0, 0));
    assert_eq!(call(1, 0), (0, 0b01, 1));
    assert_eq!(call(5, 0), (0, 0b11_0101, 4));
    assert_eq!(call(5, 1), (0, 0b11_1011, 5));
}
