//! The examples E1 to E12, E7 by document 02, and the fourteen-sided face, all
//! claims of each.

mod common;

use common::*;
use reference::calls::{Answer, Lent, check, lift, pieces};
use reference::lift::{Name, names};
use reference::map::is_valid;
use reference::orbit::count_cells;
use reference::print::printed;
use reference::run::{Ended, run};
use reference::span::Side;
use reference::widths::*;

const E1: &str = "10 01 11 11 12 00 0000 0001 14 0001 00 00000004
    15 0000 00000000 00000003 17 19 01 00";

/// Two edges 0-1 and 2-3 with one span each, 1 and 2 at one corner, lifted.
fn two_edges(one: (i32, i32), other: (i32, i32)) -> Ended {
    program(
        &(darts(1, 4)
            + &sew(0, 0, 1)
            + &sew(0, 2, 3)
            + &span(0, one.0, one.1)
            + &span(2, other.0, other.1)
            + &sew(1, 1, 2)
            + " 17"),
    )
}

#[test]
fn e1_prints_nine_lines() {
    let wanted = "0 0\n0 0\n0 1\n0 2\n0 1\n0 2\n0 8\n0 4\nend 0 8 8 0\n";
    assert_eq!(printed(&hex(E1)), wanted);
}

#[test]
fn e2_shares_a_corner() {
    let ended = two_edges((0, 3), (1, 5));
    assert_eq!(ended.refused, 0);
    assert_eq!(ended.lifted.map.count(), 20);
    let list = names(&ended.plan, 20).expect("20 names");
    let at = |d, t, s| {
        let name = Name { d, k: 0, t, s };
        list.iter().position(|&n| n == name).expect("a lifted dart")
    };
    let up = at(1, 1, Side::Up);
    assert_eq!(ended.lifted.map.link(up, 2), at(2, 1, Side::Up));
    let down = at(1, 1, Side::Down);
    assert!(ended.lifted.map.is_free(down, 2));
    let plan = tables(&ended.plan);
    for corner in [1, 2] {
        let mut memory = [9; 7];
        assert_eq!(pieces(&plan.raw(), corner, 0, &mut memory), (0, 3));
        assert_eq!(memory, [0, 1, 1, 3, 3, 5, 9]);
    }
}

#[test]
fn e3_keeps_touching_spans_apart() {
    let text = darts(1, 2) + &sew(0, 0, 1) + &span(0, 0, 2) + &span(0, 2, 5) + " 17";
    let counts = " 19 01 00 19 01 01 19 01 02";
    let ended = program(&(text + counts));
    let values: Vec<u16> = ended
        .replies
        .iter()
        .rev()
        .take(4)
        .map(|r| r.value)
        .collect();
    assert_eq!(values, [2, 7, 6, 16]);
    assert_eq!(ended.refused, 0);
}

#[test]
fn e4_does_not_join_across_a_height() {
    let ended = two_edges((0, 1), (1, 2));
    assert_eq!(ended.lifted.map.count(), 16);
    assert_eq!(count_cells(&ended.lifted.map, 0), 8);
}

#[test]
fn e5_sews_no_dart_with_itself() {
    for dim in 1..=4 {
        for axis in 0..=dim {
            assert_eq!(last(&(darts(dim, 1) + &sew(axis, 0, 0))), (15, 0));
        }
    }
}

#[test]
fn e6_wants_a_span_with_height() {
    let text = darts(1, 1) + &span(0, 3, 3) + &span(0, 3, 4);
    assert_eq!(numbers(&text), [0, 0, 5, 0]);
}

/// The plan is a dart alone, so that each span's value is 1.
#[test]
fn e7_touching_is_no_overlap() {
    let touching = darts(1, 1) + &span(0, 0, 3) + &span(0, 3, 5);
    assert_eq!(last(&touching), (0, 1));
    assert_eq!(program(&touching).plan.row(0), row(&[(0, 3), (3, 5)]));
    let joined = touching + &span(0, 2, 5);
    assert_eq!(last(&joined), (0, 1));
    assert_eq!(program(&joined).plan.row(0), row(&[(0, 5)]));
    assert_eq!(numbers(&joined), [0; 5]);
}

#[test]
fn e8_has_room_for_eight() {
    let mut text = darts(1, 1);
    for at in 0..9 {
        text += &span(0, 10 * at, 10 * at + 5);
    }
    assert_eq!(numbers(&text), [0, 0, 0, 0, 0, 0, 0, 0, 0, 0, 19]);
}

#[test]
fn e9_fits_exactly_or_not() {
    let fits = run(&hex(E1), PROGRAM_PLAN, 8, PROGRAM_REPLY);
    assert_eq!(four(&fits), (0, 8, 8, 0));
    let short = run(&hex(E1), PROGRAM_PLAN, 7, PROGRAM_REPLY);
    assert_eq!(four(&short), (0, 8, 6, 2));
    let tail: Vec<u8> = short.replies[6..].iter().map(|r| r.number).collect();
    assert_eq!(tail, [20, 21]);
    assert!(short.lifted.map.is_blank());
}

#[test]
fn e10_link_does_not_undo_itself() {
    let mut map = free_map(1, 2);
    map.darts[0].links[0] = 1;
    let answer = check(&tables(&map).raw());
    assert_eq!(
        answer,
        Answer {
            number: 7,
            value: 0
        }
    );
}

#[test]
fn e11_pair_does_not_undo_itself() {
    let mut map = free_map(2, 3);
    swap(&mut map, 0, 0, 1);
    swap(&mut map, 2, 1, 2);
    let answer = check(&tables(&map).raw());
    assert_eq!(
        answer,
        Answer {
            number: 8,
            value: 0
        }
    );
}

#[test]
fn e12_lifts_nothing_to_nothing() {
    assert_eq!(last(&(darts(1, 2) + &sew(0, 0, 1) + " 17")), (0, 0));
    assert_eq!(last("10 03 17"), (0, 0));
    let plan = tables(&free_map(2, 1));
    let (mut links, mut places, mut objects) = ([9; 7], [9; 6], [9; 2]);
    let lent = Lent {
        links: &mut links,
        places: &mut places,
        objects: &mut objects,
        work: 0,
    };
    let answer = lift(&plan.raw(), lent);
    assert_eq!(
        answer,
        Answer {
            number: 0,
            value: 0
        }
    );
    assert_eq!((links, places, objects), ([0; 7], [0; 6], [0; 2]));
}

/// A face with fourteen sides, lifted along 0..1, adopted, lifted again.
fn fourteen_sides() -> String {
    let mut text = darts(2, 28);
    for side in 0..14 {
        text += &sew(0, 2 * side, 2 * side + 1);
        text += &sew(1, 2 * side + 1, (2 * side + 2) % 28);
    }
    text + &span(0, 0, 1) + " 17 18" + &span(0, 0, 1) + " 17"
}

#[test]
fn fourteen_sides_lifted_twice() {
    let text = fourteen_sides() + " 19 01 00 19 01 01 19 01 02 19 01 03 19 01 04";
    let ended = run(&hex(&text), PROGRAM_PLAN, 1_344, PROGRAM_REPLY);
    assert_eq!(ended.refused, 0);
    let values: Vec<u16> = ended.replies[58..].iter().map(|r| r.value).collect();
    assert_eq!(values, [168, 168, 168, 1_344, 56, 112, 74, 18, 1]);
    assert!(is_valid(&ended.plan) && is_valid(&ended.lifted.map));
    assert_eq!((ended.plan.dim, ended.lifted.map.dim), (3, 4));
    assert_eq!(last(&fourteen_sides()), (20, 0));
}
