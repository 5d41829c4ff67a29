//! Spans that say whose they are: command 1A, rows that are told apart by their
//! objects, and the objects that lifted darts carry.

mod common;

use common::*;
use reference::calls::{check, lift};
use reference::cases::Plan;
use reference::command::{Command, read};
use reference::map::Span;
use reference::print::printed;
use reference::run::{Lengths, run, run_on_tables};
use reference::widths::*;

/// An edge of a line with spans 0..2 of one object and 2..5 of another.
fn e3(one: u16, other: u16) -> String {
    darts(1, 2) + &sew(0, 0, 1) + &span_of(0, 0, 2, one) + &span_of(0, 2, 5, other)
}

#[test]
fn a_row_has_twenty_five_numbers() {
    assert_eq!((PER_SPAN, SPAN_NUMBERS, OBJECTS), (3, 25, 1));
    assert_eq!(OBJECT_LIMIT, 65_536);
    let ended = program(&e3(7, 0xfffe));
    assert_eq!(ended.refused, 0);
    let spans = tables(&ended.plan).spans;
    for row in spans.chunks_exact(SPAN_NUMBERS) {
        assert_eq!(row[..7], [2, 0, 2, 7, 2, 5, 0xfffe]);
        assert_eq!(row[7..], [0; 18]);
    }
}

#[test]
fn the_program_has_room_for_192_and_512() {
    let text = printed(&hex(&darts(1, 193)));
    assert!(text.ends_with("0 191\n13 0\nend 0 194 193 1\n"));
    // Each dart without a neighbour has eight darts above two spans.
    let mut text = darts(1, 64);
    for dart in 0..64 {
        text += &(span(dart, 0, 1) + &span(dart, 2, 3));
    }
    assert!(printed(&hex(&(text.clone() + "17"))).contains("0 512\nend"));
    let full = text + "11" + &span(64, 0, 1) + "17";
    assert!(printed(&hex(&full)).contains("20 0\nend"));
}

#[test]
fn a_span_of_an_object_is_read_from_twelve_bytes() {
    let bytes = hex("1a 0102 fffffffe 00000003 ffff 11");
    let wanted = Command::SpanOf {
        dart: 0x102,
        lo: -2,
        hi: 3,
        object: 0xffff,
    };
    let found = read(&bytes, 0);
    assert_eq!((found.command, found.next), (wanted, 13));
    for short in 1..13 {
        let found = read(&bytes[..short], 0);
        let unreadable = Command::Unreadable { number: 2 };
        assert_eq!((found.command, found.next), (unreadable, short));
    }
    assert_eq!(last("1b"), (1, 0));
}

#[test]
fn span_of_an_object_12_4_5_18_19() {
    assert_eq!(last(&span_of(9, 3, 3, 1)), (12, 0));
    assert_eq!(last(&(darts(1, 0) + &span_of(0, 3, 3, 1))), (4, 0));
    let mut full = darts(1, 1);
    for at in 0..8 {
        full += &span_of(0, at, at + 1, at as u16);
    }
    assert_eq!(last(&full), (0, 1));
    assert_eq!(last(&(full.clone() + &span_of(0, 3, 3, 1))), (5, 0));
    // Its own it may overlap: they become one.
    assert_eq!(last(&(full.clone() + &span_of(0, 7, 9, 7))), (0, 1));
    assert_eq!(last(&(full.clone() + &span_of(0, 7, 9, 8))), (18, 0));
    assert_eq!(last(&(full.clone() + &span_of(0, 6, 9, 7))), (18, 0));
    assert_eq!(last(&(full.clone() + &span_of(0, 8, 9, 7))), (19, 0));
    assert_eq!(last(&(full + &span_of(0, 8, 9, 8))), (19, 0));
    let edge = darts(1, 2) + &sew(0, 0, 1);
    assert_eq!(last(&(edge + &span_of(1, -1, 1, 0xffff))), (0, 2));
}

#[test]
fn span_sets_object_0() {
    let one = program(&(darts(1, 1) + &span(0, 3, 9)));
    let other = program(&(darts(1, 1) + &span_of(0, 3, 9, 0)));
    assert_eq!((one.plan, one.replies), (other.plan, other.replies));
}

#[test]
fn rows_stand_by_height_and_not_by_object() {
    let text = darts(1, 1) + &span_of(0, 4, 5, 1) + &span_of(0, 0, 2, 9) + &span_of(0, 2, 3, 0);
    let spans = [(0, 2, 9), (2, 3, 0), (4, 5, 1)];
    let wanted = spans.map(|(lo, hi, object)| Span { lo, hi, object });
    assert_eq!(program(&text).plan.row(0), wanted);
}

#[test]
fn sew_wants_equal_objects() {
    let pair = |one, other| darts(1, 2) + &span_of(0, 0, 3, one) + &span_of(1, 0, 3, other);
    assert_eq!(last(&(pair(1, 2) + &sew(0, 0, 1))), (16, 0));
    assert_eq!(last(&(pair(2, 2) + &sew(0, 0, 1))), (0, 2));
    // Along the top axis two top cells meet, and rows may differ.
    assert_eq!(last(&(pair(1, 2) + &sew(1, 0, 1))), (0, 2));
    let plain = darts(1, 2) + &span(0, 0, 3) + &span_of(1, 0, 3, 0);
    assert_eq!(last(&(plain + &sew(0, 0, 1))), (0, 2));
    // The named darts have equal rows, and those across them do not.
    let wide = darts(2, 4) + &sew(2, 0, 1) + &sew(2, 2, 3);
    let rows = span_of(1, 0, 3, 5) + &span_of(3, 0, 3, 6);
    assert_eq!(last(&(wide + &rows + &sew(0, 0, 2))), (16, 0));
}

/// What check answers, as a pair.
fn checked(plan: &Plan) -> (u8, usize) {
    let answer = check(&plan.raw());
    (answer.number, answer.value)
}

/// The tables of an edge with two spans of objects 7 and 9.
fn edge() -> Plan {
    tables(&program(&e3(7, 9)).plan)
}

#[test]
fn check_10_for_objects() {
    for (object, wanted) in [
        (0, 11),
        (65_535, 11),
        (65_536, 10),
        (-1, 10),
        (i32::MIN, 10),
        (i32::MAX, 10),
    ] {
        for span in [0, 1] {
            let mut plan = edge();
            plan.spans[SPAN_NUMBERS + 3 + PER_SPAN * span] = object;
            let dart = usize::from(wanted == 10);
            assert_eq!(checked(&plan), (wanted, dart), "{object}");
            // In both darts' rows: equal, and right where the object is one.
            plan.spans[3 + PER_SPAN * span] = object;
            let number = if wanted == 10 { 10 } else { 0 };
            assert_eq!(checked(&plan), (number, 0), "{object}");
        }
        let mut plan = edge();
        for unused in 2..SPANS {
            plan.spans[3 + PER_SPAN * unused] = object;
        }
        assert_eq!(checked(&plan), (0, 0), "unused {object}");
    }
}

#[test]
fn check_11_for_an_object_alone() {
    for span in [0, 1] {
        let mut plan = edge();
        plan.spans[3 + PER_SPAN * span] += 1;
        assert_eq!(checked(&plan), (11, 0));
        plan.links[0] = 0;
        plan.links[LINKS] = 1;
        assert_eq!(checked(&plan), (0, 0));
    }
}

#[test]
fn e3_with_objects_7_and_9() {
    let ended = program(&(e3(7, 9) + " 17"));
    assert_eq!(ended.lifted.objects, [7, 7, 9, 9].repeat(4));
    assert_eq!(ended.lifted.map, program(&(e3(0, 0) + " 17")).lifted.map);
    let mut lent = lifted_tables(18, 5);
    assert_eq!(lift(&edge().raw(), lent.lent()).value, 16);
    let wanted = [[7, 7, 9, 9].repeat(4), vec![0; 2]].concat();
    assert_eq!(lent.objects, wanted);
}

#[test]
fn objects_of_neighbours_are_their_own() {
    // Two edges around a corner: each dart carries what is over its own edge.
    let text = darts(1, 4)
        + &sew(0, 0, 1)
        + &sew(0, 2, 3)
        + &span_of(0, 0, 3, 1)
        + &span_of(2, 1, 5, 2)
        + &sew(1, 1, 2)
        + " 17";
    let ended = program(&text);
    let list = reference::lift::names(&ended.plan, 20).expect("20 names");
    for (name, &object) in list.iter().zip(&ended.lifted.objects) {
        assert_eq!(object, if name.d < 2 { 1 } else { 2 });
    }
}

#[test]
fn the_table_of_objects_counts_for_the_capacity() {
    let plan = edge();
    for (rows, number) in [(16, 0), (15, 20)] {
        let mut lent = lifted_tables(20, 6);
        lent.objects.truncate(rows);
        let before = lent.clone();
        assert_eq!(lift(&plan.raw(), lent.lent()).number, number);
        assert_eq!(lent == before, number == 20);
    }
}

/// Lengths for so many rows a side, and so many objects.
fn lengths(rows: usize, objects: usize) -> Lengths {
    Lengths {
        plan_links: LINKS * rows,
        plan_places: COORDINATES * rows,
        plan_spans: SPAN_NUMBERS * rows,
        plan_work: WORK * rows,
        lifted_links: LINKS * rows,
        lifted_places: COORDINATES * rows,
        lifted_objects: objects,
        lifted_work: WORK * rows,
    }
}

/// The objects that a run leaves in a table of this length.
fn objects_after(text: &str, objects: usize) -> Vec<u16> {
    run_on_tables(&hex(text), lengths(20, objects), &[0; 300]).lifted_objects
}

#[test]
fn a_run_in_a_table_of_objects() {
    let text = e3(7, 9) + " 17";
    assert_eq!(objects_after(&text, 16), [7, 7, 9, 9].repeat(4));
    assert_eq!(objects_after(&text, 15), [0; 15]);
    assert_eq!(run(&hex(&text), 20, 15, 99).replies[6].number, 20);
    // No command at all: the table is blank, whatever it held.
    assert_eq!(objects_after("", 3), [0; 3]);
    // A smaller lift after a larger one.
    let smaller = text.clone() + " 16 0000" + &span_of(0, 0, 1, 4) + " 17";
    let wanted = [vec![4; 8], vec![0; 11]].concat();
    assert_eq!(objects_after(&smaller, 19), wanted);
    assert_eq!(objects_after(&(text + " 16 0000 17"), 17), [0; 17]);
}

#[test]
fn edits_and_refusals_leave_the_objects() {
    let kept = [[7, 7, 9, 9].repeat(4), vec![0]].concat();
    let text = e3(7, 9) + " 17";
    let larger = text.clone() + &span_of(0, 6, 7, 3) + " 17";
    assert_eq!(run(&hex(&larger), 20, 17, 99).replies[8].number, 20);
    assert_eq!(objects_after(&larger, 17), kept);
    for edit in [
        "10 02",
        "16 0000",
        "11",
        "13 00 0000",
        "18",
        "10 01 17 10 09",
    ] {
        let after = objects_after(&format!("{text} {edit}"), 17);
        let is_lift = edit.contains("17");
        assert_eq!(after == kept, !is_lift, "{edit}");
    }
}

#[test]
fn adopting_takes_no_object() {
    let text = e3(7, 9) + " 17 18";
    let ended = program(&text);
    assert!(ended.plan.darts.iter().all(|dart| dart.row.is_empty()));
    assert_eq!(ended.lifted.objects, [7, 7, 9, 9].repeat(4));
    let again = program(&(text.clone() + &span(0, 0, 1) + " 17"));
    assert!(again.lifted.objects.len() > 16);
    assert!(again.lifted.objects.iter().all(|&object| object == 0));
    let other = program(&(text + &span_of(0, 0, 1, 3) + " 17"));
    assert!(other.lifted.objects.iter().all(|&object| object == 3));
}
