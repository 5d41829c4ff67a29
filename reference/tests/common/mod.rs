//! Small helpers shared by the tests.
#![allow(dead_code)]

use reference::cases::{LiftedTables, Plan};
use reference::map::{Dart, Map, Span};
use reference::run::{Ended, run};
use reference::table::{write_links, write_places, write_spans};
use reference::widths::*;

/// Bytes from hexadecimal digits; spaces are for the reader only.
pub fn hex(text: &str) -> Vec<u8> {
    let digits: String = text.split_whitespace().collect();
    assert!(
        digits.len().is_multiple_of(2),
        "odd number of digits in {text}"
    );
    (0..digits.len() / 2)
        .map(|at| u8::from_str_radix(&digits[2 * at..2 * at + 2], 16).expect("digits"))
        .collect()
}

/// A run with the program's room.
pub fn program(text: &str) -> Ended {
    run(&hex(text), PROGRAM_PLAN, PROGRAM_LIFTED, PROGRAM_REPLY)
}

/// The reply numbers of a run with the program's room.
pub fn numbers(text: &str) -> Vec<u8> {
    program(text).replies.iter().map(|r| r.number).collect()
}

/// The last reply of a run with the program's room, as number and value.
pub fn last(text: &str) -> (u8, u16) {
    let ended = program(text);
    let reply = ended.replies.last().expect("a reply");
    (reply.number, reply.value)
}

/// The four numbers of a run.
pub fn four(ended: &Ended) -> (u8, usize, usize, usize) {
    (ended.number, ended.taken, ended.accepted, ended.refused)
}

/// `NEW dim` and so many darts.
pub fn darts(dim: u8, count: usize) -> String {
    format!("10 {dim:02x} {}", "11 ".repeat(count))
}

/// A SEW.
pub fn sew(axis: u8, a: u16, b: u16) -> String {
    format!(" 12 {axis:02x} {a:04x} {b:04x}")
}

/// A SPAN.
pub fn span(dart: u16, lo: i32, hi: i32) -> String {
    format!(" 15 {dart:04x} {lo:08x} {hi:08x}")
}

/// A SPAN of an object: command 1A.
pub fn span_of(dart: u16, lo: i32, hi: i32, object: u16) -> String {
    format!(" 1a {dart:04x} {lo:08x} {hi:08x} {object:04x}")
}

/// A map of darts that are free everywhere, at place 0, without spans.
pub fn free_map(dim: usize, count: usize) -> Map {
    let dart = |own| Dart {
        links: vec![own; dim + 1],
        place: vec![0; dim],
        row: Vec::new(),
    };
    Map {
        dim,
        darts: (0..count).map(dart).collect(),
    }
}

/// Links two darts both ways.
pub fn swap(map: &mut Map, axis: usize, a: usize, b: usize) {
    map.darts[a].links[axis] = b;
    map.darts[b].links[axis] = a;
}

/// A row of spans.
pub fn row(spans: &[(i32, i32)]) -> Vec<Span> {
    let span = |&(lo, hi)| Span {
        lo,
        hi,
        object: SPAN_OBJECT,
    };
    spans.iter().map(span).collect()
}

/// Lifted tables of so many rows, full of one number.
pub fn lifted_tables(rows: usize, held: u16) -> LiftedTables {
    LiftedTables {
        links: vec![held; LINKS * rows],
        places: vec![held.into(); COORDINATES * rows],
        objects: vec![held; OBJECTS * rows],
        work: WORK * rows,
    }
}

/// Tables that just hold a map.
pub fn tables(map: &Map) -> Plan {
    Plan {
        links: write_links(map, LINKS * map.count()),
        places: write_places(map, COORDINATES * map.count()),
        spans: write_spans(map, SPAN_NUMBERS * map.count()),
        work: WORK * map.count(),
        dimension: map.dim as u8,
        count: map.count(),
    }
}
