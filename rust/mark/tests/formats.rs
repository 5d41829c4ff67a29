//! What docs/FORMATS.md shows of marking is what is read and printed.

mod common;

use common::{example, marker, printed};
use laremban::text;
use laremban_mark::sheet::Sheet;
use std::fs;

/// The indented block of the page that begins with a line, without its blanks.
fn block(first: &str) -> String {
    let page = concat!(env!("CARGO_MANIFEST_DIR"), "/../../docs/FORMATS.md");
    let page = fs::read_to_string(page).expect("a page");
    let lines = page.lines().skip_while(|line| line.trim_start() != first);
    let lines = lines.map_while(|line| line.strip_prefix("    "));
    lines.map(|line| format!("{line}\n")).collect()
}

#[test]
fn the_plan() {
    let written = block("laremban-plan 2 1 4");
    let plan = text::plan::read(&written).expect("a plan");
    let sheet = Sheet::of(&plan.tables.map(plan.dimension, plan.count));
    assert_eq!(sheet.text(), written);
    let lifted = sheet.lifted().expect("a lift");
    let lifted = text::write(lifted.map());
    let lines: Vec<&str> = lifted.lines().collect();
    assert_eq!(
        (lines[0], lines[7]),
        ("laremban-map 2 2 20", "7 5 10 4 1 101")
    );
    assert!(fs::read_to_string(concat!(env!("CARGO_MANIFEST_DIR"), "/../../docs/FORMATS.md"))
        .expect("a page")
        .contains("that is `laremban-map 2 2 20`, and 20 lines with three links, two coordinates and an object each, of which that of dart 6 is `7 5 10 4 1 101`"));
}

#[test]
fn what_is_printed() {
    let lifter = example("lifter");
    let out = marker(&[lifter.to_str().expect("a path"), "never links across"]);
    assert_eq!(printed(&out), block("# dimension 1: 12 of 50 sheets right"));
}
