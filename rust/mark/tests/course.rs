//! What the course says of a wrong lifter is what the marker tells of it.

mod common;

use common::{example, marker, printed};
use std::fs;

/// The script of step 20, line by line.
fn step_20() -> Vec<String> {
    let page = concat!(env!("CARGO_MANIFEST_DIR"), "/../../docs/COURSE.md");
    let page = fs::read_to_string(page).expect("the course");
    let (_, step) = page.split_once("\n### 20. ").expect("step 20");
    assert!(step.contains("`tools/mark --dimension 1 ./lifter >wrong.script`"));
    let (_, script) = step.split_once("\n```script\n").expect("a script");
    let (script, _) = script.split_once("\n```").expect("its end");
    script.lines().map(str::to_string).collect()
}

#[test]
fn step_20_has_what_is_told_of_case_e() {
    let lifter = example("lifter");
    let lifter = lifter.to_str().expect("a path");
    let mistake = "keeps touching solids apart";
    let out = marker(&["--dimension", "1", lifter, mistake]);
    let told = printed(&out);
    assert_eq!(out.status.code(), Some(1), "{told}");
    let first = told.lines().position(|line| line.starts_with("# dart "));
    let first = first.expect("a dart that differs");
    let told: Vec<&str> = told.lines().skip(first).collect();
    let script = step_20();
    // The last line is the reader's own.
    let (show, script) = script.split_last().expect("lines");
    assert_eq!(script, told);
    assert!(show.starts_with("SHOW "), "{show}");
}
