//! The README shows the example of this crate as it is, and its first lines.

mod common;

use common::{TOP, ran};
use std::process::Command;
use std::{env, fs};

#[test]
fn the_program_is_shown_whole_and_prints_what_is_told() {
    let page = fs::read_to_string(format!("{TOP}/README.md")).expect("the page");
    let program = format!("{TOP}/rust/parcels/examples/volumes.rs");
    let program = fs::read_to_string(program).expect("the example");
    assert!(page.contains(&format!("\n```rust\n{program}```\n")));
    // Cargo builds the examples with the tests, in a folder beside theirs.
    let test = env::current_exe().expect("a path");
    let folder = test.ancestors().nth(2).expect("a folder");
    let told = ran(Command::new(folder.join("examples/volumes")).current_dir(TOP));
    assert_eq!((told.status, &told.err[..]), (Some(0), ""));
    let lines: Vec<&str> = told.out.lines().collect();
    assert_eq!(lines[..2], ["garage 0..3: 72", "house 0..3: 144"]);
    assert_eq!((lines.len(), lines[8]), (9, "kiosk 5..8: 13.5"));
    assert!(page.contains("`garage 0..3: 72`"));
}
