//! The README shows files of this repository as they are.

use std::env;
use std::fs;
use std::process::Command;

const TOP: &str = concat!(env!("CARGO_MANIFEST_DIR"), "/../..");
/// What stands for lines that are left out.
const GAP: &str = "..";

fn file(name: &str) -> String {
    fs::read_to_string(format!("{TOP}/{name}")).expect(name)
}

/// The text of the README's block of a kind.
fn block(kind: &str) -> String {
    let page = file("README.md");
    let (_, rest) = page.split_once(&format!("\n```{kind}\n")).expect(kind);
    let (block, _) = rest.split_once("```").expect("an end");
    block.to_string()
}

#[test]
fn both_programs_are_shown_whole() {
    assert_eq!(block("rust"), file("rust/laremban/examples/square.rs"));
    assert_eq!(block("c"), file("examples/square.c"));
}

/// Cargo builds the examples with the tests, in a folder beside theirs.
#[test]
fn the_program_in_rust_prints_what_is_told() {
    let test = env::current_exe().expect("a path");
    let folder = test.ancestors().nth(2).expect("a folder");
    let out = Command::new(folder.join("examples/square"))
        .output()
        .expect("the example, which `cargo build --example square` makes too");
    let told = String::from_utf8(out.stdout).expect("a text");
    assert!(out.status.success());
    let numbers = "[48, 8, 12, 6, 1]";
    assert_eq!(
        told,
        format!("darts, corners, edges, faces, solids: {numbers}\n")
    );
    assert!(file("README.md").contains(numbers));
}

/// Whether a block is the lines of a text in their order, with gaps.
fn shown(block: &str, text: &str) -> bool {
    let mut lines = text.lines();
    (block.lines())
        .filter(|&line| line != GAP)
        .all(|line| lines.any(|other| other == line))
}

#[test]
fn the_street_is_shown_as_it_is() {
    assert!(shown(&block("parcels"), &file("examples/street.parcels")));
    assert!(shown(&block("solids"), &file("examples/street.out")));
    assert!(!shown("garage", &file("examples/street.out")));
}
