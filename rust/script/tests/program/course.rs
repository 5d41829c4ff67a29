//! The course, the page on the lift and the README: each script in them prints
//! what stands below it, and each text of a map is that of the script before it.

use crate::{TOP, script, text, told};
use std::fs;

/// The blocks of a page, each with what stands behind its first fence.
fn blocks(page: &str) -> Vec<(String, String)> {
    let page = fs::read_to_string(format!("{TOP}/{page}")).expect(page);
    let mut blocks: Vec<(String, String)> = Vec::new();
    let mut open = false;
    for line in page.lines() {
        match (line.strip_prefix("```"), open) {
            (Some(kind), false) => blocks.push((kind.to_string(), String::new())),
            (Some(_), true) => {}
            (None, true) => {
                let (_, block) = blocks.last_mut().expect("an open block");
                block.push_str(line);
                block.push('\n');
            }
            (None, false) => {}
        }
        open ^= line.starts_with("```");
    }
    assert!(!open, "a block is not closed");
    blocks
}

/// The scripts of a page: each prints what stands below it.
fn scripts(page: &str) -> Vec<String> {
    let blocks = blocks(page);
    let mut scripts: Vec<String> = Vec::new();
    for (at, (kind, block)) in blocks.iter().enumerate() {
        let before = at.checked_sub(1).map(|at| blocks[at].0.as_str());
        match kind.as_str() {
            "script" => {
                let output = blocks.get(at + 1).filter(|(kind, _)| kind == "output");
                let (_, output) = output.unwrap_or_else(|| panic!("no output: {block}"));
                assert_eq!(&told(&[], block), output);
                scripts.push(block.clone());
            }
            "output" => assert_eq!(before, Some("script"), "no script: {block}"),
            "plan" => assert_eq!(map_text("plan", scripts.last()), *block),
            "map" => assert_eq!(map_text("lifted", scripts.last()), *block),
            _ => {}
        }
    }
    scripts
}

/// The map of a side that a script leaves, as text.
fn map_text(side: &str, list: Option<&String>) -> String {
    let list = list.expect("a script before it");
    text(&script(&["--text", side], list.as_bytes()).stdout)
}

#[test]
fn every_script_of_a_page_prints_what_stands_below_it() {
    assert!(scripts("docs/COURSE.md").len() >= 30);
    assert!(!scripts("docs/LIFT.md").is_empty());
    assert!(!scripts("README.md").is_empty());
}

/// What a student has to meet somewhere: a line, told so.
const MET: [(&str, &str); 9] = [
    ("SEW 2 ", ": 4 darts linked"),
    ("SEW 3 ", ": 16 darts linked"),
    ("UNSEW 3 ", ": 16 darts freed"),
    ("UNSEW 4 ", ": 96 darts freed"),
    ("LIFT", ": 8 darts"),
    ("LIFT", ": 48 darts"),
    ("LIFT", ": 384 darts"),
    ("LIFT", ": 3840 darts"),
    ("LIFT", ": refused by 22: "),
];

#[test]
fn the_course_goes_from_an_edge_to_dimension_five() {
    let scripts = scripts("docs/COURSE.md");
    let told: Vec<String> = scripts.iter().map(|list| told(&[], list)).collect();
    for (begins, ends) in MET {
        let met = |line: &str| line.starts_with(begins) && line.contains(ends);
        let mut lines = told.iter().flat_map(|told| told.lines());
        assert!(lines.any(met), "{begins}..{ends}");
    }
}

/// Each exercise has its answer, in the same order, and each answer a script.
#[test]
fn every_exercise_has_an_answer_with_a_script() {
    let page = fs::read_to_string(format!("{TOP}/docs/COURSE.md")).expect("the course");
    let (_, rest) = page.split_once("\n## Exercises\n").expect("exercises");
    let (asked, answered) = rest.split_once("\n## Answers\n").expect("answers");
    let asked = asked.lines().filter_map(|line| line.split_once(". "));
    let asked: Vec<usize> = asked
        .filter_map(|(number, _)| number.parse().ok())
        .collect();
    assert_eq!(asked, (1..=asked.len()).collect::<Vec<_>>());
    let mut answers = answered.split("\n**").skip(1);
    for number in asked {
        let answer = answers.next().unwrap_or_default();
        assert!(answer.starts_with(&format!("{number}.**")), "{number}");
        assert!(answer.contains("\n```script\n"), "{number}");
    }
    assert_eq!(answers.next(), None);
}
