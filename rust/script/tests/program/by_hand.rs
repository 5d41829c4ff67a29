//! What the course and the page on the lift work out by hand is what the tool
//! shows: numbers of names, and links with their cases.

use crate::{TOP, told};
use std::collections::BTreeMap;
use std::fs;

/// A lifted dart as the tool shows it: its number, and its links, each with its
/// case's letter.
struct Shown {
    number: String,
    links: Vec<(String, String)>,
}

/// The lifted darts of a script, by their names.
fn shown(script: &str) -> BTreeMap<String, Shown> {
    let told = told(&[], &format!("{script}\nSHOW lifted names\n"));
    let (_, table) = told.rsplit_once("SHOW lifted names: ").expect("a table");
    table.lines().filter_map(row).collect()
}

/// A line of the table.
fn row(line: &str) -> Option<(String, Shown)> {
    let (number, rest) = line.trim_start().split_once("  (")?;
    let (name, links) = rest.split_once(')')?;
    let words: Vec<&str> = links.split_whitespace().collect();
    let links = words.chunks_exact(2);
    let links = links.map(|pair| (pair[0].to_string(), pair[1].to_string()));
    let number = number.to_string();
    let links = links.collect();
    Some((format!("({name})"), Shown { number, links }))
}

/// The names in a text for which it tells a number, before or behind them.
fn told_numbers(text: &str) -> Vec<(String, String)> {
    let mut found = Vec::new();
    for (at, _) in text.match_indices('(') {
        let Some(end) = text[at..].find(')') else {
            continue;
        };
        let (name, behind) = text[at..].split_at(end + 1);
        let before = text[..at].strip_suffix(" = ").unwrap_or_default();
        let before: Vec<&str> = before.rsplitn(2, |c: char| !c.is_ascii_digit()).collect();
        let behind = behind.strip_prefix(" = ").unwrap_or_default();
        let behind = behind.split(|c: char| !c.is_ascii_digit()).next();
        let numbers = [before.first().copied(), behind].into_iter().flatten();
        if name.split(", ").count() == 4 && (name.contains("up)") || name.contains("down)")) {
            let numbers = numbers.filter(|number| !number.is_empty());
            found.extend(numbers.map(|number| (name.to_string(), number.to_string())));
        }
    }
    found
}

/// The cells of a row in a table of links: a named dart, then a letter and where
/// it leads for each axis.
fn told_links(line: &str) -> Option<(String, Vec<(String, String)>)> {
    let mut cells = line.strip_prefix("| ")?.strip_suffix(" |")?.split(" | ");
    let (name, _) = told_numbers(cells.next()?).pop()?;
    let links = cells.map(|cell| {
        let (letter, to) = cell.split_once(": ")?;
        let to = match to.rsplit_once(" = ") {
            _ if to.ends_with("itself") => ".",
            Some((_, number)) => number,
            None => return None,
        };
        Some((to.to_string(), letter.to_string()))
    });
    Some((name, links.collect::<Option<_>>()?))
}

/// How many numbers and how many darts with all their links a part of a page
/// works out: each as its last script shows it.
fn compare(part: &str) -> (usize, usize) {
    let scripts = part.split("\n```script\n").skip(1);
    let script = scripts.filter_map(|rest| rest.split("```").next()).last();
    let text: String = part.split("```").step_by(2).collect();
    let (numbers, lines) = (told_numbers(&text), text.lines().filter_map(told_links));
    let links: Vec<_> = lines.collect();
    if numbers.is_empty() {
        return (0, 0);
    }
    let shown = shown(script.expect("a script"));
    for (name, number) in &numbers {
        assert_eq!(shown[name].number, *number, "{name}");
    }
    for (name, links) in &links {
        assert_eq!(shown[name].links, *links, "{name}");
    }
    (numbers.len(), links.len())
}

#[test]
fn what_is_worked_out_by_hand_is_what_the_tool_shows() {
    let page = |name: &str| fs::read_to_string(format!("{TOP}/docs/{name}")).expect(name);
    let (numbers, links) = compare(&page("LIFT.md"));
    assert!(numbers >= 25 && links == 5, "{numbers} and {links}");
    let course = page("COURSE.md");
    let parts = course.split("\n### ").map(compare);
    let all: Vec<(usize, usize)> = parts.filter(|part| *part != (0, 0)).collect();
    let links: usize = all.iter().map(|(_, links)| links).sum();
    assert!(all.len() >= 2 && links == 6, "{all:?}");
}
