//! What is told of a wrong map, in words.

use laremban::text;
use laremban_mark::exercise::Exercise;
use laremban_mark::lifting::Lifting;
use laremban_mark::sheet::Sheet;
use laremban_script::Script;

/// E2: two edges that meet, one from 0 to 3, the other from 1 to 5, of object 7.
fn e2() -> Sheet {
    let script = "NEW 1\nDART x 4\nSEW 0 0 1\nSEW 0 2 3\nSEW 1 1 2\nSPAN 0 0 3\nSPAN 2 1 5 7";
    let script = Script::read(script.as_bytes()).expect("a script");
    Sheet::of_commands(&script.commands())
}

/// The lines of E2's lift, the first one apart.
fn lines() -> Vec<String> {
    let lifted = e2().lifted().expect("a lift");
    text::write(lifted.map())
        .lines()
        .map(str::to_string)
        .collect()
}

fn told(lines: &[String]) -> Vec<String> {
    let written = lines.join("\n");
    Lifting
        .judge(&e2(), written.as_bytes())
        .expect_err("a wrong map")
}

#[test]
fn a_link_that_is_missing() {
    let mut lines = lines();
    assert_eq!(lines[7], "7 5 10 0 1 0");
    lines[7] = "7 5 6 0 1 0".to_string();
    let wanted = "dart 6 = (1, 0, 1, up), axis 2: leads to 6, should lead to 10 = (2, 0, 1, up): \
                  case i = n ≥ k + 2: the neighbour's row covers that side";
    assert_eq!(told(&lines), [wanted]);
    let readme = concat!(env!("CARGO_MANIFEST_DIR"), "/../../README.md");
    let readme = std::fs::read_to_string(readme).expect("a page");
    assert!(readme.contains(&format!("`{wanted}`")));
    lines[8] = "-1 9 70000 0 3 0".to_string();
    let told = told(&lines);
    assert_eq!(told[1], "2 more links lead elsewhere than they should");
    assert_eq!(told.len(), 2);
}

/// Objects are told where all else is right.
#[test]
fn an_object_that_is_another() {
    let mut lines = lines();
    assert_eq!(lines[11], "11 14 6 0 1 7");
    lines[11] = "11 14 6 0 1 0".to_string();
    let wanted = "dart 10 = (2, 0, 1, up): carries object 0, should carry 7: \
                  that of the span that covers its side";
    assert_eq!(told(&lines), [wanted]);
    assert_eq!(lines[7], "7 5 10 0 1 0");
    lines[7] = "7 5 10 0 1 -70000".to_string();
    let told_two = told(&lines);
    let first = "dart 6 = (1, 0, 1, up): carries object -70000, should carry 0: ";
    assert!(told_two[0].starts_with(first), "{told_two:?}");
    let more = "1 more dart carries another object than it should";
    assert_eq!(told_two[1..], [more]);
    lines[7] = "7 5 6 0 1 -70000".to_string();
    assert!(told(&lines)[0].contains("leads to 6, should lead to 10"));
}

#[test]
fn places_and_counts_by_the_first_dart() {
    let right = lines();
    assert_eq!(Lifting.judge(&e2(), right.join("\r\n").as_bytes()), Ok(()));
    let mut other = right.clone();
    assert_eq!(other[1], "1 2 0 0 0 0");
    other[1] = "1 2 0 0 -2147483648 0".to_string();
    assert_eq!(
        told(&other),
        ["dart 0 = (0, 0, 0, up): stands at (0, -2147483648), should stand at (0, 0)"]
    );
    let mut fewer = right.clone();
    fewer[0] = "laremban-map 2 2 19".to_string();
    fewer.remove(6);
    let missing =
        "19 darts, should be 20: the first that is missing is dart 6 = (1, 0, 1, up), at (0, 1)";
    assert_eq!(told(&fewer), [missing]);
    let mut more = right.clone();
    more[0] = "laremban-map 2 2 21".to_string();
    more.push("20 20 20 0 0 0".to_string());
    let many = "21 darts, should be 20: the first too many is dart 20, at (0, 0)";
    assert_eq!(told(&more), [many]);
    let mut flat = right;
    flat[0] = "laremban-map 2 1 20".to_string();
    assert_eq!(told(&flat), ["the map has dimension 1, should have 2"]);
}
