//! Widths, limits, refusals, command bytes and the version stand in several
//! places: in definitions, in proved code, in the crate `laremban`, in the header
//! for C, in the reference. All have the same.

use laremban::{Refusal, Side};
use reference::{refusal, widths};
use std::collections::BTreeMap;

const HEADER: &str = include_str!("../../include/laremban.h");
const PAPER_REFUSALS: &str = include_str!("../../crates/paper/specs/Refusal.antt");
const CODE_REFUSALS: &str = include_str!("../../crates/paper/src/refusal.rt");
const CODE_WIDTHS: &str = include_str!("../../crates/kernel/src/width.rt");
const REFERENCE_REFUSALS: &str = include_str!("../../reference/src/refusal.rs");
const VERSION_OF_SPECS: &str = include_str!("../../crates/laremban/specs/Version.antt");
const EXPORTS: &str = include_str!("../../crates/laremban/src/lib.rt");
const PREFIX: &str = "LAREMBAN_";

/// The number in a word of the header: decimal or hexadecimal, before a comma
/// or not.
fn number(word: &str) -> Option<usize> {
    let digits = word.trim_end_matches(',');
    match digits.strip_prefix("0x") {
        Some(digits) => usize::from_str_radix(digits, 16).ok(),
        None => digits.parse().ok(),
    }
}

/// The names that a line of the header gives a number, without their prefix.
fn named(line: &str) -> Option<(&str, usize)> {
    let words: Vec<&str> = line.split_whitespace().collect();
    let (name, word) = match words[..] {
        ["#define", name, word, ..] | [name, "=", word, ..] => (name, word),
        _ => return None,
    };
    Some((name.strip_prefix(PREFIX)?, number(word)?))
}

fn header() -> BTreeMap<&'static str, usize> {
    HEADER.lines().filter_map(named).collect()
}

/// A name of a Rust enum or of the definitions as C has it: `LinkBeyond` and
/// `link_beyond` are `LINK_BEYOND`, and that is itself.
fn in_capitals(name: &str) -> String {
    if !name.contains(char::is_lowercase) {
        return name.to_string();
    }
    let mut told = String::new();
    for c in name.chars() {
        if c.is_uppercase() && !told.is_empty() {
            told.push('_');
        }
        told.push(c.to_ascii_uppercase());
    }
    told
}

/// A width by its name: in the crate, and in the reference where it has it.
macro_rules! widths {
    ($($name:ident $(= $reference:ident)?),* $(,)?) => {
        [$((stringify!($name), laremban::$name, [$(widths::$reference)?].first().copied())),*]
    };
}

#[test]
fn widths_are_the_same_everywhere() {
    let header = header();
    for (name, width, reference) in widths![
        GREATEST_DIMENSION = GREATEST_DIMENSION,
        GREATEST_NEW_DIMENSION = GREATEST_NEW_DIMENSION,
        LINKS = LINKS,
        COORDINATES = COORDINATES,
        SPANS = SPANS,
        SPAN_NUMBERS = SPAN_NUMBERS,
        OBJECTS = OBJECTS,
        WORK = WORK,
        DARTS = DARTS,
        REPLY_BYTES = REPLY_BYTES,
        COMMAND_NUMBERS,
        PROGRAM_PLAN = PROGRAM_PLAN,
        PROGRAM_LIFTED = PROGRAM_LIFTED,
        PROGRAM_REPLY = PROGRAM_REPLY,
        PROGRAM_BYTES = PROGRAM_BYTES,
        TEXT_BYTES,
    ] {
        assert_eq!(header.get(name), Some(&width), "{name} in the header");
        assert_eq!(reference.unwrap_or(width), width, "{name} in the reference");
    }
    for side in [Side::Plan, Side::Lifted] {
        let name = in_capitals(&format!("Side{side:?}"));
        let number = header.get(name.as_str());
        assert_eq!(number, Some(&side.number().into()), "{name}");
    }
}

/// The names that the lines of a file give numbers, in their order: what stands
/// between these marks on a line, and the number behind the second.
fn list(file: &str, before: &str, between: &str) -> Vec<(String, usize)> {
    let named = |line: &str| {
        let (name, rest) = line.strip_prefix(before)?.split_once(between)?;
        let digits = rest.trim_end_matches(';');
        Some((in_capitals(name), number(digits)?))
    };
    file.lines().filter_map(named).collect()
}

/// Widths that the code names by numbers of its own, where the others have them too.
#[test]
fn widths_of_the_code_are_the_same() {
    let sizes = list(CODE_WIDTHS, "pub const ", ": usize = ");
    let numbers = list(CODE_WIDTHS, "pub const ", ": i32 = ");
    let code: BTreeMap<String, usize> = sizes.into_iter().chain(numbers).collect();
    for (name, width) in [
        ("PER_SPAN", widths::PER_SPAN),
        ("SPAN_LIMIT", widths::SPANS),
        ("OBJECTS", widths::OBJECTS),
        ("OBJECT_LIMIT", widths::OBJECT_LIMIT as usize),
        ("PAIR", widths::PAIR),
        ("WORK", widths::WORK),
        ("INPUT_LIMIT", widths::PROGRAM_BYTES),
        ("PLAN_ROOM", widths::PROGRAM_PLAN),
        ("LIFTED_ROOM", widths::PROGRAM_LIFTED),
        ("REPLY_ROOM", widths::PROGRAM_REPLY),
    ] {
        assert_eq!(code.get(name), Some(&width), "{name} in the code");
    }
}

/// Refusals have one list of names and numbers, that of the definitions.
#[test]
fn refusals_are_the_same_everywhere() {
    let paper = list(PAPER_REFUSALS, "number ", " = ");
    assert_eq!(paper[0], ("UNKNOWN_COMMAND".to_string(), 1));
    assert_eq!(list(CODE_REFUSALS, "    ", " = "), paper);
    let mut reference = list(REFERENCE_REFUSALS, "pub const ", ": u8 = ");
    let accepted = ("ACCEPTED".to_string(), refusal::ACCEPTED.into());
    assert_eq!(reference.pop().as_ref(), Some(&accepted));
    assert_eq!(reference, paper);
    assert_eq!(refusal::LAST, paper.len() as u8);

    let named = |refusal: &Refusal| {
        let name = in_capitals(&format!("{refusal:?}"));
        (name, refusal.number().into())
    };
    let named: Vec<(String, usize)> = Refusal::ALL.iter().map(named).collect();
    assert_eq!(named, paper);

    let (_, numbers) = HEADER.split_once("ACCEPTED = ").expect("a list of numbers");
    let (numbers, _) = numbers.split_once("};").expect("its end");
    let header: Vec<_> = (numbers.lines().skip(1))
        .filter_map(self::named)
        .map(|(name, number)| (name.to_string(), number))
        .collect();
    assert_eq!(header, paper);
    let header = self::header();
    assert_eq!(header.get("ACCEPTED"), Some(&accepted.1), "in the header");
}

/// The version stands in four files, and the library that is linked answers it.
#[test]
fn the_version_is_the_same_everywhere() {
    let version = laremban::linked::version();
    assert_eq!(laremban::VERSION, version);
    assert_eq!(header().get("VERSION"), Some(&(version as usize)));
    let named = [("VERSION".to_string(), version as usize)];
    assert_eq!(list(VERSION_OF_SPECS, "", " = "), named);
    assert_eq!(list(EXPORTS, "const ", ": u32 = "), named);
}

#[test]
fn command_bytes_are_the_same_everywhere() {
    let header = header();
    let names = [
        "NEW", "DART", "SEW", "UNSEW", "PLACE", "SPAN", "CLEAR", "LIFT", "ADOPT", "COUNT",
        "SPAN_OF",
    ];
    for (byte, name) in (0x10..).zip(names) {
        let mut bytes = [0; 13];
        bytes[0] = byte;
        let read = laremban::decode(&bytes, 0).command;
        let told = format!("{:?}", read.expect("a command"));
        let told = told.split(' ').next().unwrap_or_default();
        assert_eq!(in_capitals(told), name);
        let name = format!("COMMAND_{name}");
        assert_eq!(header.get(name.as_str()), Some(&byte.into()), "{name}");
    }
}
