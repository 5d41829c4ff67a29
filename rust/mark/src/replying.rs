//! The other exercise: the program reads the bytes of a list, and prints what
//! `liftrun` prints.

use crate::clean::clean;
use crate::exercise::{Exercise, room};
use crate::lists::{List, list};
use laremban::{Refusal, decode, liftrun};
use laremban_script::words_of_bytes;

/// The exercise.
pub struct Replying;

/// So many characters of a line are told.
const SHOWN: usize = 60;

impl Exercise for Replying {
    type Sheet = List;

    fn sheet(&self, seed: u64, dimension: usize, number: usize) -> List {
        list(seed, dimension, number)
    }

    fn input(&self, list: &List) -> Vec<u8> {
        list.bytes()
    }

    fn most(&self, list: &List) -> usize {
        room(liftrun(&list.bytes()).len())
    }

    fn judge(&self, list: &List, written: &[u8]) -> Result<(), Vec<String>> {
        let right = liftrun(&list.bytes());
        match written == right.as_bytes() {
            true => Ok(()),
            false => Err(vec![difference(list, written, &right)]),
        }
    }

    fn ways(&self) -> usize {
        RUNS.len()
    }

    fn smaller(&self, list: &List, way: usize) -> Vec<List> {
        without_runs(list, RUNS[way])
    }

    fn is_fit(&self, _: &List) -> bool {
        true
    }

    fn shown(&self, list: &List) -> String {
        list.parts.iter().map(|part| line(part)).collect()
    }

    fn tool(&self) -> &'static str {
        "tools/liftrun"
    }
}

/// So many commands in a row are taken away at once.
const RUNS: [usize; 7] = [256, 64, 16, 8, 4, 2, 1];

/// What is left without each run of so many commands.
fn without_runs(list: &List, many: usize) -> Vec<List> {
    let runs = list.parts.len() / many;
    let left = |run: usize| {
        let mut parts = list.parts.clone();
        parts.drain(many * run..many * (run + 1));
        // Where a command was cut short others make it whole.
        List::of(&parts.concat())
    };
    (0..runs).map(left).filter(|other| other != list).collect()
}

/// A command in hexadecimal, with its words behind it.
fn line(part: &[u8]) -> String {
    let bytes: Vec<String> = part.iter().map(|byte| format!("{byte:02x}")).collect();
    let words = words_of_bytes(part);
    let words = words.trim_end().trim_start_matches("# ");
    format!("{} # {words}\n", bytes.join(" "))
}

/// The first line that differs, and the command that it replies to.
fn difference(list: &List, written: &[u8], right: &str) -> String {
    if written.is_empty() {
        return "the program wrote nothing".to_string();
    }
    let written = String::from_utf8_lossy(written);
    let mut lines = (0..).zip(right.split_inclusive('\n'));
    let mut others = written.split_inclusive('\n');
    let first = lines.find_map(|(at, line)| match others.next() {
        Some(other) if other == line => None,
        other => Some((at, line, other)),
    });
    match first {
        Some((at, line, other)) => {
            let is = other.map_or("nothing".to_string(), told);
            let why = reason(list, at, line);
            format!("line {}: {is}, should be {}{why}", at + 1, told(line))
        }
        None => format!(
            "line {}: {}, and nothing should come there",
            right.lines().count() + 1,
            others.next().map_or_else(String::new, told)
        ),
    }
}

/// A line in characters that can be printed; where its end is missing that is seen.
fn told(line: &str) -> String {
    let end = match line.strip_suffix('\n') {
        Some(_) => "",
        None => " without a newline",
    };
    let line = line.strip_suffix('\n').unwrap_or(line);
    format!("`{}`{end}", clean(line, SHOWN))
}

/// The words of the command that a line replies to, and why it is refused.
fn reason(list: &List, at: usize, line: &str) -> String {
    let Some(part) = list.parts.get(at).filter(|_| !line.starts_with("end")) else {
        return ": how the run ended, and the commands taken, accepted and refused".to_string();
    };
    let words = match decode(part, 0).command {
        Ok(_) => words_of_bytes(part).trim_end().to_string(),
        Err(_) => "a command that can't be read".to_string(),
    };
    let number = line.split(' ').next().and_then(|word| word.parse().ok());
    match number.and_then(Refusal::from_number) {
        Some(refusal) => format!(": {words}: {refusal}"),
        None => format!(": {words}"),
    }
}
