//! Programs that are marked by the tests, and what comes of it.
#![allow(dead_code)]

use laremban_mark::exercise::Exercise;
use laremban_mark::marking::{Marks, Plan, mark};
use laremban_mark::program::Program;
use std::env;
use std::ffi::OsString;
use std::process::{Command, Output};
use std::time::Duration;

/// Cargo builds the examples with the tests, in a folder beside theirs.
pub fn example(name: &str) -> OsString {
    let test = env::current_exe().expect("a path");
    let folder = test.ancestors().nth(2).expect("a folder");
    let example = folder.join("examples").join(name);
    assert!(
        example.exists(),
        "`cargo build --examples` makes {example:?}"
    );
    example.into()
}

/// A program with a mistake, or none.
pub fn program(name: &str, mistake: &str) -> Program {
    Program {
        name: example(name),
        arguments: vec![mistake.into()],
        limit: Duration::from_secs(20),
    }
}

/// What comes of so many sheets of a seed.
pub fn marks<E: Exercise>(
    exercise: &E,
    program: &Program,
    seed: u64,
    sheets: usize,
) -> Marks<E::Sheet> {
    let plan = Plan {
        sheets,
        seed,
        dimension: None,
    };
    mark(exercise, program, plan, |_| ()).expect("a program")
}

/// The marker itself, by its words.
pub fn marker(words: &[&str]) -> Output {
    let mut command = Command::new(env!("CARGO_BIN_EXE_mark"));
    command.args(words).output().expect("the marker")
}

/// What it printed.
pub fn printed(out: &Output) -> String {
    String::from_utf8(out.stdout.clone()).expect("a text")
}
