//! The program `script`, run as a user runs it.

mod by_hand;
mod course;
mod examples;
mod hostile;
mod joined;
mod names;
mod options;
mod refusals;

use std::io::Write;
use std::process::{Command, Output, Stdio};

/// The top of the repository.
const TOP: &str = concat!(env!("CARGO_MANIFEST_DIR"), "/../..");

fn program(words: &[&str]) -> Command {
    let mut program = Command::new(env!("CARGO_BIN_EXE_script"));
    program
        .args(words)
        .stdin(Stdio::piped())
        .stdout(Stdio::piped())
        .stderr(Stdio::piped());
    program
}

fn script(words: &[&str], input: &[u8]) -> Output {
    let mut child = program(words).spawn().expect("the program");
    // Where the input is not wanted, the pipe may break.
    let _ = child.stdin.take().expect("a pipe").write_all(input);
    child.wait_with_output().expect("an output")
}

fn text(bytes: &[u8]) -> String {
    String::from_utf8(bytes.to_vec()).expect("a text")
}

/// What is told of a script that can be read.
fn told(words: &[&str], input: &str) -> String {
    let out = script(words, input.as_bytes());
    assert_eq!(text(&out.stderr), "");
    assert!(out.status.success());
    text(&out.stdout)
}

/// What is told on standard error where nothing is run.
fn failure(words: &[&str], input: &[u8]) -> String {
    let out = script(words, input);
    assert_eq!(out.status.code(), Some(2));
    assert!(out.stdout.is_empty());
    text(&out.stderr)
}

/// What is told of the last command of a list, from its colon on.
fn last(words: &[&str], list: &str) -> String {
    let told = told(words, &list.replace("; ", "\n"));
    let lines: Vec<&str> = told.lines().collect();
    let line = lines[lines.len() - 2];
    let (_, reply) = line.split_once(": ").expect("a reply");
    reply.to_string()
}

/// Lists, and what is told of the last command of each.
type Cases = &'static [(&'static str, &'static str)];

fn compare(cases: Cases) {
    for (list, wanted) in cases {
        assert_eq!(last(&[], list), *wanted, "{list}");
    }
}
