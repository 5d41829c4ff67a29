//! The program `liftrun`, proved to its `main`: what it prints is what the
//! reference prints, also where its input arrives piece by piece. What is read
//! no contract can say.

use reference::lists::input;
use reference::print::printed;
use reference::widths::PROGRAM_BYTES;
use std::fs::File;
use std::io::Write;
use std::process::{Child, Command, Output, Stdio};
use std::thread;
use std::time::Duration;

/// How many drawn inputs it is given.
const INPUTS: u64 = 500;
/// How long the program has between two pieces: it waits in its next read long
/// before that.
const PAUSE: Duration = Duration::from_millis(100);

/// E1, and what document 01 says that it prints.
const E1: &[u8] = include_bytes!("../../crates/liftrun/stdin");
const E1_PRINTS: &str = include_str!("../../crates/liftrun/stdout");

fn start(input: Stdio) -> Child {
    let path = concat!(env!("CARGO_MANIFEST_DIR"), "/../target/bin/liftrun");
    Command::new(path)
        .stdin(input)
        .stdout(Stdio::piped())
        .stderr(Stdio::piped())
        .spawn()
        .unwrap_or_else(|error| panic!("{path}, which `tools/test` makes: {error}"))
}

fn text(bytes: Vec<u8>) -> String {
    String::from_utf8(bytes).expect("a text")
}

/// What it prints for an input in these pieces, each written by itself.
fn prints(pieces: &[&[u8]]) -> String {
    let mut child = start(Stdio::piped());
    let mut input = child.stdin.take().expect("a pipe");
    for (at, piece) in pieces.iter().enumerate() {
        if at > 0 {
            thread::sleep(PAUSE);
        }
        // Input that is too long is not read to its end, so that the pipe may break.
        let _ = input.write_all(piece);
    }
    drop(input);
    let out = child.wait_with_output().expect("an output");
    assert!(out.status.success());
    assert_eq!(text(out.stderr), "");
    text(out.stdout)
}

#[test]
fn drawn_inputs_agree() {
    for seed in 0..INPUTS {
        let bytes = input(seed);
        assert_eq!(prints(&[&bytes]), printed(&bytes), "input {seed}");
    }
}

#[test]
fn e1_in_pieces() {
    assert_eq!(printed(E1), E1_PRINTS);
    let bytes: Vec<&[u8]> = E1.chunks(1).collect();
    assert_eq!(prints(&bytes), E1_PRINTS, "byte by byte");
    for cut in [1, 9, E1.len() - 1] {
        let (head, rest) = E1.split_at(cut);
        assert_eq!(prints(&[head, rest]), E1_PRINTS, "cut at {cut}");
    }
}

/// As many NEWs as the longest input has, and a byte more. Any part of them would
/// print fewer lines.
#[test]
fn the_longest_inputs_in_pieces() {
    let mut bytes = [0x10, 1].repeat(PROGRAM_BYTES / 2);
    let longest = printed(&bytes);
    assert!(longest.ends_with("0 0\nend 0 1024 1024 0\n"));
    for size in [500, 1_000, PROGRAM_BYTES - 1] {
        let found = prints(&bytes.chunks(size).collect::<Vec<_>>());
        let end = found.lines().last();
        assert!(found == longest, "pieces of {size} end with {end:?}");
    }
    bytes.push(0x10);
    assert_eq!(printed(&bytes), "long\n");
    for size in [1_024, PROGRAM_BYTES] {
        let found = prints(&bytes.chunks(size).collect::<Vec<_>>());
        let end = found.lines().last();
        assert!(found == "long\n", "pieces of {size} end with {end:?}");
    }
}

#[test]
fn a_folder_can_not_be_read() {
    let folder = File::open(env!("CARGO_MANIFEST_DIR")).expect("a folder");
    let child = start(folder.into());
    let Output { stdout, stderr, .. } = child.wait_with_output().expect("an output");
    assert_eq!(text(stdout), "");
    assert_eq!(text(stderr), "liftrun: standard input could not be read\n");
}
