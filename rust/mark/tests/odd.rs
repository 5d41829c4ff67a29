//! Programs that crash, hang, or write something else: each is told as such, and
//! stops nothing.
#![cfg(unix)]

mod common;

use common::{example, marker, printed};
use laremban_script::Script;
use std::fs;
use std::path::Path;
use std::process::{Command, Stdio};
use std::thread::sleep;
use std::time::{Duration, Instant};

/// Marks an odd program on four sheets, with a limit in seconds. What is printed,
/// once the counts are tested: none is right, and all were tried.
fn odd(word: &str, seconds: &str) -> String {
    let program = example("odd");
    let program = program.to_str().expect("a path");
    let out = marker(&["--sheets", "4", "--seconds", seconds, program, word]);
    let told = printed(&out);
    assert_eq!(out.status.code(), Some(1), "{told}");
    assert!(out.stderr.is_empty());
    for dimension in 1..=4 {
        let line = format!("# dimension {dimension}: 0 of 1 sheets right\n");
        assert!(told.contains(&line), "{told}");
    }
    assert!(
        !told.contains(|c: char| c.is_control() && c != '\n'),
        "{told:?}"
    );
    // All of it is a script.
    assert!(Script::read(told.as_bytes()).is_ok(), "{told}");
    assert!(told.ends_with("\nLIFT\n"));
    told
}

#[test]
fn what_is_written_is_told() {
    for (word, wanted) in [
        ("nothing", "# the program wrote nothing\n"),
        ("endless errors", "# the program wrote nothing\n"),
        (
            "rubbish",
            "# line 1: `\u{fffd}\\0\\u{1b}[31m rubbish` is not `laremban-map 2 ",
        ),
        (
            "laremban-map 2 2 0\n\n5",
            "# line 3: a line more than the 0 darts have\n",
        ),
        ("endless", "bytes, and was ended\n"),
    ] {
        let told = odd(word, "60");
        assert!(told.contains(wanted), "{told}");
    }
}

#[test]
fn how_it_ended_is_told() {
    let told = odd("status", "60");
    assert!(
        told.contains("# the program ended with status 3\n"),
        "{told}"
    );
    assert!(
        told.contains("# standard error: \\u{1b}[31mno\\u{7} luck\n"),
        "{told}"
    );
    let told = odd("abort", "60");
    assert!(told.contains("# the program crashed: signal: 6"), "{told}");
}

#[test]
fn what_does_not_end_is_ended() {
    let held = "ended, but something that it started held its output for 1 s";
    for (word, wanted) in [
        ("hang", "did not end within 1 s"),
        ("hang with children", "did not end within 1 s"),
        ("child keeps the output", held),
    ] {
        let started = Instant::now();
        let told = odd(word, "1");
        let wanted = format!("# the program {wanted} (--seconds)\n");
        assert!(told.contains(&wanted), "{told}");
        assert!(started.elapsed() < Duration::from_secs(60));
    }
}

/// Those that are under way when five have not ended are tried still, which are
/// at most seven.
#[test]
fn what_never_ends_is_not_tried_on_all_sheets() {
    let program = example("odd");
    let program = program.to_str().expect("a path");
    let out = marker(&["--sheets", "400", "--seconds", "1", program, "hang"]);
    let told = printed(&out);
    assert_eq!(out.status.code(), Some(1), "{told}");
    let lines: Vec<&str> = told.lines().collect();
    for (line, dimension) in lines.iter().zip(1..=4) {
        let wanted = format!("# dimension {dimension}: 0 of 100 sheets right");
        assert_eq!(*line, wanted);
    }
    let untried = lines[4].strip_prefix("# not tried: ").expect(&told);
    let (untried, rest) = untried.split_once(' ').expect(&told);
    assert_eq!(
        rest,
        "of 400 sheets, after 5 on which the program did not end in time"
    );
    let untried: usize = untried.parse().expect(&told);
    assert!((388..=395).contains(&untried), "{told}");
    assert!(lines[5].starts_with("# the first wrong sheet is number 1, "));
    assert!(told.contains("# the program did not end within 1 s (--seconds)\n"));
    assert!(told.ends_with("\nLIFT\n"), "{told}");
}

/// Whether there is a process with the number that a file has.
fn is_there(file: &Path) -> bool {
    let number = fs::read_to_string(file).expect("a number");
    let mut command = Command::new("sh");
    command.args(["-c", "kill -0 \"$0\"", number.trim()]);
    let status = command.stderr(Stdio::null()).status();
    status.expect("a shell").success()
}

/// Waits until something is so, for ten seconds.
fn soon(is: impl Fn() -> bool) -> bool {
    (0..1_000).any(|_| {
        sleep(Duration::from_millis(10));
        is()
    })
}

fn file(name: &str) -> std::path::PathBuf {
    let file = Path::new(env!("CARGO_TARGET_TMPDIR")).join(name);
    let _ = fs::remove_file(&file);
    file
}

/// Marks an odd program on one sheet, with a file for the number of a child.
fn with_child(word: &str, file: &Path) -> String {
    let words = ["--sheets", "1", "--seconds", "2"];
    let out = Command::new(env!("CARGO_BIN_EXE_mark"))
        .args(words)
        .arg(example("odd"))
        .args([Path::new(word), file])
        .output()
        .expect("the marker");
    assert_eq!(out.status.code(), Some(1));
    printed(&out)
}

#[test]
fn children_end_with_it() {
    let file = file("child");
    with_child("hang with children", &file);
    assert!(soon(|| !is_there(&file)));
}

#[test]
fn children_that_are_left_behind_end_as_well() {
    let file = file("left");
    let told = with_child("leave a child", &file);
    assert!(told.contains("# the program wrote nothing\n"), "{told}");
    assert!(soon(|| !is_there(&file)));
}

#[test]
fn the_program_ends_with_the_marker() {
    let file = file("program");
    let mut marker = Command::new(env!("CARGO_BIN_EXE_mark"))
        .args(["--sheets", "1", "--seconds", "60"])
        .arg(example("odd"))
        .args([Path::new("hang with children"), &file])
        .stdout(Stdio::null())
        .spawn()
        .expect("the marker");
    assert!(soon(
        || file.exists() && fs::read(&file).is_ok_and(|bytes| bytes.ends_with(b"\n"))
    ));
    assert!(is_there(&file));
    marker.kill().expect("a signal");
    marker.wait().expect("an end");
    assert!(soon(|| !is_there(&file)));
}
