//! The marker, run as a user runs it.

mod common;

use common::{example, marker, printed};
use std::fs::File;
use std::io::{BufRead, BufReader};
use std::process::{Command, Stdio};

#[test]
fn a_right_program() {
    let lifter = example("lifter");
    let lifter = lifter.to_str().expect("a path");
    let words = ["--sheets", "12", "--seed", "9", "--dimension", "2", lifter];
    let out = marker(&words);
    assert_eq!(
        printed(&out),
        "# dimension 2: 12 of 12 sheets right\n# all sheets are right\n"
    );
    assert_eq!((out.status.code(), out.stderr.len()), (Some(0), 0));
    let replier = example("replier");
    let out = marker(&[
        "--replies",
        "--sheets",
        "8",
        replier.to_str().expect("a path"),
    ]);
    assert_eq!(out.status.code(), Some(0), "{}", printed(&out));
}

#[test]
fn a_wrong_program_gets_words_and_a_script() {
    let lifter = example("lifter");
    let lifter = lifter.to_str().expect("a path");
    let out = marker(&["--sheets", "8", lifter, "never links across"]);
    assert_eq!(out.status.code(), Some(1));
    assert_eq!(
        printed(&out),
        "# dimension 1: 1 of 2 sheets right\n\
         # dimension 2: 2 of 2 sheets right\n\
         # dimension 3: 1 of 2 sheets right\n\
         # dimension 4: 2 of 2 sheets right\n\
         # the first wrong sheet is number 5, of dimension 1 (seed 1)\n\
         # the smallest sheet found that is still wrong, for tools/script, and what differs:\n\
         # dart 4 = (1, 0, 0, up), axis 2: leads to 4, should lead to 8 = (2, 0, 0, up): \
         case i = n ≥ k + 2: the neighbour's row covers that side\n\
         # 3 more links lead elsewhere than they should\n\
         NEW 1\nDART x 4\nSEW 0 0 1\nSEW 0 2 3\nSEW 1 1 2\nSPAN 0 0 1\nSPAN 2 0 1\nLIFT\n"
    );
}

#[test]
fn what_can_not_be_started_is_told_by_the_status() {
    for words in [
        &["no-such-program"][..],
        &["/"],
        &[concat!(env!("CARGO_MANIFEST_DIR"), "/Cargo.toml")],
        &["--no-such-option", "x"],
        &["--sheets", "0", "x"],
        &[],
    ] {
        let out = marker(words);
        assert_eq!(
            (out.status.code(), out.stdout.len()),
            (Some(2), 0),
            "{words:?}"
        );
        let told = String::from_utf8(out.stderr).expect("a text");
        assert!(
            told.starts_with("mark: ") && told.lines().count() == 1,
            "{told}"
        );
    }
}

#[test]
fn help_and_version() {
    let out = marker(&["--version"]);
    let wanted = concat!("mark (Laremban ", env!("CARGO_PKG_VERSION"), ")\n");
    assert_eq!(
        (printed(&out), out.status.code()),
        (wanted.to_string(), Some(0))
    );
    let out = marker(&["--sheets", "3", "--help"]);
    assert!(printed(&out).starts_with("mark [--sheets N] "));
}

#[test]
fn nobody_reads_on() {
    let mut child = Command::new(env!("CARGO_BIN_EXE_mark"))
        .arg("--help")
        .stdout(Stdio::piped())
        .stderr(Stdio::piped())
        .spawn()
        .expect("the marker");
    drop(child.stdout.take());
    let out = child.wait_with_output().expect("an end");
    assert!(out.stderr.is_empty());
}

/// What is written to the end of a terminal that a program writes to comes back
/// from there, as what is typed does. On a terminal it is told what is wrong
/// before all sheets are tried, and nowhere else.
#[cfg(unix)]
#[test]
fn on_a_terminal_the_first_wrong_sheet_is_told_at_once() {
    let terminal = File::options().read(true).write(true).open("/dev/ptmx");
    let Ok(terminal) = terminal else {
        return eprintln!("there are no terminals here");
    };
    let seen = terminal.try_clone().expect("a terminal");
    let mut command = Command::new(env!("CARGO_BIN_EXE_mark"));
    command.args(["--sheets", "1"]).arg(example("odd"));
    let out = command.arg("nothing").stderr(terminal).output();
    assert_eq!(out.expect("the marker").status.code(), Some(1));
    let mut line = String::new();
    let read = BufReader::new(seen).read_line(&mut line);
    assert!(read.is_ok());
    assert_eq!(
        line.trim_end(),
        "mark: sheet 1 is wrong: the program wrote nothing"
    );
}
