//! A program that can't be started: what is told helps to start it.
#![cfg(unix)]

mod common;

use common::marker;
use std::fs::{self, Permissions};
use std::os::unix::fs::PermissionsExt;
use std::path::Path;

/// What is told of a file with a text and a mode, behind its name.
fn told(name: &str, text: &str, mode: u32) -> String {
    let file = Path::new(env!("CARGO_TARGET_TMPDIR")).join(name);
    fs::write(&file, text).expect("a file");
    fs::set_permissions(&file, Permissions::from_mode(mode)).expect("a mode");
    of(file.to_str().expect("a path"))
}

/// What is told of a program, behind its name.
fn of(program: &str) -> String {
    let out = marker(&[program]);
    assert_eq!((out.status.code(), out.stdout.len()), (Some(2), 0));
    let told = String::from_utf8(out.stderr).expect("a text");
    let start = format!("mark: {program}: the program can't be started: ");
    told.strip_prefix(&start).expect(&told).to_string()
}

#[test]
fn a_folder() {
    assert_eq!(of(env!("CARGO_TARGET_TMPDIR")), "it is a folder\n");
    // Tests are run in the folder of the package.
    assert_eq!(of("tests"), "it is a folder\n");
}

#[test]
fn a_script_without_its_language() {
    let told = told("bare", "print('laremban-map 2 2 0')\n", 0o755);
    assert!(
        told.ends_with(
            "; a script needs #! and its language in its first line, \
             or to be called by it: tools/mark python3 lifter.py\n"
        ),
        "{told}"
    );
}

#[test]
fn a_script_in_a_language_that_is_not_there() {
    for (name, text, line) in [
        (
            "nowhere",
            "#!/no/such/python\nprint()\n",
            "#!/no/such/python",
        ),
        // A line end of Windows.
        ("windows", "#!/bin/sh\r\nexit\r\n", "#!/bin/sh\\r"),
        ("escape", "#!/no/\u{1b}[1m\n", "#!/no/\\u{1b}[1m"),
    ] {
        assert_eq!(
            told(name, text, 0o755),
            format!("the file is there, but not the program of its first line, `{line}`\n")
        );
    }
}

#[test]
fn a_file_that_is_no_program_or_not_there() {
    let told = told("plain", "#!/bin/sh\n", 0o644);
    assert!(told.ends_with("; chmod +x makes a file a program\n"));
    let told = of("Cargo.toml");
    assert!(told.ends_with("; in this folder there is ./Cargo.toml\n"));
    let told = of("./no-such-program");
    assert!(told.contains("os error 2") && !told.contains(';'), "{told}");
}
