//! Sheets that come by standard input.

mod common;

use common::{Ran, TOP, command, folder_with, parcels, ran};
use std::fs::{self, File};
use std::io::{BufRead, BufReader};
use std::path::Path;
use std::process::{Command, Stdio};

const GOOD: &str = "a (0 0) (8 0) (8 6): 0..3\n";
const BAD: &str = "\nb (0 0) (8 0):\n";

/// A program with a file for its standard input.
fn from_file(program: &mut Command, file: &Path) -> Ran {
    ran(program.stdin(File::open(file).expect("a file")))
}

#[test]
fn a_dash_is_standard_input() {
    let folder = folder_with("dash", &[("good", GOOD), ("bad", BAD)]);
    let read =
        |file: &str, words: &[&str]| from_file(&mut command(&folder, words), &folder.join(file));
    let mut wanted = parcels(&folder, &["good"]);
    wanted.out = wanted.out.replacen("good:", "standard input:", 1);
    assert_eq!(read("good", &["-"]), wanted);
    let both = read("good", &["--quiet", "good", "-"]);
    let totals = "floor space 24, volume 72, shared walls 0";
    assert_eq!(
        both.out,
        format!("good: {totals}\nstandard input: {totals}\n")
    );
    let bad = read("bad", &["-"]);
    assert_eq!((bad.status, &bad.out[..]), (Some(1), ""));
    let wanted = "parcels: standard input:2: b: 2 corners, and three are the fewest\n";
    assert_eq!(bad.err, wanted);
}

#[test]
fn a_dash_that_can_not_be_is_told() {
    let folder = folder_with("no_dash", &[("good", GOOD)]);
    for (words, wanted) in [
        (&["-", "-"][..], "-: standard input is read once"),
        (
            &["--out", "maps", "-"],
            "--out: a map is named after its sheet's file, and `-` has none",
        ),
        (
            &["--quiet"],
            "no sheet is named: a file, a folder, or `-` for standard input",
        ),
    ] {
        let told = from_file(&mut command(&folder, words), &folder.join("good"));
        let wanted = Ran {
            status: Some(2),
            out: String::new(),
            err: format!("parcels: {wanted}\n"),
        };
        assert_eq!(told, wanted);
    }
    assert!(!folder.join("maps").exists());
}

/// The words that `tools/parcels` hands on where it is given none: a copy of
/// it runs `echo` in place of the program.
#[test]
fn the_tool_without_a_word() {
    let tool = fs::read_to_string(format!("{TOP}/tools/parcels")).expect("the tool");
    let folder = folder_with("tool", &[("good", GOOD)]);
    fs::create_dir(folder.join("tools")).expect("a folder");
    let file = |name: &str, text: &str| fs::write(folder.join(name), text).expect("a file");
    file("tools/parcels", &tool);
    file(
        "tools/lib.sh",
        "version() { :; }\nlibrary() { :; }\nbuild() { :; }\nbuilt=$PWD\n",
    );
    file("parcels", "#!/bin/sh\necho \"$@\"\n");
    let tool = || {
        let mut tool = Command::new("sh");
        tool.arg(folder.join("tools/parcels"));
        tool
    };
    ran(Command::new("chmod").arg("+x").arg(folder.join("parcels")));
    assert_eq!(ran(&mut tool()).out, "examples/street.parcels\n");
    assert_eq!(from_file(&mut tool(), &folder.join("good")).out, "-\n");
    assert_eq!(
        from_file(tool().arg("--quiet"), &folder.join("good")).out,
        "--quiet\n"
    );
    let piped = ran(tool().stdin(Stdio::piped()));
    assert_eq!((piped.status, &piped.out[..]), (Some(2), ""));
    assert!(
        piped
            .err
            .starts_with("parcels: no sheet is named, and standard input is a pipe")
    );
}

/// The end of a terminal that a program writes to is a terminal itself, with
/// nobody before it: the program waits there, and says for what.
#[test]
fn on_a_terminal_it_says_what_it_waits_for() {
    let terminal = File::options().read(true).write(true).open("/dev/ptmx");
    let Ok(terminal) = terminal else {
        return eprintln!("there are no terminals here");
    };
    let mut command = command(TOP, &["-"]);
    let piped = command.stdin(terminal).stderr(Stdio::piped());
    let mut child = piped.spawn().expect("the program");
    let mut line = String::new();
    let told = BufReader::new(child.stderr.take().expect("a pipe")).read_line(&mut line);
    child.kill().expect("a running program");
    child.wait().expect("an end");
    assert!(told.is_ok());
    assert_eq!(
        line,
        "parcels: reads a sheet from this terminal, up to Ctrl-D\n"
    );
}
