//! Files that nobody meant to be sheets: a clear line, no panic, nothing printed.

mod common;

use common::{command, folder, parcels};
use std::fs;
use std::io::Read;
use std::process::Stdio;

const GOOD: &str = "a (0 0) (8 0) (8 6): 0..3\n";

/// The line that is told of a bad file, behind the program's name.
fn told(bytes: &[u8]) -> String {
    let folder = folder("hostile");
    fs::write(folder.join("f"), bytes).expect("a file");
    let ran = parcels(folder, &["f"]);
    assert_eq!((ran.status, ran.out.as_str()), (Some(1), ""), "{}", ran.err);
    let line = ran
        .err
        .strip_prefix("parcels: ")
        .expect("the program's name");
    assert!(line.len() < 300 && line.ends_with('\n'), "{line}");
    line.trim_end().to_string()
}

#[test]
fn bad_files() {
    let long_name = "n".repeat(100_000);
    for (bytes, wanted) in [
        (&b""[..], "f: there is no parcel in it"),
        (b"\xff\xfe", "f:1: the bytes are no UTF-8"),
        (b"# \n\na\xff (0 0):", "f:3: the bytes are no UTF-8"),
        (b"\0", "f:1: the character U+0000 is not for a sheet"),
        (
            b"a (0 0) (1 0)\x00 (0 1):",
            "f:1: the character U+0000 is not for a sheet",
        ),
        (
            b"a (0 0) (1 0) (0 1):\rb (5 5) (6 5) (5 6):",
            "f:1: the character U+000D is not for a sheet",
        ),
        (
            b"a (0 0) (1 0) (0 99999999999999999999):",
            "f:1: a: 99999999999999999999 does not fit in 32 bits",
        ),
        (
            b"a (0 0) (1 0) (0 2147483648):",
            "f:1: a: 2147483648 does not fit in 32 bits",
        ),
        (
            long_name.as_bytes(),
            "f:1: a name has at most 200 characters",
        ),
        (&[b'('; 1_000_000], "f:1: a parcel begins with its name"),
        (&[b' '; 5_000_000], "f: longer than 4194304 bytes"),
    ] {
        let line = told(bytes);
        assert!(line.contains(wanted), "{line}");
    }
}

#[test]
fn thousands_of_bad_lines_are_told_by_ten() {
    let folder = folder("bad_lines");
    fs::write(folder.join("f"), "a\n".repeat(100_000)).expect("a file");
    let ran = parcels(folder, &["f"]);
    assert_eq!((ran.status, ran.out.as_str()), (Some(1), ""));
    assert_eq!(ran.err.lines().count(), 11);
}

/// The sheet is the same, however its file is written.
#[test]
fn odd_files_that_are_good() {
    let folder = folder("odd");
    let print = |text: &str| {
        fs::write(folder.join("f"), text).expect("a file");
        parcels(&folder, &["f"])
    };
    let wanted = print(GOOD);
    assert_eq!((wanted.status, wanted.err.as_str()), (Some(0), ""));
    for same in [
        GOOD.trim_end().to_string(),
        GOOD.replace('\n', "\r\n"),
        format!("\u{feff}{GOOD}"),
        format!("# \0 in a comment\n{GOOD}"),
        "\n".repeat(10_000) + GOOD,
        "a (+0 -0) (08 00) (+8 0000006): -0..+3".to_string(),
    ] {
        assert_eq!(print(&same), wanted, "{same}");
    }
}

#[test]
fn no_file_and_a_folder_without_sheets() {
    let folder = folder("nothing");
    fs::create_dir(folder.join("empty")).expect("a folder");
    for (name, wanted) in [
        ("no_such_file", "parcels: no_such_file: No such file"),
        (
            "empty",
            "parcels: empty: no file *.parcels is in the folder",
        ),
        ("", "parcels: : No such file"),
    ] {
        let ran = parcels(&folder, &[name]);
        assert_eq!((ran.status, ran.out.as_str()), (Some(1), ""));
        assert!(ran.err.starts_with(wanted), "{}", ran.err);
        assert_eq!(ran.err.lines().count(), 1);
    }
}

#[test]
fn wrong_words_are_told_by_the_status() {
    let folder = folder("words");
    for words in [
        &[][..],
        &["--nonsense"],
        &["f", "--time", "3..3"],
        &["f", "--time", "3"],
    ] {
        let ran = parcels(&folder, words);
        assert_eq!((ran.status, ran.out.as_str()), (Some(2), ""));
        assert!(ran.err.starts_with("parcels: "), "{}", ran.err);
        assert_eq!(ran.err.lines().count(), 1);
    }
    let one = parcels(&folder, &["--time", "3", "f"]).err;
    let wanted = "--time: 3 is one time alone: LO..HI is wanted, from when to when, as 0..25";
    assert_eq!(one, format!("parcels: {wanted}\n"));
    let help = parcels(&folder, &["--help"]);
    assert_eq!((help.status, help.err.as_str()), (Some(0), ""));
    assert!(help.out.contains("--time LO..HI"));
    let version = parcels(&folder, &["--version"]);
    assert_eq!((version.status, version.err.as_str()), (Some(0), ""));
    let wanted = concat!("parcels (Laremban ", env!("CARGO_PKG_VERSION"), ")\n");
    assert_eq!(version.out, wanted);
}

/// More than a pipe holds is printed to a reader that soon leaves.
#[test]
fn a_closed_standard_output_ends_it_quietly() {
    let folder = folder("closed");
    let rows = (0..300).map(|y| {
        let next = y + 1;
        format!(
            "{} (0 {y}) (1 {y}) (1 {next}) (0 {next}): 0..3\n",
            "n".repeat(190) + &y.to_string()
        )
    });
    fs::write(folder.join("f"), rows.collect::<String>()).expect("a file");
    let mut child = command(&folder, &["f", "f", "f", "f"])
        .stdout(Stdio::piped())
        .stderr(Stdio::piped())
        .spawn()
        .expect("the program");
    let mut first = [0; 1];
    let mut out = child.stdout.take().expect("a pipe");
    out.read_exact(&mut first).expect("a byte");
    drop(out);
    let ended = child.wait_with_output().expect("an end");
    let err = String::from_utf8(ended.stderr).expect("a text");
    assert!(
        !err.contains("panic") && !err.contains("roken pipe"),
        "{err}"
    );
    assert_eq!(ended.status.code(), Some(1));
}
