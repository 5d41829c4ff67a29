//! The program `liftrun`, run as a user runs it.

use std::fs;
use std::io::Write;
use std::process::{Command, Output, Stdio};

const EXAMPLES: &str = concat!(env!("CARGO_MANIFEST_DIR"), "/../../examples");

fn liftrun(files: &[&str], input: &[u8]) -> Output {
    let mut child = Command::new(env!("CARGO_BIN_EXE_liftrun"))
        .args(files)
        .stdin(Stdio::piped())
        .stdout(Stdio::piped())
        .stderr(Stdio::piped())
        .spawn()
        .expect("the program");
    // Input that is too long is not read to its end, so that the pipe may break.
    let _ = child.stdin.take().expect("a pipe").write_all(input);
    child.wait_with_output().expect("an output")
}

fn text(bytes: Vec<u8>) -> String {
    String::from_utf8(bytes).expect("a text")
}

#[test]
fn the_example_prints_what_is_stored() {
    let out = liftrun(&[&format!("{EXAMPLES}/two_parcels.hex")], &[]);
    let wanted = fs::read_to_string(format!("{EXAMPLES}/two_parcels.out")).expect("a file");
    assert!(out.status.success());
    assert_eq!(text(out.stdout), wanted);
}

#[test]
fn bytes_of_standard_input_are_run() {
    assert_eq!(text(liftrun(&[], &[0x11]).stdout), "12 0\nend 0 1 0 1\n");
    assert_eq!(text(liftrun(&[], &[0x11; 9_999]).stdout), "long\n");
}

#[test]
fn the_version_is_told() {
    let wanted = concat!("liftrun (Laremban ", env!("CARGO_PKG_VERSION"), ")\n");
    assert_eq!(text(liftrun(&["--version"], &[]).stdout), wanted);
}

#[test]
fn a_failure_is_told_by_the_status_too() {
    for files in [&["no such file"][..], &["one", "two"]] {
        let out = liftrun(files, &[]);
        assert!(!out.status.success());
        assert!(out.stdout.is_empty());
        assert!(text(out.stderr).starts_with("liftrun: "));
    }
}

/// A file of its own for a test, with these bytes in it.
fn file(name: &str, bytes: &[u8]) -> String {
    let file = std::env::temp_dir().join(format!("laremban-{}-{name}", std::process::id()));
    fs::write(&file, bytes).expect("a file");
    file.to_str().expect("a name").to_string()
}

#[test]
fn comments_may_hold_any_bytes_and_a_mark_may_stand_in_front() {
    for bytes in [&b"10 02 # \xff\n11\n"[..], b"\xef\xbb\xbf10 02\r\n11"] {
        let file = file("taken.hex", bytes);
        let out = liftrun(&[&file], &[]);
        fs::remove_file(&file).expect("a file");
        assert_eq!(text(out.stdout), "0 0\n0 0\nend 0 2 2 0\n");
    }
}

#[test]
fn a_file_that_is_refused_is_told_in_one_clean_line() {
    let long = vec![b' '; (1 << 20) + 1];
    for bytes in [&b"10\x1b]0;title\x07"[..], b"\xff", &long] {
        let file = file("refused.hex", bytes);
        let out = liftrun(&[&file], &[]);
        fs::remove_file(&file).expect("a file");
        assert_eq!((out.status.code(), out.stdout.len()), (Some(1), 0));
        let told = text(out.stderr);
        assert_eq!(told.lines().count(), 1);
        assert!(!told.trim_end().contains(char::is_control), "{told:?}");
    }
}
