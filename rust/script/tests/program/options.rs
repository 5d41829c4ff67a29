//! Options, exit statuses, bytes and hexadecimal text.

use crate::{TOP, failure, program, script, text, told};
use laremban::hex;
use std::fs::File;
use std::io::{BufRead, BufReader};

#[test]
fn strict_tells_by_the_status_that_a_command_was_refused() {
    for (list, code) in [("NEW 1", 0), ("NEW 9", 1), ("SHOW cell 0 0", 0)] {
        let out = script(&["--strict"], list.as_bytes());
        assert_eq!(out.status.code(), Some(code), "{list}");
        assert_eq!(text(&out.stdout), told(&[], list));
    }
}

#[test]
fn options_that_make_no_sense_are_told() {
    let cases: [(&[&str], &str); 12] = [
        (&["--plan"], "--plan: expected how many darts, 0 to 16384"),
        (
            &["--plan", "16385"],
            "--plan: expected how many darts, 0 to 16384",
        ),
        (
            &["--plan", "-1"],
            "--plan: expected how many darts, 0 to 16384",
        ),
        (
            &["--plan", "+1"],
            "--plan: expected how many darts, 0 to 16384",
        ),
        (
            &["--lifted", "x"],
            "--lifted: expected how many darts, 0 to 16384",
        ),
        (&["--fast"], "no option is called --fast: --help tells them"),
        (&["-"], "no option is called -: --help tells them"),
        (&["one", "two"], "one file, or none"),
        (
            &["--hex", "--text", "plan"],
            "one of --bytes, --hex, --words and --text",
        ),
        (&["--text"], "--text: expected plan or lifted"),
        (&["--text", "both"], "--text: expected plan or lifted"),
        (
            &["no such file"],
            "no such file: No such file or directory (os error 2)",
        ),
    ];
    for (words, wanted) in cases {
        assert_eq!(failure(words, b""), format!("script: {wanted}\n"));
    }
    assert!(failure(&[TOP], b"").starts_with(&format!("script: {TOP}: ")));
    assert!(failure(&["--words", TOP], b"").starts_with(&format!("script: {TOP}: ")));
}

#[test]
fn help_is_told() {
    for words in [
        &["--help"][..],
        &["-h"],
        &["--strict", "--help", "more", "files"],
    ] {
        assert!(told(words, "").starts_with("script FILE: runs "));
    }
}

#[test]
fn the_version_is_told() {
    let wanted = concat!("script (Laremban ", env!("CARGO_PKG_VERSION"), ")\n");
    assert_eq!(
        told(&["--strict", "--version", "more", "files"], ""),
        wanted
    );
}

const LIST: &str = "NEW 2\nDART x 18\nSHOW plan\nSEW 0 0 1\nPLACE 3 1 -4\nSPAN 3 0 3\nSPAN 3 3 6 300\nSPAN 3 6 7 0\nCOUNT lifted 2\nCOUNT 9 0\n";
const LEFT_OUT: &str = "script: 1 SHOW line is left out: it is no command\n";

#[test]
fn bytes_and_words_again() {
    let bytes = script(&["--bytes"], LIST.as_bytes());
    assert!(bytes.status.success());
    assert_eq!(text(&bytes.stderr), LEFT_OUT);
    let words = script(&["--words"], &bytes.stdout);
    assert_eq!(text(&words.stdout), LIST.replace("SHOW plan\n", ""));
    assert_eq!(script(&["--bytes"], &words.stdout).stdout, bytes.stdout);
}

#[test]
fn hexadecimal_text_has_the_words_as_comments() {
    let out = script(&["--hex"], LIST.as_bytes());
    assert_eq!(text(&out.stderr), LEFT_OUT);
    let wanted = "10 02  # NEW 2\n\
        11 11 11 11 11 11 11 11 11 11 11 11 11 11 11 11  # DART x 16\n\
        11 11  # DART x 2\n\
        12 00 0000 0001  # SEW 0 0 1\n\
        14 0003 01 fffffffc  # PLACE 3 1 -4\n\
        15 0003 00000000 00000003  # SPAN 3 0 3\n\
        1a 0003 00000003 00000006 012c  # SPAN 3 3 6 300\n\
        1a 0003 00000006 00000007 0000  # SPAN 3 6 7 0\n\
        19 01 02  # COUNT lifted 2\n\
        19 09 00  # COUNT 9 0\n";
    assert_eq!(text(&out.stdout), wanted);
    let bytes = script(&["--bytes"], LIST.as_bytes()).stdout;
    assert_eq!(hex::bytes(wanted), Ok(bytes));
}

#[test]
fn bytes_that_can_not_be_read_become_a_comment() {
    let cases: [(&[u8], &str); 5] = [
        (&[], ""),
        (&[0x11], "DART\n"),
        (
            &[0xff],
            "# byte 0: the command byte is unknown; 1 byte is left: ff\n",
        ),
        (
            &[0x17, 0x11, 0x11, 0x12, 0, 0],
            "LIFT\nDART x 2\n# byte 3: the bytes end before the command's operands do; 3 bytes are left: 12 00 00\n",
        ),
        (
            &[b'N'; 99],
            "# byte 0: the command byte is unknown; 99 bytes are left: ",
        ),
    ];
    for (bytes, wanted) in cases {
        let words = text(&script(&["--words"], bytes).stdout);
        assert!(words.starts_with(wanted), "{words}");
    }
    let long = text(&script(&["--words"], &[b'N'; 99]).stdout);
    assert!(long.ends_with(" 4e 4e and 67 more\n"));
    let many = text(&script(&["--words"], &[0x11; 70_000]).stdout);
    assert_eq!(many, "DART x 65535\nDART x 4465\n");
}

#[test]
fn maps_are_written_as_text() {
    let list = b"NEW 1\nDART x 2\nSEW 0 0 1\nPLACE 1 0 -4\nSPAN 0 0 3 7\nSPAN 0 2 4\nLIFT\n";
    let out = script(&["--text", "plan"], list);
    assert!(out.status.success());
    assert_eq!(text(&out.stderr), "script: 1 command was refused\n");
    let wanted = "laremban-plan 2 1 2\n1 0 0 0 3 7\n0 1 -4 0 3 7\n";
    assert_eq!(text(&out.stdout), wanted);
    let out = script(&["--strict", "--text", "lifted"], list);
    assert_eq!(out.status.code(), Some(1));
    let lifted = laremban::text::read(&text(&out.stdout)).expect("a map");
    assert_eq!((lifted.dimension, lifted.count), (2, 8));
    assert_eq!(lifted.tables.objects, [7; 8]);
    // The lifted map is that of the last LIFT, the plan that of the end.
    let anew = [&list[..], b"NEW 3\nDART\nSHOW plan\n"].concat();
    assert_eq!(script(&["--text", "lifted"], &anew).stdout, out.stdout);
    let plan = told(&["--text", "plan"], "NEW 3\nDART\n");
    assert_eq!(plan, "laremban-plan 2 3 1\n0 0 0 0 0 0 0\n");
}

#[test]
fn a_blank_map_has_no_text() {
    for (side, list, why) in [
        ("plan", "", "there is no plan yet"),
        ("lifted", "NEW 1", "nothing has been lifted yet"),
    ] {
        let told = failure(&["--text", side], list.as_bytes());
        assert_eq!(told, format!("script: standard input: {why}\n"));
    }
}

/// The end of a terminal that a program writes to is a terminal itself, with
/// nobody before it: the program waits there, and says for what.
#[test]
fn on_a_terminal_it_says_what_it_waits_for() {
    for (words, wanted) in [
        (&[][..], "script: reads commands from this terminal, "),
        (&["--hex"], "script: reads commands from this terminal, "),
        (&["--words"], "script: reads bytes from this terminal, "),
    ] {
        let terminal = File::options().read(true).write(true).open("/dev/ptmx");
        let Ok(terminal) = terminal else {
            return eprintln!("there are no terminals here");
        };
        let mut child = program(words).stdin(terminal).spawn().expect("the program");
        let mut line = String::new();
        let told = BufReader::new(child.stderr.take().expect("a pipe")).read_line(&mut line);
        child.kill().expect("a running program");
        child.wait().expect("an end");
        assert!(told.is_ok() && line.starts_with(wanted), "{line}");
    }
}
