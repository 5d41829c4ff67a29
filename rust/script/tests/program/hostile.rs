//! Input that no student means.

use crate::{failure, program, script, text, told};
use std::io::Read;

const END: &str = "The run ended at the end of the list: ";

#[test]
fn nothing_and_comments_are_scripts() {
    let nothing = format!("{END}0 commands taken, 0 accepted, 0 refused.\n");
    for input in [
        "",
        "\n",
        "\r\n\r\n",
        "# NEW 2",
        "   \t # \n\n#",
        "\u{feff}",
        "\u{feff}# x",
    ] {
        assert_eq!(told(&[], input), nothing);
    }
    let out = script(&[], b"# \xff\xfe caf\xe9\n");
    assert_eq!(text(&out.stdout), nothing);
}

#[test]
fn line_ends_marks_and_case_do_not_matter() {
    let wanted = told(&[], "NEW 2\nDART x 8\nPLACE 0 0 -4\nSHOW cell lifted 0 7\n");
    assert!(wanted.starts_with("NEW 2: an empty plan"));
    for input in [
        "NEW 2\nDART x 8\nPLACE 0 0 -4\nSHOW cell lifted 0 7",
        "NEW 2\r\nDART x 8\r\nPLACE 0 0 -4\r\nSHOW cell lifted 0 7\r\n",
        "\u{feff}NEW 2\nDART x 8\nPLACE 0 0 -4\nSHOW cell lifted 0 7",
        "  new\t002 # two\n\ndart X 08\nPlace -0 0 -0004#\nsHOW CELL Lifted 0 7 # seven",
    ] {
        assert_eq!(told(&[], input), wanted);
    }
}

/// A line, and what is told of it.
const UNREADABLE: [(&str, &str); 19] = [
    (
        "NEW",
        "the line ends too early: expected a number from 0 to 255 (dimension of NEW dimension)",
    ),
    (
        "SEW 0 1",
        "the line ends too early: expected a number from 0 to 65535 (b of SEW axis a b)",
    ),
    (
        "NEW 256",
        "`256`: expected a number from 0 to 255 (dimension of NEW dimension)",
    ),
    (
        "NEW -1",
        "`-1`: expected a number from 0 to 255 (dimension of NEW dimension)",
    ),
    (
        "UNSEW 0 65536",
        "`65536`: expected a number from 0 to 65535 (a of UNSEW axis a)",
    ),
    (
        "PLACE 0 0 2147483648",
        "`2147483648`: expected a number from -2147483648 to 2147483647 (coordinate of PLACE dart axis coordinate)",
    ),
    (
        "SPAN 0 +1 2",
        "`+1`: expected a number from -2147483648 to 2147483647 (lo of SPAN dart lo hi)",
    ),
    (
        "CLEAR 1.0",
        "`1.0`: expected a number from 0 to 65535 (dart of CLEAR dart)",
    ),
    (
        "CLEAR 0x1",
        "`0x1`: expected a number from 0 to 65535 (dart of CLEAR dart)",
    ),
    (
        "COUNT both 1",
        "`both`: expected `plan`, `lifted` or a number from 0 to 255 (side of COUNT side axis)",
    ),
    ("LIFT 2", "`2`: expected the end of the line"),
    (
        "DART 8",
        "`8`: expected `x` and how many darts, or the end of the line",
    ),
    (
        "DART x 65536",
        "`65536`: expected how many darts: a number from 1 to 65535",
    ),
    (
        "SHOW",
        "the line ends too early: expected `plan`, `lifted`, `cell` or `pieces`",
    ),
    (
        "SHOW lifted 6",
        "`6`: expected `names` or the end of the line",
    ),
    (
        "SHOW lifted names up",
        "`up`: expected a number from 0 to 65535 (dart of SHOW lifted names [dart])",
    ),
    ("SHOW plan names", "`names`: expected the end of the line"),
    (
        "SHOW pieces plan 1 0",
        "`plan`: expected a number from 0 to 255 (axis of SHOW pieces axis dart)",
    ),
    (
        "SHOW cell lifted 1",
        "the line ends too early: expected a number from 0 to 65535 (dart of SHOW cell [side] axis dart)",
    ),
];

#[test]
fn what_can_not_be_read_is_told_with_its_line() {
    for (line, wanted) in UNREADABLE {
        let input = format!("NEW 2\n\n{line} # comment\nLIFT");
        let wanted = format!("script: standard input:3: {wanted}\n");
        assert_eq!(failure(&[], input.as_bytes()), wanted);
    }
}

#[test]
fn unknown_words_are_shown_so_that_a_terminal_is_safe() {
    let all = "expected a command (NEW, DART, SEW, UNSEW, PLACE, SPAN, CLEAR, LIFT, ADOPT, COUNT) or SHOW";
    let long = "9".repeat(5_000_000);
    let cases: [(&[u8], &str); 5] = [
        (b"SOW 0 0 1", "SOW"),
        (b"\0NEW 2", "\\0NEW"),
        (b"\x1b[2J", "\\u{1b}[2J"),
        (b"N\xffW 2", "N\u{fffd}W"),
        (long.as_bytes(), &long[..40]),
    ];
    for (line, shown) in cases {
        assert_eq!(
            failure(&[], line),
            format!("script: standard input:1: `{shown}`: {all}\n")
        );
    }
}

#[test]
fn ten_lines_are_told_and_how_many_more() {
    for (lines, last) in [
        (10, None),
        (11, Some("1 more line")),
        (5_000, Some("4990 more lines")),
    ] {
        let told = failure(&[], "CLEAR\n".repeat(lines).as_bytes());
        let (first, rest) = told.split_at(told.find("input:10: ").expect("ten lines"));
        assert_eq!(first.lines().count(), 10);
        let more = rest.lines().nth(1);
        let wanted = last.map(|last| format!("script: standard input: {last} can't be read"));
        assert_eq!(more, wanted.as_deref());
    }
}

#[test]
fn what_does_not_end_is_told() {
    // Zeros without end.
    for words in [
        &["/dev/zero"][..],
        &["--words", "/dev/zero"],
        &["--hex", "/dev/zero"],
    ] {
        assert_eq!(
            failure(words, b""),
            "script: /dev/zero: more than 67108864 bytes\n"
        );
    }
}

#[test]
fn a_short_script_asks_for_no_more_than_there_is() {
    let told = failure(&[], "DART x 65535\n".repeat(60_000).as_bytes());
    assert_eq!(
        told,
        "script: standard input:153: no script has more than 10000000 commands\n"
    );
}

#[test]
fn an_output_that_nobody_reads_is_no_failure() {
    let mut child = program(&["--strict"]).spawn().expect("the program");
    let mut out = child.stdout.take().expect("a pipe");
    let input = format!("NEW 2\n{}", "DART\n".repeat(16_000));
    let mut stdin = child.stdin.take().expect("a pipe");
    std::io::Write::write_all(&mut stdin, input.as_bytes()).expect("a reader");
    drop(stdin);
    out.read_exact(&mut [0; 5]).expect("a line");
    drop(out);
    let ended = child.wait_with_output().expect("an end");
    assert_eq!(text(&ended.stderr), "");
    assert!(ended.status.success());
}

#[test]
fn many_refusals_end_soon() {
    let edits = "PLACE 0 0 1\nSEW 0 0 1\n".repeat(20_000);
    let told = told(&[], &format!("NEW 1\nDART x 2\nSEW 0 0 1\n{edits}"));
    assert!(told.ends_with("40004 commands taken, 20004 accepted, 20000 refused.\n"));
    let exact = "dart 0 is linked to dart 1, and dart 1 to dart 0, along axis 0 already";
    assert!(told.matches(exact).count() > 10_000);
}

/// Rows are known without a run, also where spans are joined or refused.
#[test]
fn many_spans_end_soon() {
    let edits = "SPAN 0 0 3\nSPAN 1 2 5\nSPAN 0 4 6 7\n".repeat(20_000);
    let told = told(&[], &format!("NEW 1\nDART x 2\nSEW 0 0 1\n{edits}"));
    assert!(told.ends_with("60004 commands taken, 40004 accepted, 20000 refused.\n"));
    assert_eq!(
        told.matches(": joined to 0..5 for 2 darts ").count(),
        39_999
    );
    let exact = ": refused by 18: 4..6 of object 7 overlaps 0..5 of object 0, a span of ";
    assert_eq!(told.matches(exact).count(), 20_000);
}
