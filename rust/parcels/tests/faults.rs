//! What is wrong in a sheet is told with its line and its parcel, all at once.

use laremban::Span;
use laremban_parcels::lifting::{lift, lift_through_time};
use laremban_parcels::{Findings, SIDES, Sheet};
use std::fmt::Write;

fn faults(text: &str) -> Vec<String> {
    let read = Sheet::read(text.as_bytes());
    read.map(|_| ()).expect_err(text).lines("f")
}

fn notes(text: &str) -> Vec<String> {
    Sheet::read(text.as_bytes()).expect(text).notes.lines("f")
}

#[test]
fn all_faults_are_told_by_their_lines() {
    let sheet = "\
# Nothing is right here.
a (0 0) (8 0) (8 6) (0 6): 0..3
b (0 0) (0 7) (8 6) (8 0): 0..3
a (20 0) (28 0) (28 6): 3..3
c (30 0) (38 0): 0..1 1..2 2..3 3..4 4..5 5..6 6..7 7..8 8..9
d (40 0) (48 6) (48 0) (40 7): 5..9 of 7 0..6
(50 0) (58 0) (58 6): 0..3
e (60 0) (68 0) (68 x): 0..3
";
    let wanted = [
        "f:3: b: it lies on the same side of (0 0) (8 0) as a (line 2): they overlap",
        "f:3: b: it lies on the same side of (8 0) (8 6) as a (line 2): they overlap",
        "f:4: a: the name is used on line 2 already",
        "f:4: a: 3..3: the low end is not below the high end",
        "f:5: c: 9 heights, and 8 are the most",
        "f:5: c: 2 corners, and three are the fewest",
        "f:6: d: the heights 0..6 of 0 and 5..9 of 7 overlap, and are of two objects (heights without \
         an object have object 0)",
        "f:6: d: the sides (40 0) (48 6) and (48 0) (40 7) meet",
        "f:7: a parcel begins with its name",
        "f:8: e: `x` is no whole number",
        "f: ten are told, and there are more",
    ];
    assert_eq!(faults(sheet), wanted);
}

#[test]
fn what_is_no_object_is_told_with_its_line() {
    let sheet = "\
a (0 0) (8 0) (8 6) (0 6): 0..3 of 65535 3..6 of 0
b (20 0) (28 0) (28 6): 0..3 of 65536
c (30 0) (38 0) (38 6): 0..3 of
d (40 0) (48 0) (48 6): 0..3 of 101 3..6 of flat
e (50 0) (58 0) (58 6): 0..3 of 3..6 of 7
f (60 0) (68 0) (68 6): 0..3 of 1 2..6 of 2
";
    let wanted = "a whole number from 0 to 65535 is wanted behind `of`";
    let wanted = [
        &format!("f:2: b: `65536` is no object: {wanted}"),
        "f:3: c: the end of the line stands where an object is wanted, behind `of`",
        &format!("f:4: d: `flat` is no object: {wanted}"),
        "f:5: e: the object behind `of` is missing before `3..`",
        "f:6: f: the heights 0..3 of 1 and 2..6 of 2 overlap, and are of two objects",
    ];
    assert_eq!(faults(sheet), wanted);
}

#[test]
fn a_side_shared_by_three_parcels() {
    let sheet = "\
a (0 0) (8 0) (4 6):
b (0 0) (8 0) (4 -6):
c (0 0) (8 0) (4 9):
";
    let wanted = ["f:3: c: the side (0 0) (8 0) is shared by a (line 1) and b (line 2) already"];
    assert_eq!(faults(sheet), wanted);
}

#[test]
fn ten_faults_of_sides_are_told() {
    let square = |name: &str, x: i32, top: i32| {
        let next = x + 1;
        format!("{name}{x} ({x} 0) ({next} 0) ({next} 1) ({x} {top}):\n")
    };
    let twice = |x: i32| square("a", x, 1) + &square("b", x, 2);
    let told = faults(&(twice(0) + &twice(5) + &twice(10) + &twice(15)));
    assert_eq!(told.len(), 11);
    assert_eq!(told[10], "f: ten are told, and there are more");
}

#[test]
fn a_sheet_without_a_parcel() {
    assert_eq!(faults(""), ["f: there is no parcel in it"]);
    assert_eq!(faults("# a\n\n"), ["f: there is no parcel in it"]);
}

#[test]
fn a_missing_corner_is_noted() {
    let long = "a (0 0) (8 0) (8 6) (0 6): 0..3\n";
    let note = |side: &str, missing: &str| {
        vec![format!(
            "f:2: b: the side {side} lies along (0 0) (8 0) of a (line 1), and they are not sewn: \
             give the {missing} to both"
        )]
    };
    for (b, side, missing) in [
        ("(0 0) (4 0) (4 -6)", "(0 0) (4 0)", "corner (4 0)"),
        ("(8 0) (4 0) (4 -6)", "(4 0) (8 0)", "corner (4 0)"),
        (
            "(2 0) (4 0) (4 -6)",
            "(2 0) (4 0)",
            "corners (2 0) and (4 0)",
        ),
        (
            "(4 0) (12 0) (9 -6)",
            "(4 0) (12 0)",
            "corners (4 0) and (8 0)",
        ),
        (
            "(-1 0) (9 0) (9 -6)",
            "(-1 0) (9 0)",
            "corners (0 0) and (8 0)",
        ),
    ] {
        let sheet = format!("{long}b {b}: 0..3");
        assert_eq!(notes(&sheet), note(side, missing), "{b}");
    }
    // The same with the corner given, and beside it, and on another line.
    for b in [
        "(0 0) (8 0) (4 -6)",
        "(8 0) (12 0) (9 -6)",
        "(0 -1) (4 -1) (4 -6)",
    ] {
        assert!(notes(&format!("{long}b {b}: 0..3")).is_empty(), "{b}");
    }
}

#[test]
fn a_slanting_side_is_found_among_parallels() {
    let sheet = "\
a (0 0) (9 6) (0 6):
b (3 2) (6 4) (6 2):
c (3 -1) (6 1) (6 -1):
";
    let wanted = "f:2: b: the side (3 2) (6 4) lies along (0 0) (9 6) of a (line 1), and they are \
                  not sewn: give the corners (3 2) and (6 4) to both";
    assert_eq!(notes(sheet), [wanted]);
}

#[test]
fn parcels_on_the_same_side_of_a_stretch_overlap() {
    let sheet = "a (0 0) (8 0) (8 6) (0 6):\nb (2 0) (4 0) (4 3):";
    let wanted = "f:2: b: the side (2 0) (4 0) lies along (0 0) (8 0) of a (line 1), and on the \
                  same side of it: they overlap";
    assert_eq!(faults(sheet), [wanted]);
}

/// A row of squares, each with these heights.
fn row(squares: usize, heights: &str) -> String {
    let mut text = String::new();
    for x in 0..squares {
        let next = x + 1;
        let _ = writeln!(
            text,
            "p{x} ({x} 0) ({next} 0) ({next} 1) ({x} 1): {heights}"
        );
    }
    text
}

fn lifted(text: &str) -> Result<usize, Findings> {
    lift(&Sheet::read(text.as_bytes())?).map(|lifted| lifted.count)
}

#[test]
fn the_most_sides() {
    let most = row(SIDES / 4, "");
    assert_eq!(lifted(&most), Ok(0));
    let more = format!("{most}last (0 5) (1 5) (1 6):\nmore (0 8) (1 8) (1 9):");
    let wanted = ["f:2049: last: with it the sheet has more than 8192 sides"];
    assert_eq!(faults(&more), wanted);
}

#[test]
fn the_first_parcel_with_which_the_lift_is_too_large() {
    let heights = "0..1 2..3 4..5 6..7";
    let fits = (1..).take_while(|&many| lifted(&row(many, heights)).is_ok());
    let fits = fits.last().expect("one fits");
    for many in [fits + 1, fits + 2, 3 * fits] {
        let told = lifted(&row(many, heights)).expect_err("too large");
        let name = format!("f:{}: p{fits}: ", fits + 1);
        let wanted = "with it the lift has more than 16384 darts (refused by 20): 341 plain boxes \
                      fit on one sheet; cut it into smaller sheets";
        assert_eq!(told.lines("f"), [format!("{name}{wanted}")]);
    }
}

#[test]
fn a_lift_through_time_that_is_too_large() {
    let sheet = Sheet::read(row(60, "0..3").as_bytes()).expect("a sheet");
    let solids = lift(&sheet).expect("a lift");
    let told = lift_through_time(&sheet, &solids, (0, 5)).expect_err("too large");
    let wanted = "f: the lift through time has more than 16384 darts (refused by 20): 42 plain \
                  boxes fit on one sheet with --time; cut it into smaller sheets";
    assert_eq!(told.lines("f"), [wanted]);
}

/// So many boxes fit as the words of the refusal tell, in a row and apart.
#[test]
fn so_many_plain_boxes_fit_as_is_told() {
    let apart = |many: usize| -> String {
        let lines = row(2 * many, "0..3");
        lines
            .lines()
            .step_by(2)
            .map(|line| format!("{line}\n"))
            .collect()
    };
    for text in [
        &|many| row(many, "0..3"),
        &apart as &dyn Fn(usize) -> String,
    ] {
        assert_eq!(lifted(&text(341)), Ok(341 * 48));
        assert!(lifted(&text(342)).is_err());
        let through = |many: usize| {
            let sheet = Sheet::read(text(many).as_bytes())?;
            let solids = lift(&sheet)?;
            lift_through_time(&sheet, &solids, (0, 5)).map(|lifted| lifted.count)
        };
        assert_eq!(through(42), Ok(42 * 384));
        assert!(through(43).is_err());
    }
}

/// The run decides: what it refuses is told of the parcel whose command it is.
#[test]
fn a_refused_command_is_told_of_its_parcel() {
    let text = "a (0 0) (8 0) (4 6): 0..3\n\nb (0 0) (8 0) (4 -6): 0..3\n";
    let good = Sheet::read(text.as_bytes()).expect("a sheet");
    let told = |change: &dyn Fn(&mut Sheet)| {
        let mut sheet = good.clone();
        change(&mut sheet);
        lift(&sheet).expect_err("a refusal").lines("f")
    };
    let other_end = told(&|sheet| sheet.seams[0].later.1 ^= 1);
    let wanted = "f:3: b: the command Sew { axis: 2, a: 0, b: 7 } is refused by 16: places, or \
                  rows of spans with their objects, differ within a pair";
    assert_eq!(other_end, [wanted]);
    let overlap = told(&|sheet| sheet.parcels[1].heights.push(Span::new(2, 4).of(7)));
    let wanted = "f:3: b: the command SpanOf { dart: 6, lo: 2, hi: 4, object: 7 } is refused by 18: \
                  the span overlaps one of another object";
    assert_eq!(overlap, [wanted]);
}

#[test]
fn the_same_parcel_twice_is_told_once() {
    let first = "a (0 0) (8 0) (8 6) (0 6): 0..3\n";
    let wanted =
        "it has the corners of a (line 1): a parcel stands on one line, with all its heights";
    for (again, name) in [
        ("a (0 0) (8 0) (8 6) (0 6): 0..3", "a"),
        ("a (8 6) (8 0) (0 0) (0 6): 3..6", "a"),
        ("b (8 6) (8 0) (0 0) (0 6):", "b"),
    ] {
        let told = faults(&format!("{first}{again}\n"));
        assert_eq!(told, [format!("f:2: {name}: {wanted}")]);
    }
    let other = faults(&format!("{first}a (20 0) (28 0) (28 6): 3..6\n"));
    assert_eq!(other, ["f:2: a: the name is used on line 1 already"]);
}
