//! Each refusal in its exact words.

use crate::{Cases, compare, last};

const OPERANDS: Cases = &[
    (
        "NEW 0",
        "refused by 3: dimension 0 is out of range: a new plan has dimension 1 to 4",
    ),
    (
        "NEW 255",
        "refused by 3: dimension 255 is out of range: a new plan has dimension 1 to 4",
    ),
    (
        "NEW 1; UNSEW 2 0",
        "refused by 3: axis 2 is out of range: the plan has dimension 1, and axes 0 to 1",
    ),
    (
        "NEW 1; DART; PLACE 0 1 0",
        "refused by 3: axis 1 is out of range: in dimension 1 a place has coordinate 0 alone",
    ),
    (
        "NEW 3; DART; PLACE 0 3 0",
        "refused by 3: axis 3 is out of range: in dimension 3 a place has coordinates 0 to 2",
    ),
    (
        "COUNT 2 0",
        "refused by 3: side 2 is out of range: 0 is the plan, 1 the lifted side",
    ),
    (
        "NEW 1; LIFT; COUNT lifted 3",
        "refused by 3: axis 3 is out of range: the lifted map has dimension 2, and axes 0 to 2",
    ),
    (
        "NEW 1; CLEAR 0",
        "refused by 4: there is no dart 0: the plan has no darts",
    ),
    (
        "NEW 1; DART; CLEAR 65535",
        "refused by 4: there is no dart 65535: the plan has 1 dart, dart 0",
    ),
    (
        "NEW 1; DART x 2; SEW 0 7 8",
        "refused by 4: there is no dart 7: the plan has 2 darts, 0 to 1",
    ),
    (
        "NEW 1; DART x 2; SEW 0 1 8",
        "refused by 4: there is no dart 8: the plan has 2 darts, 0 to 1",
    ),
    (
        "NEW 1; DART; SPAN 7 0 3 7",
        "refused by 4: there is no dart 7: the plan has 1 dart, dart 0",
    ),
    (
        "NEW 1; DART; SPAN 0 3 3 7",
        "refused by 5: lo is 3, which is not below hi, 3",
    ),
    (
        "NEW 1; DART; SPAN 0 2147483647 -2147483648",
        "refused by 5: lo is 2147483647, which is not below hi, -2147483648",
    ),
];

#[test]
fn operands() {
    compare(OPERANDS);
}

#[test]
fn blank_sides_and_room() {
    compare(&[
        ("LIFT", "refused by 12: there is no plan yet: NEW makes one"),
        (
            "COUNT plan 0",
            "refused by 12: there is no plan yet: NEW makes one",
        ),
        (
            "DART x 3",
            "refused by 12 (3 times): there is no plan yet: NEW makes one",
        ),
        (
            "ADOPT",
            "refused by 21: nothing is lifted yet: LIFT comes first",
        ),
        (
            "NEW 4; LIFT; ADOPT; LIFT",
            "refused by 22: the plan has dimension 5, and can't be lifted",
        ),
    ]);
    let edge = "NEW 1; DART x 2; SEW 0 0 1; SPAN 0 0 3; LIFT";
    assert_eq!(last(&["--lifted", "8"], edge), "8 darts");
    let full = "refused by 20: the lifted side has room for 7 darts, and the lift has 8";
    assert_eq!(last(&["--lifted", "7"], edge), full);
    let small = "refused by 13: the lifted map has 8 darts, and the plan has room for 2";
    assert_eq!(last(&["--plan", "2"], &format!("{edge}; ADOPT")), small);
    let full = "refused by 13: the plan has 2 darts, and room for no more";
    assert_eq!(last(&["--plan", "2"], &format!("{edge}; DART")), full);
    let some =
        "darts 0 to 1, then refused by 13 (2 times): the plan has 2 darts, and room for no more";
    assert_eq!(last(&["--plan", "2"], "NEW 1; DART x 4"), some);
    let none = "refused by 13: the plan has 0 darts, and room for no more";
    assert_eq!(last(&["--plan", "0"], "NEW 1; DART"), none);
}

/// An open face of three sides, darts 0 to 5, and a closed one, darts 6 to 11.
const FACES: &str = "NEW 3; DART x 13; SEW 0 0 1; SEW 0 2 3; SEW 0 4 5; SEW 1 1 2; SEW 1 3 4; \
     SEW 0 6 7; SEW 0 8 9; SEW 0 10 11; SEW 1 7 8; SEW 1 9 10; SEW 1 11 6";

/// With them.
const SEWING: Cases = &[
    (
        "SEW 0 12 3",
        "refused by 14: dart 3 is linked to dart 2 along axis 0 already",
    ),
    (
        "SEW 0 3 12",
        "refused by 14: dart 3 is linked to dart 2 along axis 0 already",
    ),
    (
        "SEW 0 3 3",
        "refused by 14: dart 3 is linked to dart 2 along axis 0 already",
    ),
    (
        "SEW 0 3 2",
        "refused by 14: dart 3 is linked to dart 2, and dart 2 to dart 3, along axis 0 already",
    ),
    (
        "SEW 2 12 12",
        "refused by 15: no pairing: dart 12 cannot be sewn to itself",
    ),
    (
        "SEW 3 6 9",
        "refused by 15: no pairing: dart 6 reaches dart 9 along axes 0 and 1, so that both would need the same partners",
    ),
    (
        "SEW 3 0 12",
        "refused by 15: no pairing: dart 0 reaches 6 darts along axes 0 and 1 and dart 12 reaches 1: dart 12 would need two partners, 0 and 1",
    ),
    (
        "SEW 3 0 6",
        "refused by 15: no pairing: along axes 0 and 1 dart 0 would need two partners, 6 and 11",
    ),
    (
        "PLACE 1 0 7; SEW 2 0 6",
        "refused by 16: places disagree: dart 1 is at (7, 0, 0), its partner dart 7 at (0, 0, 0)",
    ),
    (
        "SPAN 6 -1 2; SPAN 6 2 5; SEW 2 0 7",
        "refused by 16: spans disagree: dart 0 has none, its partner dart 7 has -1..2 2..5",
    ),
    (
        "SPAN 6 -1 2 7; SPAN 6 2 5; SEW 2 0 7",
        "refused by 16: spans disagree: dart 0 has none, its partner dart 7 has -1..2 of 7 2..5",
    ),
    (
        "SPAN 0 -1 2 7; SPAN 0 2 5; SPAN 6 -1 2; SPAN 6 2 5 9; SEW 2 0 7",
        "refused by 16: objects disagree: dart 0 has -1..2 of 7 2..5 of 0, its partner dart 7 has -1..2 of 0 2..5 of 9",
    ),
    (
        "SPAN 6 0 2; SEW 3 6 9",
        "refused by 15: no pairing: dart 6 reaches dart 9 along axes 0 and 1, so that both would need the same partners",
    ),
    (
        "UNSEW 1 12",
        "refused by 17: dart 12 is free along axis 1 already",
    ),
];

#[test]
fn sewing() {
    for (command, wanted) in SEWING {
        let list = format!("{FACES}; {command}");
        assert_eq!(last(&[], &list), *wanted, "{command}");
    }
}

#[test]
fn rows_may_differ_across_the_last_axis() {
    // Darts 0 and 2 have different rows, and are no fault; 1 and 3 are.
    let list = "NEW 2; DART x 4; SEW 0 0 1; SEW 0 2 3; SPAN 0 0 1; PLACE 1 0 7; SEW 2 0 2";
    let wanted =
        "refused by 16: places disagree: dart 1 is at (7, 0), its partner dart 3 at (0, 0)";
    assert_eq!(last(&[], list), wanted);
}

/// A row of eight spans, two of which touch.
const EIGHT: &str = "NEW 1; DART; SPAN 0 0 1; SPAN 0 1 2; SPAN 0 3 4; SPAN 0 5 6; SPAN 0 7 8; \
     SPAN 0 9 10; SPAN 0 11 12; SPAN 0 -9 -5";

#[test]
fn full_rows() {
    let full = |ends: &str| {
        format!(
            "refused by 19: the top cell of dart 0 has 8 spans already, {ends} overlaps none of \
             them, and a row holds no more"
        )
    };
    for (span, ends) in [
        ("SPAN 0 20 21", "20..21"),
        ("SPAN 0 20 21 7", "20..21"),
        // It touches a span on either side, and both are of its object.
        ("SPAN 0 2 3", "2..3"),
    ] {
        assert_eq!(last(&[], &format!("{EIGHT}; {span}")), full(ends));
    }
    // What is joined needs no room.
    let joined = "joined to -9..4 for 1 dart of the top cell";
    assert_eq!(last(&[], &format!("{EIGHT}; SPAN 0 -6 4")), joined);
    let again = format!("{EIGHT}; SPAN 0 -6 4; SPAN 0 20 21");
    assert_eq!(last(&[], &again), "20..21 for 1 dart of the top cell");
}

#[test]
fn spans_of_other_objects() {
    let overlap = |new: &str, old: &str| {
        format!("refused by 18: {new} overlaps {old}, a span of the top cell of dart 0")
    };
    let mixed = "NEW 1; DART; SPAN 0 0 3 7; SPAN 0 3 5 9; SPAN 0 5 8";
    for (list, new, old) in [
        // An overlap is told before a full row.
        (
            format!("{EIGHT}; SPAN 0 -6 4 7"),
            "-6..4 of object 7",
            "-9..-5 of object 0",
        ),
        // What it touches is not what it overlaps.
        (
            format!("{EIGHT}; SPAN 0 2 4 7"),
            "2..4 of object 7",
            "3..4 of object 0",
        ),
        // Neither is what it would be joined to, were it alone.
        (
            format!("{mixed}; SPAN 0 2 4 7"),
            "2..4 of object 7",
            "3..5 of object 9",
        ),
        (
            format!("{mixed}; SPAN 0 2 9"),
            "2..9 of object 0",
            "0..3 of object 7",
        ),
    ] {
        assert_eq!(last(&[], &list), overlap(new, old), "{list}");
    }
}

#[test]
fn shows() {
    compare(&[
        ("SHOW plan", "blank: there is no plan yet: NEW makes one"),
        (
            "NEW 2; DART; SHOW lifted",
            "blank: nothing is lifted yet: LIFT comes first",
        ),
        ("NEW 2; LIFT; SHOW lifted", "dimension 3, 0 darts"),
        (
            "NEW 2; DART; SHOW lifted names",
            "blank: nothing is lifted yet: LIFT comes first",
        ),
        ("NEW 2; LIFT; SHOW lifted names", "dimension 3, 0 darts"),
        (
            "SHOW lifted names 0",
            "refused by 21: nothing is lifted yet: LIFT comes first",
        ),
        (
            "NEW 2; LIFT; SHOW lifted names 0",
            "refused by 4: there is no dart 0: the lifted map has no darts",
        ),
        ("NEW 3; SHOW plan", "dimension 3, 0 darts"),
        (
            "SHOW cell 0 0",
            "refused by 12: there is no plan yet: NEW makes one",
        ),
        (
            "SHOW cell lifted 0 0",
            "refused by 21: nothing is lifted yet: LIFT comes first",
        ),
        (
            "NEW 1; DART; SHOW cell 2 0",
            "refused by 3: axis 2 is out of range: the plan has dimension 1, and axes 0 to 1",
        ),
        (
            "NEW 1; LIFT; SHOW cell lifted 2 3",
            "refused by 4: there is no dart 3: the lifted map has no darts",
        ),
        (
            "SHOW pieces 0 0",
            "refused by 12: there is no plan yet: NEW makes one",
        ),
        (
            "NEW 1; DART; SHOW pieces 9 0",
            "refused by 3: axis 9 is out of range: the plan has dimension 1, and axes 0 to 1",
        ),
        ("NEW 1; DART; SHOW pieces 0 0", "the corner has no pieces"),
        (
            "NEW 1; DART; SPAN 0 -4 4; SHOW pieces 1 0",
            "the edge has 1 piece: -4..4",
        ),
    ]);
}

#[test]
fn replies() {
    compare(&[
        ("NEW 2; DART x 1", "dart 0"),
        ("NEW 2; DART x 2; SEW 1 0 1; UNSEW 1 1", "2 darts freed"),
        ("NEW 4; LIFT; COUNT lifted 5", "0 cells of axis 5"),
        ("NEW 4; DART; COUNT plan 4", "1 cell of axis 4"),
        ("NEW 3; DART; COUNT plan 3", "1 solid"),
        ("NEW 1; LIFT; ADOPT", "0 darts"),
        (
            "NEW 1; DART x 2; SEW 0 0 1; SPAN 0 0 3 7",
            "0..3 of object 7 for 2 darts of the top cell",
        ),
        (
            "NEW 1; DART; SPAN 0 0 3 0",
            "0..3 of object 0 for 1 dart of the top cell",
        ),
        (
            "NEW 1; DART; CLEAR 0",
            "no spans for 1 dart of the top cell",
        ),
    ]);
}
