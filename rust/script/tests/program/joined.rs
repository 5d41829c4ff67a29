//! Spans that become one with those of their own object, and those that do not.

use crate::{Cases, compare, told};

const ALONE: Cases = &[
    (
        "NEW 1; DART x 2; SEW 0 0 1; SPAN 0 0 3; SPAN 1 3 5",
        "3..5 for 2 darts of the top cell",
    ),
    (
        "NEW 1; DART; SPAN 0 0 2; SPAN 0 4 6; SPAN 0 2 4",
        "2..4 for 1 dart of the top cell",
    ),
    (
        "NEW 1; DART; SPAN 0 0 3 7; SPAN 0 3 5 9",
        "3..5 of object 9 for 1 dart of the top cell",
    ),
    // A row that was emptied, and one of another top cell.
    (
        "NEW 1; DART; SPAN 0 0 3; CLEAR 0; SPAN 0 2 5",
        "2..5 for 1 dart of the top cell",
    ),
    (
        "NEW 1; DART x 2; SEW 1 0 1; SPAN 0 0 3; SPAN 1 0 3",
        "0..3 for 1 dart of the top cell",
    ),
];

#[test]
fn what_only_touches_stays_by_itself() {
    compare(ALONE);
}

const JOINED: Cases = &[
    (
        "NEW 1; DART x 2; SEW 0 0 1; SPAN 0 0 2; SPAN 0 4 6; SPAN 0 8 10; SPAN 1 1 9",
        "joined to 0..10 for 2 darts of the top cell",
    ),
    (
        "NEW 1; DART x 2; SEW 0 0 1; SPAN 0 0 2 7; SPAN 0 4 6 7; SPAN 0 8 10 7; SPAN 0 1 9 7",
        "joined to 0..10 of object 7 for 2 darts of the top cell",
    ),
    // Document 01's E7, by document 02.
    (
        "NEW 1; DART; SPAN 0 0 3; SPAN 0 3 5; SPAN 0 2 5",
        "joined to 0..5 for 1 dart of the top cell",
    ),
    // Within a span, the same again, and over several.
    (
        "NEW 1; DART; SPAN 0 0 10; SPAN 0 2 3",
        "joined to 0..10 for 1 dart of the top cell",
    ),
    (
        "NEW 1; DART; SPAN 0 0 3 7; SPAN 0 0 3 7",
        "joined to 0..3 of object 7 for 1 dart of the top cell",
    ),
    (
        "NEW 1; DART; SPAN 0 1 2; SPAN 0 3 4; SPAN 0 0 5",
        "joined to 0..5 for 1 dart of the top cell",
    ),
    // Object 0 is an object like others, whichever command brings it.
    (
        "NEW 1; DART; SPAN 0 0 3; SPAN 0 2 5 0",
        "joined to 0..5 of object 0 for 1 dart of the top cell",
    ),
    (
        "NEW 1; DART; SPAN 0 0 3 0; SPAN 0 2 5",
        "joined to 0..5 for 1 dart of the top cell",
    ),
    (
        "NEW 1; DART; SPAN 0 -2147483648 0; SPAN 0 -1 2147483647",
        "joined to -2147483648..2147483647 for 1 dart of the top cell",
    ),
];

#[test]
fn what_overlaps_is_joined() {
    compare(JOINED);
}

/// Cells that only the maps tell.
const BY_MAPS: Cases = &[
    (
        "NEW 1; DART x 2; SEW 0 0 1; SPAN 0 0 3; UNSEW 0 0; SPAN 0 2 5",
        "joined to 0..5 for 1 dart of the top cell",
    ),
    (
        "NEW 1; DART x 2; SEW 0 0 1; SPAN 0 0 3; UNSEW 0 0; SPAN 0 2 5; SPAN 1 3 6",
        "3..6 for 1 dart of the top cell",
    ),
    (
        "NEW 1; DART x 2; SEW 0 0 1; SPAN 0 0 3; LIFT; ADOPT; SPAN 0 0 3; SPAN 7 2 5",
        "joined to 0..5 for 8 darts of the top cell",
    ),
    // SEW makes cells of their neighbours too: of 0 and 1, and of 2 and 3.
    (
        "NEW 2; DART x 4; SEW 2 0 2; SEW 2 1 3; SEW 0 0 1; SPAN 2 0 3; SPAN 3 2 5",
        "joined to 0..5 for 2 darts of the top cell",
    ),
];

#[test]
fn what_is_joined_in_cells_that_only_the_maps_tell() {
    compare(BY_MAPS);
}

/// What is joined touches its neighbours, and joining does not go on to them.
#[test]
fn joining_does_not_go_on() {
    let list = "NEW 1\nDART\nSPAN 0 0 3\nSPAN 0 3 5\nSPAN 0 8 9\nSPAN 0 4 8\nSHOW plan";
    let told = told(&[], list);
    assert!(told.contains("\nSPAN 0 4 8: joined to 3..8 for 1 dart of the top cell\n"));
    assert!(told.contains("  0..3 3..8 8..9\n"), "{told}");
}
