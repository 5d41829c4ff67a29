//! Heights of one object that overlap are joined, and that is told; those of two
//! objects are a fault.

mod common;

use common::{folder_with, parcels};
use laremban_parcels::lifting::lift;
use laremban_parcels::{HEIGHTS, Sheet, Solids, compare};
use std::fs;

/// Three parcels: with three heights that are joined, and one that touches them;
/// with two that only touch; and with one within another, of object 0.
const SURVEY: &str = "\
mill (0 0) (4 0) (4 3) (0 3): 5..9 of 101 0..3 of 101 2..6 of 101 9..12 of 101
shed (4 0) (8 0) (8 3) (4 3): 0..3 of 7 3..6 of 7
barn (0 3) (4 3) (4 6) (0 6): 0..8 2..5
";

const REPORT: &str = "\
survey: 3 parcels with 12 sides, 2 sewn
lifted to 284 darts: 28 corners, 50 edges, 28 faces, 5 solids
mill 0..9 of 101: floor 12, volume 108
  joined from 0..3, 2..6 and 5..9
  floor at 9 with mill 9..12 of 101: 12
  wall 0..8 with barn 0..8 from (0 3) to (4 3): 4 x 8 = 32
  wall 0..3 with shed 0..3 of 7 from (4 0) to (4 3): 3 x 3 = 9
  wall 3..6 with shed 3..6 of 7 from (4 0) to (4 3): 3 x 3 = 9
mill 9..12 of 101: floor 12, volume 36
  floor at 9 with mill 0..9 of 101: 12
shed 0..3 of 7: floor 12, volume 36
  floor at 3 with shed 3..6 of 7: 12
  wall 0..3 with mill 0..9 of 101 from (4 0) to (4 3): 3 x 3 = 9
shed 3..6 of 7: floor 12, volume 36
  floor at 3 with shed 0..3 of 7: 12
  wall 3..6 with mill 0..9 of 101 from (4 0) to (4 3): 3 x 3 = 9
barn 0..8: floor 12, volume 96
  joined from 0..8 and 2..5
  wall 0..8 with mill 0..9 of 101 from (0 3) to (4 3): 4 x 8 = 32
object 0: 1 solid, floor space 12, volume 96
object 7: 2 solids, floor space 24, volume 72
object 101: 2 solids, floor space 24, volume 144
totals: floor space 60, volume 312, shared walls 50
";

const NOTES: &str = "\
parcels: note: survey:1: mill: the heights 0..3, 2..6 and 5..9, all of 101, overlap, and are joined to 0..9
parcels: note: survey:3: barn: the heights 0..8 and 2..5 overlap, and are joined to 0..8
";

#[test]
fn what_is_joined_is_told() {
    let folder = folder_with("joined", &[("survey", SURVEY)]);
    let ran = parcels(&folder, &["survey"]);
    assert_eq!(
        (ran.status, &ran.out[..], &ran.err[..]),
        (Some(0), REPORT, NOTES)
    );
    // Notes are told where only totals are printed too.
    let quiet = parcels(&folder, &["--quiet", "survey"]);
    let totals = "survey: floor space 60, volume 312, shared walls 50\n";
    assert_eq!((&quiet.out[..], &quiet.err[..]), (totals, NOTES));
}

/// The sheet with its heights joined by hand.
fn by_hand() -> String {
    let joined = SURVEY.replace("5..9 of 101 0..3 of 101 2..6 of 101", "0..9 of 101");
    joined.replace("0..8 2..5", "0..8")
}

/// Maps, tables and whose the solids are: as if the heights had been given joined.
#[test]
fn what_is_written_is_that_of_the_joined_heights() {
    let written = |text: &str, time: &[&str]| {
        let folder = folder_with("written", &[("survey", text)]);
        let words = [time, &["--out", ".", "--table", "all.tsv", "survey"]].concat();
        assert_eq!(parcels(&folder, &words).status, Some(0));
        let files = ["survey.map", "survey.solids", "all.tsv"];
        files.map(|file| fs::read_to_string(folder.join(file)).expect(file))
    };
    for time in [&[][..], &["--time", "1990..2020"]] {
        assert_eq!(written(SURVEY, time), written(&by_hand(), time));
    }
    let [_, solids, table] = written(SURVEY, &[]);
    assert!(solids.contains("\tmill\t0\t9\t101\n"), "{solids}");
    assert!(table.contains("\tsolid\tmill\t0\t9\t"), "{table}");
}

/// A parcel with these heights.
fn parcel(heights: &str) -> String {
    format!("a (0 0) (4 0) (4 3): {heights}\n")
}

/// The heights between which the solids of a parcel stand, by the lifted map, and
/// the notes of its sheet.
fn stands(heights: &str) -> (Vec<(i32, i32)>, Vec<String>) {
    let sheet = Sheet::read(parcel(heights).as_bytes()).expect(heights);
    let lifted = lift(&sheet).expect(heights);
    let solids = Solids::read(lifted.map()).expect(heights);
    compare(&sheet, &solids).expect(heights);
    let heights = solids.solids.iter().map(|solid| solid.heights).collect();
    assert!(sheet.notes.is_empty());
    (heights, sheet.joined.lines("f"))
}

#[test]
fn the_order_of_a_line_does_not_matter() {
    let wanted = stands("0..2 1..4 3..9 9..10 9..10 12..13");
    assert_eq!(wanted.0, [(0, 9), (9, 10), (12, 13)]);
    let notes = [
        "f:1: a: the heights 0..2, 1..4 and 3..9 overlap, and are joined to 0..9",
        "f:1: a: the heights 9..10 and 9..10 overlap, and are joined to 9..10",
    ];
    assert_eq!(wanted.1, notes);
    for same in [
        "12..13 9..10 3..9 9..10 1..4 0..2",
        "9..10 0..2 3..9 12..13 1..4 9..10",
    ] {
        assert_eq!(stands(same), wanted, "{same}");
    }
}

#[test]
fn the_most_heights_are_counted_once_they_are_joined() {
    let eight = "0..1 2..3 4..5 6..7 8..9 10..11 12..13 14..15";
    assert_eq!(stands(&format!("{eight} 0..3")).0.len(), 7);
    assert_eq!(stands(&format!("{eight} 0..3 20..21")).0.len(), 8);
    let most = (0..HEIGHTS).map(|lo| format!("{lo}..{} ", lo + 2));
    let most: String = most.collect();
    let (heights, notes) = stands(&most);
    assert_eq!(heights, [(0, HEIGHTS as i32 + 1)]);
    let wanted = "f:1: a: the heights 0..2, 1..3, 2..4, 3..5, 4..6, 5..7, 6..8, 7..9 and 248 more \
                  overlap, and are joined to 0..257";
    assert_eq!(notes, [wanted]);
    for (heights, wanted) in [
        (format!("{eight} 20..21"), "9 heights, and 8 are the most"),
        (
            format!("{eight} 0..2 20..21 21..22"),
            "11 heights, joined to 10, and 8 are the most",
        ),
        (
            format!("{most} 0..1"),
            "257 heights, and a line has 256 at most",
        ),
    ] {
        assert_eq!(fault(&heights), format!("f:1: a: {wanted}"));
    }
}

/// What is wrong with a parcel of these heights.
fn fault(heights: &str) -> String {
    let read = Sheet::read(parcel(heights).as_bytes());
    read.map(|_| ()).expect_err(heights).lines("f").join("\n")
}

#[test]
fn heights_of_two_objects_that_overlap_are_told_with_both() {
    for (heights, wanted) in [
        ("0..3 of 101 2..6 of 102", "0..3 of 101 and 2..6 of 102"),
        ("2..6 of 9 0..3 of 101", "0..3 of 101 and 2..6 of 9"),
        // Those of the line, not what they are joined to.
        ("0..3 of 7 2..5 of 7 4..6 of 8", "2..5 of 7 and 4..6 of 8"),
        ("0..9 of 7 1..2 of 7 3..4 of 8", "0..9 of 7 and 3..4 of 8"),
    ] {
        let wanted = format!("f:1: a: the heights {wanted} overlap, and are of two objects");
        assert_eq!(fault(heights), wanted);
    }
    let hinted = "f:1: a: the heights 0..3 of 0 and 0..3 of 7 overlap, and are of two objects \
                  (heights without an object have object 0)";
    assert_eq!(fault("0..3 of 7 0..3"), hinted);
    // An empty one is told before it, and two that touch are fine.
    let empty = "f:1: a: 4..4: the low end is not below the high end";
    assert_eq!(fault("0..3 of 101 2..6 of 102 4..4"), empty);
    assert_eq!(stands("0..3 of 101 3..6 of 102").0, [(0, 3), (3, 6)]);
}

/// Sides that are not sewn and heights that are joined are noted each for themselves:
/// many of the one leave room for the other.
#[test]
fn sides_and_heights_are_noted_apart() {
    let mut text = String::from("long (0 0) (8 0) (8 -6): 0..3\nshort (0 0) (4 0) (4 6): 0..3\n");
    for at in 1..20 {
        let x = 10 * at;
        text += &format!("p{at} ({x} 0) ({} 0) ({x} 3): 0..3 1..4\n", x + 5);
    }
    let sheet = Sheet::read(text.as_bytes()).expect("a sheet");
    let sides = sheet.notes.lines("f");
    assert_eq!(sides.len(), 1);
    assert!(sides[0].starts_with("f:2: short: the side (0 0) (4 0) lies along "));
    let joined = sheet.joined.lines("f");
    let wanted = "f:3: p1: the heights 0..3 and 1..4 overlap, and are joined to 0..4";
    assert_eq!((joined.len(), joined[0].as_str()), (11, wanted));
    assert_eq!(joined[10], "f: ten are told, and there are more");
}
