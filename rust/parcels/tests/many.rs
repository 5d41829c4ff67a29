//! Many sheets at once: printed in order and whole, none stopped by another,
//! and their maps written and read back.

mod common;

use common::{folder_with, names, parcels};
use laremban::{COORDINATES, LINKS, OBJECTS, text};
use laremban_parcels::Sheet;
use laremban_parcels::lifting::{Lifted, lift, lift_through_time};
use std::fs;

const SHED: &str = "shed (0 0) (4 0) (4 3): 0..3\n";
const PAIR: &str = "a (0 0) (4 0) (4 3): 0..3 3..5 of 7\nb (0 0) (4 3) (0 3): 1..4 of 9\n";
const BAD: &str = "bad (0 0) (4 0):\n";

#[test]
fn sheets_come_in_order_and_a_bad_one_stops_no_other() {
    let files: Vec<(String, &str)> = (0..40)
        .map(|i| (format!("s{i:02}.parcels"), [SHED, PAIR, BAD][i % 3]))
        .collect();
    let files: Vec<(&str, &str)> = files
        .iter()
        .map(|(name, text)| (&name[..], *text))
        .collect();
    let folder = folder_with("in_order", &files);
    let words: Vec<&str> = files.iter().map(|(name, _)| *name).collect();
    let (mut out, mut err) = (String::new(), String::new());
    for (i, word) in words.iter().enumerate() {
        let alone = parcels(&folder, &[word]);
        assert_eq!(alone.status, Some(i32::from(i % 3 == 2)));
        out += &alone.out;
        err += &alone.err;
        err += &format!("{} of 40 sheets: {word}\n", i + 1);
    }
    for word in words.iter().skip(2).step_by(3) {
        err += &format!("failed: {word}\n");
    }
    err += "13 of 40 sheets failed\n";
    let ran = parcels(&folder, &words);
    assert_eq!(ran.status, Some(1));
    assert_eq!((ran.out, ran.err), (out, err));
}

#[test]
fn quiet_tells_what_is_wrong_and_not_how_far_it_is() {
    let files = [("a.parcels", SHED), ("b.parcels", BAD), ("c.parcels", SHED)];
    let folder = folder_with("quiet", &files);
    let ran = parcels(&folder, &["--quiet", "a.parcels", "c.parcels"]);
    assert_eq!((ran.status, &ran.err[..]), (Some(0), ""));
    assert_eq!(ran.out.lines().count(), 2);
    let ran = parcels(&folder, &["--quiet", "."]);
    let wanted = "\
parcels: ./b.parcels:1: bad: 2 corners, and three are the fewest
failed: ./b.parcels
1 of 3 sheets failed
";
    assert_eq!((ran.status, &ran.err[..]), (Some(1), wanted));
}

#[test]
fn a_folder_stands_for_its_sheets_by_name() {
    let files = [
        ("b.parcels", SHED),
        ("a.parcels", PAIR),
        ("c.txt", BAD),
        ("d.parcels", SHED),
    ];
    let folder = folder_with("sheets", &files);
    fs::create_dir(folder.join("e.parcels")).expect("a folder");
    fs::write(folder.join("e.parcels/x.parcels"), BAD).expect("a file");
    let ran = parcels(&folder, &["--quiet", "b.parcels", "."]);
    let wanted = "\
b.parcels: floor space 6, volume 18, shared walls 0
./a.parcels: floor space 18, volume 48, shared walls 15
./b.parcels: floor space 6, volume 18, shared walls 0
./d.parcels: floor space 6, volume 18, shared walls 0
";
    assert_eq!((ran.status, &ran.out[..]), (Some(0), wanted));
    let full = parcels(&folder, &["b.parcels", "."]);
    assert_eq!(full.err.lines().last(), Some("4 of 4 sheets: ./d.parcels"));
}

/// What was written, read back, has the tables of the lift: all of them.
fn assert_same(written: &str, lifted: &Lifted) {
    let held = text::read(written).expect("a map");
    let count = lifted.count;
    assert_eq!((held.dimension, held.count), (lifted.dimension, count));
    assert!(count > 0);
    let (links, places) = (&lifted.tables.links, &lifted.tables.places);
    let objects = &lifted.tables.objects;
    assert_eq!(held.tables.links, links[..LINKS * count]);
    assert_eq!(held.tables.places, places[..COORDINATES * count]);
    assert_eq!(held.tables.objects, objects[..OBJECTS * count]);
    assert!(links[LINKS * count..].iter().all(|&link| link == 0));
    assert!(
        places[COORDINATES * count..]
            .iter()
            .all(|&place| place == 0)
    );
    assert!(objects[OBJECTS * count..].iter().all(|&object| object == 0));
}

#[test]
fn maps_are_written_and_read_back() {
    let files = [
        ("pair.parcels", PAIR),
        ("shed.parcels", SHED),
        ("bad.parcels", BAD),
    ];
    let folder = folder_with("written", &files);
    let ran = parcels(&folder, &["--out", "maps/new", "."]);
    assert_eq!(ran.status, Some(1));
    let written = ["pair.map", "pair.solids", "shed.map", "shed.solids"];
    assert_eq!(names(folder.join("maps/new")), written);
    for (name, sheet) in [("pair", PAIR), ("shed", SHED)] {
        let written = fs::read_to_string(folder.join(format!("maps/new/{name}.map")));
        let sheet = Sheet::read(sheet.as_bytes()).expect("a sheet");
        assert_same(&written.expect("a file"), &lift(&sheet).expect("a lift"));
    }
}

#[test]
fn with_time_the_map_of_dimension_4_is_written() {
    let folder = folder_with("timed", &[("pair.parcels", PAIR)]);
    let ran = parcels(&folder, &["--time", "-5..9", "--out", ".", "pair.parcels"]);
    assert_eq!((ran.status, &ran.err[..]), (Some(0), ""));
    let written = fs::read_to_string(folder.join("pair.map")).expect("a file");
    let sheet = Sheet::read(PAIR.as_bytes()).expect("a sheet");
    let solids = lift(&sheet).expect("a lift");
    let through = lift_through_time(&sheet, &solids, (-5, 9)).expect("a lift");
    assert_same(&written, &through);
}

#[test]
fn a_map_that_is_there_is_written_over() {
    let folder = folder_with("over", &[("shed.parcels", SHED), ("shed.map", "old")]);
    assert_eq!(
        parcels(&folder, &["--out", ".", "shed.parcels"]).status,
        Some(0)
    );
    let written = fs::read_to_string(folder.join("shed.map")).expect("a file");
    assert!(written.starts_with("laremban-map 2 3 "), "{written}");
    assert_eq!(names(&folder), ["shed.map", "shed.parcels", "shed.solids"]);
}

#[test]
fn the_map_of_an_earlier_run_is_put_aside_where_its_sheet_fails() {
    let files = [("a.parcels", SHED), ("b.parcels", PAIR)];
    let folder = folder_with("earlier", &files);
    let words = ["--quiet", "--out", "maps", "a.parcels", "b.parcels"];
    assert_eq!(parcels(&folder, &words).status, Some(0));
    let read = |name: &str| fs::read_to_string(folder.join(name)).expect(name);
    let old = read("maps/a.map");
    fs::write(folder.join("a.parcels"), BAD).expect("a file");
    let ran = parcels(&folder, &words);
    let wanted = "\
parcels: a.parcels:1: bad: 2 corners, and three are the fewest
parcels: a.parcels: maps/a.map is of an earlier run: it is called maps/a.map.old now
parcels: a.parcels: maps/a.solids is of an earlier run: it is called maps/a.solids.old now
failed: a.parcels
1 of 2 sheets failed
";
    assert_eq!((ran.status, &ran.err[..]), (Some(1), wanted));
    let left = ["a.map.old", "a.solids.old", "b.map", "b.solids"];
    assert_eq!(names(folder.join("maps")), left);
    assert_eq!(read("maps/a.map.old"), old);
}

#[test]
fn two_sheets_of_one_name_are_refused_before_anything_is_written() {
    let folder = folder_with("clash", &[("a.parcels", SHED), ("b.parcels", SHED)]);
    fs::create_dir(folder.join("x")).expect("a folder");
    fs::write(folder.join("x/a.txt"), SHED).expect("a file");
    let ran = parcels(
        &folder,
        &["--out", "maps", "b.parcels", "a.parcels", "x/a.txt"],
    );
    assert_eq!((ran.status, &ran.out[..]), (Some(2), ""));
    let wanted = "parcels: a.parcels and x/a.txt would both be written to maps/a.map\n";
    assert_eq!(ran.err, wanted);
    assert!(!folder.join("maps").exists());
}

#[test]
fn a_map_that_cannot_be_written_fails_its_sheet() {
    let files = [("a.parcels", SHED), ("b.parcels", PAIR)];
    for in_the_way in ["a.map", "a.solids"] {
        let folder = folder_with("unwritten", &files);
        fs::create_dir_all(folder.join("maps").join(in_the_way)).expect("a folder");
        let words = ["--quiet", "--out", "maps", "a.parcels", "b.parcels"];
        let ran = parcels(&folder, &words);
        assert_eq!(ran.status, Some(1));
        assert_eq!(
            ran.out,
            "b.parcels: floor space 18, volume 48, shared walls 15\n"
        );
        let told = format!("parcels: a.parcels: maps/{in_the_way}: ");
        assert!(ran.err.starts_with(&told), "{}", ran.err);
        let left = [in_the_way, "b.map", "b.solids"];
        assert_eq!(names(folder.join("maps")), left);
        let ran = parcels(&folder, &["--out", "a.parcels", "b.parcels"]);
        assert_eq!((ran.status, &ran.out[..]), (Some(2), ""));
    }
}

#[test]
fn a_note_is_no_failure() {
    let sheet = "a (0 0) (8 0) (8 6): 0..3\nb (0 0) (4 0) (4 -6): 0..3\n";
    let folder = folder_with("noted", &[("f", sheet)]);
    let ran = parcels(folder, &["--quiet", "f"]);
    assert_eq!(ran.status, Some(0));
    assert_eq!(ran.out, "f: floor space 36, volume 108, shared walls 0\n");
    let wanted = "parcels: note: f:2: b: the side (0 0) (4 0) lies along (0 0) (8 0) of a (line 1), \
                  and they are not sewn: give the corner (4 0) to both\n";
    assert_eq!(ran.err, wanted);
}

#[test]
fn a_sheet_is_never_written_over() {
    for name in ["shed.map", "shed.solids"] {
        let folder = folder_with("named_map", &[(name, SHED)]);
        let ran = parcels(&folder, &["--out", ".", name]);
        assert_eq!((ran.status, &ran.out[..]), (Some(2), ""));
        let told = format!("parcels: {name}: ");
        assert!(ran.err.starts_with(&told), "{}", ran.err);
        let kept = fs::read_to_string(folder.join(name)).expect("a file");
        assert_eq!(kept, SHED);
    }
}
