//! Tables for programs, and whose the solids of a map as text are.

mod common;
mod plain;

use common::{TOP, folder_outside, folder_with, names, parcels};
use laremban::text;
use laremban_parcels::COLUMNS;
use plain::{Share, Shared, Solid};
use std::collections::BTreeSet;
use std::fs;

const SHED: &str = "shed (0 0) (4 0) (4 3): 0..3\n";
const PAIR: &str = "a (0 0) (4 0) (4 3): 0..3 3..5\nb (0 0) (4 3) (0 3): 1..4\n";
const BAD: &str = "bad (0 0) (4 0):\n";

/// The rows of a table behind the names of its columns.
fn rows(table: &str) -> Vec<Vec<&str>> {
    let mut rows = table.lines().map(|line| line.split('\t').collect());
    let head: Vec<&str> = rows.next().expect("the names of the columns");
    assert_eq!(head, COLUMNS);
    let rows: Vec<Vec<&str>> = rows.collect();
    assert!(rows.iter().all(|row| row.len() == COLUMNS.len()));
    rows
}

/// The column of a name.
fn at<'a>(row: &[&'a str], column: &str) -> &'a str {
    let found = COLUMNS.iter().position(|&name| name == column);
    row[found.expect(column)]
}

fn number(row: &[&str], column: &str) -> i64 {
    at(row, column).parse().expect(column)
}

fn doubled(row: &[&str], column: &str) -> i64 {
    (2.0 * at(row, column).parse::<f64>().expect(column)) as i64
}

fn solid(row: &[&str]) -> Solid {
    let span = (number(row, "lo"), number(row, "hi"));
    assert_eq!(span, (number(row, "bottom"), number(row, "top")));
    let sizes = (doubled(row, "area"), doubled(row, "volume"));
    let object = number(row, "object");
    assert_eq!(at(row, "with_object"), "");
    (
        at(row, "parcel").to_string(),
        span,
        sizes.0,
        sizes.1,
        object,
    )
}

/// Whether a row has the objects of both solids that it names.
fn has_objects(row: &[&str], solids: &[Solid]) -> bool {
    ["", "with_"].into_iter().all(|of| {
        let name = if of.is_empty() { "parcel" } else { "with" };
        let [lo, hi, object] =
            ["lo", "hi", "object"].map(|what| number(row, &format!("{of}{what}")));
        let mut own = solids
            .iter()
            .filter(|solid| solid.0 == at(row, name) && solid.1 == (lo, hi));
        own.next().is_some_and(|solid| solid.4 == object)
    })
}

/// What two solids share, told from both.
fn shares(row: &[&str]) -> [Share; 2] {
    let own = at(row, "parcel").to_string();
    let other = at(row, "with").to_string();
    let span = (number(row, "lo"), number(row, "hi"));
    let with = (number(row, "with_lo"), number(row, "with_hi"));
    let (bottom, top) = (number(row, "bottom"), number(row, "top"));
    let shared = if at(row, "what") == "floor" {
        assert_eq!(bottom, top);
        Shared::Floor(bottom, doubled(row, "area"))
    } else {
        let from = (number(row, "from_x"), number(row, "from_y"));
        let to = (number(row, "to_x"), number(row, "to_y"));
        let (x, y) = (to.0 - from.0, to.1 - from.1);
        let area = ((x * x + y * y) as f64).sqrt() * (top - bottom) as f64;
        let told: f64 = at(row, "area").parse().expect("a number");
        assert!((area - told).abs() < 0.005001, "{row:?}");
        Shared::Wall(from, to, (bottom, top))
    };
    [
        (own.clone(), span, other.clone(), with, shared.clone()),
        (other, with, own, span, shared),
    ]
}

/// A table has what a plain computation from the file gives.
#[test]
fn tables_of_the_examples() {
    for name in ["street", "twenty", "objects", "surveyed"] {
        let folder = folder_with(&format!("table_{name}"), &[]);
        let sheet = format!("{TOP}/examples/{name}.parcels");
        let ran = parcels(&folder, &["--table", "all.tsv", &sheet]);
        assert_eq!(ran.status, Some(0), "{}", ran.err);
        let table = fs::read_to_string(folder.join("all.tsv")).expect("a table");
        let rows = rows(&table);
        assert!(rows.iter().all(|row| row[0] == sheet));
        let (of_solids, of_shares): (Vec<_>, Vec<_>) =
            rows.iter().partition(|row| at(row, "what") == "solid");
        let mut solids: Vec<Solid> = of_solids.iter().map(|row| solid(row)).collect();
        let mut shared: Vec<Share> = of_shares.iter().flat_map(|row| shares(row)).collect();
        assert!(of_shares.iter().all(|row| has_objects(row, &solids)));
        solids.sort();
        shared.sort();
        let text = fs::read_to_string(&sheet).expect("a sheet");
        let plain = plain::read(&text);
        assert_eq!(solids, plain::solids(&plain));
        assert_eq!(shared, plain::shares(&plain));
    }
}

#[test]
fn the_table_of_the_street_is_stored() {
    let folder = folder_with("stored", &[]);
    let table = folder.join("street.tsv");
    let words = [
        "--table",
        table.to_str().expect("a name"),
        "examples/street.parcels",
    ];
    assert_eq!(parcels(TOP, &words).status, Some(0));
    let read = |file| fs::read_to_string(file).expect("a table");
    assert_eq!(
        read(table),
        read(format!("{TOP}/examples/street.tsv").into())
    );
}

#[test]
fn one_table_has_all_sheets_in_order() {
    let files = [("b", SHED), ("a", PAIR), ("bad", BAD), ("c\td", SHED)];
    let folder = folder_with("tables", &files);
    let words = ["--quiet", "--table", "all.tsv", "b", "bad", "a", "c\td"];
    assert_eq!(parcels(&folder, &words).status, Some(1));
    let table = fs::read_to_string(folder.join("all.tsv")).expect("a table");
    let rows = rows(&table);
    let told: Vec<(&str, &str)> = rows.iter().map(|row| (row[0], row[1])).collect();
    let of_a = ["solid", "floor", "wall", "solid", "wall", "solid"].map(|what| ("a", what));
    let wanted = [&[("b", "solid")][..], &of_a, &[("c?d", "solid")]].concat();
    assert_eq!(told, wanted);
    assert_eq!(names(&folder), ["a", "all.tsv", "b", "bad", "c\td"]);
}

#[test]
fn a_table_that_can_not_be_written_is_told_before_anything_is_done() {
    let folder = folder_with("no_table", &[("a.parcels", SHED)]);
    for (table, wanted) in [
        (
            "a.parcels",
            "parcels: --table: a.parcels is a sheet itself\n",
        ),
        (
            "./a.parcels",
            "parcels: --table: ./a.parcels is a sheet itself\n",
        ),
        (".", "parcels: .: it is no plain file\n"),
        ("/dev/null", "parcels: /dev/null: it is no plain file\n"),
        (
            "no/such/folder",
            "parcels: no/such/folder: No such file or directory (os error 2)\n",
        ),
    ] {
        let ran = parcels(&folder, &["--table", table, "a.parcels"]);
        assert_eq!(
            (ran.status, &ran.out[..], &ran.err[..]),
            (Some(2), "", wanted)
        );
    }
    assert_eq!(names(&folder), ["a.parcels"]);
    assert_eq!(
        fs::read_to_string(folder.join("a.parcels")).expect("a sheet"),
        SHED
    );
}

#[test]
fn a_table_is_written_over_and_through_a_link() {
    let folder = folder_outside("linked", &[("a", SHED), ("old.tsv", "old"), ("b", SHED)]);
    std::os::unix::fs::symlink("old.tsv", folder.join("link.tsv")).expect("a link");
    let ran = parcels(&folder, &["--quiet", "--table", "link.tsv", "a"]);
    assert_eq!((ran.status, &ran.err[..]), (Some(0), ""));
    let table = fs::read_to_string(folder.join("old.tsv")).expect("a table");
    assert_eq!(rows(&table).len(), 1);
    assert!(folder.join("link.tsv").is_symlink());
    assert_eq!(names(&folder), ["a", "b", "link.tsv", "old.tsv"]);
    fs::remove_dir_all(&folder).expect("the folder");
}

/// Examples, and how many solids each has.
const SOLIDS: [(&str, usize); 3] = [("street", 9), ("objects", 7), ("surveyed", 5)];

/// Each line beside a map tells a solid's lowest dart, and the solid over that
/// dart has the corners of the parcel, between the heights, and carries the
/// object.
#[test]
fn whose_a_solid_is_stands_beside_its_map() {
    let times: [&[&str]; 2] = [&[], &["--time", "-5..9"]];
    for (time, (name, solids)) in times
        .into_iter()
        .flat_map(|time| SOLIDS.map(|one| (time, one)))
    {
        let folder = folder_with("owners", &[]);
        let sheet = format!("{TOP}/examples/{name}.parcels");
        let words = [time, &["--out", ".", &sheet]].concat();
        assert_eq!(parcels(&folder, &words).status, Some(0));
        let read =
            |ending: &str| fs::read_to_string(folder.join(name.to_string() + ending)).expect(name);
        let held = text::read(&read(".map")).expect("a map");
        let map = held.tables.map(held.dimension, held.count);
        let lowest: Vec<usize> = {
            let cells = map.cells(map.dimension());
            let first = |cell: usize| cells.iter().position(|&own| own == cell);
            (0..).map_while(first).collect()
        };
        let told = read(".solids");
        let mut lines = told.lines();
        assert_eq!(lines.next(), Some("dart\tparcel\tlo\thi\tobject"));
        let text = fs::read_to_string(&sheet).expect("a sheet");
        let plain = plain::read(&text);
        let mut darts = Vec::new();
        for line in lines {
            let words: Vec<&str> = line.split('\t').collect();
            let dart: usize = words[0].parse().expect("a dart");
            let parcel = plain.iter().find(|parcel| parcel.name == words[1]);
            let parcel = parcel.expect("a parcel");
            let corners = &parcel.corners;
            let darts_of = map.cell(dart, map.dimension());
            let objects: BTreeSet<u16> = darts_of.iter().map(|&dart| map.object(dart)).collect();
            let object = words[4].parse().expect("an object");
            assert_eq!(objects, BTreeSet::from([object]));
            let places = map.cell(dart, map.dimension());
            let places = places.iter().map(|&dart| map.place(dart));
            let flat: BTreeSet<(i64, i64)> =
                places.clone().map(|p| (p[0].into(), p[1].into())).collect();
            assert_eq!(flat, corners.iter().copied().collect());
            let heights = places.map(|place| place[2]);
            let ends = (heights.clone().min(), heights.max());
            assert_eq!(ends, (words[2].parse().ok(), words[3].parse().ok()));
            let span = ends.0.zip(ends.1).expect("heights");
            let own =
                (parcel.heights.iter()).position(|&one| one == (span.0.into(), span.1.into()));
            assert_eq!(parcel.objects[own.expect("its heights")], object.into());
            darts.push(dart);
        }
        assert_eq!(darts, lowest);
        assert_eq!(darts.len(), solids);
    }
}
