//! The sheets that are drawn: plans, the same ones each time, with all in them
//! that a lifter can get wrong.

use laremban::Span;
use laremban_mark::sheet::{Sheet, firsts};
use laremban_mark::sheets::{MOST_LIFTED, sheet};
use std::collections::{BTreeMap, BTreeSet};

/// The sheets that are tried where nothing is said, and those of another seed.
fn sheets() -> impl Iterator<Item = Sheet> {
    let all = (1..3).flat_map(|seed| (0..200).map(move |at| (seed, at)));
    all.map(|(seed, at)| sheet(seed, 1 + at % 4, at / 4))
}

#[test]
fn all_can_be_built_and_lifted() {
    let mut large = 0;
    for sheet in sheets() {
        assert!(sheet.is_buildable(), "{}", sheet.script());
        let count = sheet.lifted().expect("a lift").map().count();
        assert!(count <= MOST_LIFTED);
        large += usize::from(count > 700);
    }
    assert!(large < 40, "{large} large sheets");
}

/// A number that other texts have others of.
fn sum(text: &str) -> u64 {
    let bytes = text.bytes().map(u64::from);
    bytes.fold(0xcbf2_9ce4_8422_2325, |sum, byte| {
        (sum ^ byte).wrapping_mul(0x0100_0000_01b3)
    })
}

/// Who marks with a seed today marks the same with it tomorrow, on whatever
/// machine. Where sheets are drawn in another way on purpose, this is another
/// number.
#[test]
fn a_seed_gives_the_same_sheets_everywhere() {
    let texts: String = sheets().map(|sheet| sheet.text()).collect();
    assert_eq!(sum(&texts), 7_422_544_196_916_062_631);
}

#[test]
fn small_ones_come_first() {
    for dimension in 1..=4 {
        let lifted = |number| sheet(1, dimension, number).names().count();
        let early: usize = (0..8).map(lifted).sum();
        let late: usize = (30..38).map(lifted).sum();
        assert!(early < late, "{dimension}: {early} {late}");
    }
}

/// How many sheets of a dimension have something in them.
#[test]
fn all_is_met_in_every_dimension() {
    let mut met: BTreeMap<(&str, usize), usize> = BTreeMap::new();
    for sheet in sheets() {
        for what in found(&sheet) {
            *met.entry((what, sheet.dimension)).or_default() += 1;
        }
    }
    for what in ALL {
        for dimension in 1..=4 {
            // A corner of a line has two edges at most.
            let none = dimension == 1 && matches!(what, "four rows at a corner" | "no wall");
            let times = met.get(&(what, dimension)).copied().unwrap_or(0);
            assert!(none || times >= 3, "{what}, dimension {dimension}: {times}");
        }
    }
}

const ALL: [&str; 15] = [
    "four rows at a corner",
    "no wall",
    "touching",
    "touching across",
    "interleaving across",
    "stops",
    "gap",
    "empty row",
    "eight spans",
    "parts",
    "free darts",
    "objects that touch",
    "objects across",
    "only objects differ",
    "no object",
];

/// What is in a sheet.
fn found(sheet: &Sheet) -> BTreeSet<&'static str> {
    let m = sheet.dimension;
    let mut found = BTreeSet::new();
    for (dart, row) in sheet.rows.iter().enumerate() {
        let pairs = || row.windows(2);
        let other = &sheet.rows[sheet.links[dart][m]];
        let across = || row.iter().flat_map(|a| other.iter().map(move |b| (a, b)));
        found.extend(pairs().any(|w| w[0].hi == w[1].lo).then_some("touching"));
        found.extend(pairs().any(|w| w[0].hi < w[1].lo).then_some("gap"));
        found.extend(
            across()
                .any(|(a, b)| a.hi == b.lo)
                .then_some("touching across"),
        );
        let between = |(a, b): (&Span, &Span)| a.lo < b.lo && b.lo < a.hi && a.hi < b.hi;
        found.extend(across().any(between).then_some("interleaving across"));
        let stops = across().any(|(a, b)| a.lo < b.hi && b.hi < a.hi);
        found.extend(stops.then_some("stops"));
        let other_objects = |a: &Span, b: &Span| a.object != b.object;
        let touch = |w: &[Span]| w[0].hi == w[1].lo && other_objects(&w[0], &w[1]);
        found.extend(pairs().any(touch).then_some("objects that touch"));
        let shared = |(a, b): (&Span, &Span)| a.overlaps(*b) && other_objects(a, b);
        found.extend(across().any(shared).then_some("objects across"));
        let ends = |row: &[Span]| -> Vec<_> { row.iter().map(|span| (span.lo, span.hi)).collect() };
        let objects_alone = ends(row) == ends(other) && row != other;
        found.extend(objects_alone.then_some("only objects differ"));
        found.extend(row.is_empty().then_some("empty row"));
        found.extend((row.len() == 8).then_some("eight spans"));
        let free = (0..m).any(|axis| sheet.links[dart][axis] == dart);
        found.extend(free.then_some("free darts"));
    }
    let mut spans = sheet.rows.iter().flatten();
    found.extend(spans.all(|span| span.object == 0).then_some("no object"));
    let all: Vec<usize> = (0..=m).collect();
    let parts = sheet.with_map(|map| firsts(&map.orbits(&all)).len());
    found.extend((parts > 1).then_some("parts"));
    found.append(&mut found_at_corners(sheet));
    found
}

/// What is found where several top cells meet.
fn found_at_corners(sheet: &Sheet) -> BTreeSet<&'static str> {
    let m = sheet.dimension;
    let (corners, tops) = (sheet.cells(0), sheet.cells(m));
    let mut found = BTreeSet::new();
    for corner in 0..firsts(&corners).len() {
        let around = |dart: &usize| corners[*dart] == corner;
        let around: Vec<usize> = (0..sheet.count()).filter(around).collect();
        let rows: BTreeSet<_> = around.iter().map(|&dart| &sheet.rows[dart]).collect();
        let own: BTreeSet<usize> = around.iter().map(|&dart| tops[dart]).collect();
        found.extend((rows.len() >= 4 && own.len() >= 4).then_some("four rows at a corner"));
        let walls: BTreeSet<_> = around
            .iter()
            .map(|&dart| (tops[dart], tops[sheet.links[dart][m]]))
            .collect();
        let apart = own
            .iter()
            .any(|&a| own.iter().any(|&b| a != b && !walls.contains(&(a, b))));
        found.extend(apart.then_some("no wall"));
    }
    found
}
