//! Each example prints what is stored beside it.

mod common;

use common::{Ran, TOP, names, parcels};
use std::fs;

/// Runs an example from the top of the repository, and compares all of it: what is
/// noted on standard error is stored where there is any.
fn compare(words: &[&str], stored: &str) {
    let read = |ending: &str| fs::read_to_string(format!("{TOP}/examples/{stored}.{ending}"));
    let wanted = Ran {
        status: Some(0),
        out: read("out").expect("a stored output"),
        err: read("err").unwrap_or_default(),
    };
    assert_eq!(parcels(TOP, words), wanted, "{stored}");
}

#[test]
fn every_sheet() {
    let names = names(format!("{TOP}/examples"));
    let sheets: Vec<&str> = (names.iter())
        .filter_map(|name| name.strip_suffix(".parcels"))
        .collect();
    assert!(sheets.contains(&"street") && sheets.contains(&"twenty"));
    for sheet in sheets {
        let file = format!("examples/{sheet}.parcels");
        compare(&[&file], sheet);
    }
}

#[test]
fn the_street_through_time() {
    let words = ["--time", "0..10", "examples/street.parcels"];
    compare(&words, "street_time");
}
