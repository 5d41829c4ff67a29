//! The scripts in `examples/`, and what is stored beside them.

use crate::{TOP, told};
use std::collections::BTreeMap;
use std::fs;
use std::path::{Path, PathBuf};

/// The files of the folder by their names, each with its endings.
fn files() -> BTreeMap<PathBuf, Vec<String>> {
    let mut files: BTreeMap<PathBuf, Vec<String>> = BTreeMap::new();
    for entry in fs::read_dir(Path::new(TOP).join("examples")).expect("a folder") {
        let path = entry.expect("a file").path();
        let ending = path.extension().unwrap_or_default().to_string_lossy();
        let endings = files.entry(path.with_extension("")).or_default();
        endings.push(ending.into_owned());
    }
    files
}

fn has(endings: &[String], wanted: &str) -> bool {
    endings.iter().any(|ending| ending == wanted)
}

#[test]
fn every_script_prints_what_is_stored() {
    let files = files();
    let scripts = files.iter().filter(|(_, endings)| has(endings, "script"));
    let mut compared = 0;
    for (name, _) in scripts {
        let file = name.with_extension("script");
        let wanted = fs::read_to_string(name.with_extension("out"));
        let wanted = wanted.unwrap_or_else(|_| panic!("{}: no .out beside it", file.display()));
        let file = file.to_str().expect("a name");
        assert_eq!(told(&[file], ""), wanted, "{file}");
        compared += 1;
    }
    assert!(compared >= 7);
}

/// An output whose name goes on behind an example's, as `street_time` does behind
/// `street`, is that of the example with options.
#[test]
fn every_stored_output_is_that_of_something() {
    let files = files();
    let printed = |name: &str| {
        files.iter().any(|(other, endings)| {
            let begins = other.to_str().is_some_and(|other| name.starts_with(other));
            begins && endings.iter().any(|ending| ending != "out")
        })
    };
    for (name, _) in files.iter().filter(|(_, endings)| has(endings, "out")) {
        let name = name.to_str().expect("a name");
        assert!(printed(name), "{name}.out: nothing prints it");
    }
}
