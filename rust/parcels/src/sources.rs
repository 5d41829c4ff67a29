//! The sheets that are named on the command line.

use std::fmt;
use std::path::{Path, PathBuf};

/// Where a sheet comes from.
#[derive(Clone, Debug, PartialEq, Eq)]
pub enum Source {
    /// A file; among the words of a command line, a folder too.
    File(PathBuf),
    /// The bytes of standard input.
    StandardInput,
}

/// As it is told.
impl fmt::Display for Source {
    fn fmt(&self, f: &mut fmt::Formatter) -> fmt::Result {
        match self {
            Source::File(path) => path.display().fmt(f),
            Source::StandardInput => f.write_str("standard input"),
        }
    }
}

/// What a folder's sheets end with.
const ENDING: &str = "parcels";

/// The sheets that are named, in the order given. A folder stands for
/// every file in it that is named `*.parcels`, sorted by name; folders within
/// it are not looked into. A folder that gives no sheet is told in its place.
pub fn sources(named: &[Source]) -> Vec<Result<Source, String>> {
    let mut all = Vec::new();
    for source in named {
        match source {
            Source::File(path) if path.is_dir() => match in_folder(path) {
                Ok(sheets) => all.extend(sheets.into_iter().map(|sheet| Ok(Source::File(sheet)))),
                Err(told) => all.push(Err(format!("{source}: {told}"))),
            },
            _ => all.push(Ok(source.clone())),
        }
    }
    all
}

fn in_folder(folder: &Path) -> Result<Vec<PathBuf>, String> {
    let told = |error: std::io::Error| error.to_string();
    let mut sheets = Vec::new();
    for entry in folder.read_dir().map_err(told)? {
        let path = entry.map_err(told)?.path();
        if path.extension().is_some_and(|ending| ending == ENDING) && !path.is_dir() {
            sheets.push(path);
        }
    }
    sheets.sort();
    if sheets.is_empty() {
        return Err(format!("no file *.{ENDING} is in the folder"));
    }
    Ok(sheets)
}
