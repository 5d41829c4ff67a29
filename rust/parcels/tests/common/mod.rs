//! The program `parcels`, run as a user runs it.
#![allow(dead_code)] // Each test uses a part of it.

use std::path::{Path, PathBuf};
use std::process::{self, Command, Output};
use std::{env, fs};

/// The top of the repository.
pub const TOP: &str = concat!(env!("CARGO_MANIFEST_DIR"), "/../..");

/// An empty folder of a test's own.
pub fn folder(name: &str) -> PathBuf {
    let folder = Path::new(env!("CARGO_TARGET_TMPDIR")).join(name);
    let _ = fs::remove_dir_all(&folder);
    fs::create_dir_all(&folder).expect("a folder");
    folder
}

fn filled(folder: PathBuf, files: &[(&str, &str)]) -> PathBuf {
    for (file, text) in files {
        fs::write(folder.join(file), text).expect("a file");
    }
    folder
}

/// A folder with these files in it.
pub fn folder_with(name: &str, files: &[(&str, &str)]) -> PathBuf {
    filled(folder(name), files)
}

/// The same outside the repository, for links: `rt ci` takes none below its top.
pub fn folder_outside(name: &str, files: &[(&str, &str)]) -> PathBuf {
    let folder = env::temp_dir().join(format!("laremban-{name}-{}", process::id()));
    fs::create_dir_all(&folder).expect("a folder");
    filled(folder, files)
}

pub fn command(folder: impl AsRef<Path>, words: &[&str]) -> Command {
    let mut command = Command::new(env!("CARGO_BIN_EXE_parcels"));
    command.current_dir(folder).args(words);
    command
}

/// What came of a run: its status and both its texts.
#[derive(Debug, PartialEq, Eq)]
pub struct Ran {
    pub status: Option<i32>,
    pub out: String,
    pub err: String,
}

/// Runs the program in a folder.
pub fn parcels(folder: impl AsRef<Path>, words: &[&str]) -> Ran {
    ran(&mut command(folder, words))
}

/// Runs a command, and waits for its end.
pub fn ran(command: &mut Command) -> Ran {
    let Output {
        status,
        stdout,
        stderr,
    } = command.output().expect("the program");
    let text = |bytes| String::from_utf8(bytes).expect("a text");
    Ran {
        status: status.code(),
        out: text(stdout),
        err: text(stderr),
    }
}

/// The names of a folder's files, sorted.
pub fn names(folder: impl AsRef<Path>) -> Vec<String> {
    let entries = fs::read_dir(folder).expect("a folder");
    let name = |entry: std::io::Result<fs::DirEntry>| entry.expect("an entry").file_name();
    let mut names: Vec<String> = entries
        .map(|entry| name(entry).into_string().expect("a name"))
        .collect();
    names.sort();
    names
}
