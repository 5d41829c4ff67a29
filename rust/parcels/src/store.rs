//! Lifted maps, written to a folder as text, each with whose its solids are.

use crate::lifting::Lifted;
use laremban::text;
use std::collections::HashMap;
use std::ffi::OsString;
use std::fs::{self, File};
use std::io::{self, Write};
use std::path::{Path, PathBuf};

/// The folder that lifted maps are written to.
#[derive(Clone, Debug)]
pub struct Store {
    folder: PathBuf,
}

impl Store {
    /// For these sheets: the folder is made if it is missing. Two sheets of one
    /// name would be written to one file, and a sheet that is named as a map might
    /// be written over: they are refused before anything is written.
    pub fn new(folder: &Path, sheets: &[PathBuf]) -> Result<Store, String> {
        let mut names: HashMap<OsString, &Path> = HashMap::new();
        for sheet in sheets {
            let name = name(sheet, MAP);
            let own = sheet.file_name();
            if own == Some(&name) || own == Some(&self::name(sheet, SOLIDS)) {
                let told = "a sheet that is named as maps are can't be lifted with --out";
                return Err(format!("{}: {told}", sheet.display()));
            }
            if let Some(first) = names.insert(name.clone(), sheet) {
                return Err(format!(
                    "{} and {} would both be written to {}",
                    first.display(),
                    sheet.display(),
                    folder.join(name).display()
                ));
            }
        }
        let folder = folder.to_path_buf();
        match fs::create_dir_all(&folder) {
            Ok(()) => Ok(Store { folder }),
            Err(error) => Err(format!("{}: {error}", folder.display())),
        }
    }

    /// Writes a sheet's lifted map, and whose its solids are: both or none. Each
    /// file is written under another name, and renamed once both are, so that it
    /// is whole or absent, or whole as it was before.
    pub fn write(&self, sheet: &Path, lifted: &Lifted, owners: &str) -> Result<(), String> {
        let map = text::write(lifted.map());
        let files = [(MAP, &map[..]), (SOLIDS, owners)];
        let files = files.map(|(ending, text)| (self.folder.join(name(sheet, ending)), text));
        let written = files
            .iter()
            .try_for_each(|(path, text)| write_part(path, text));
        let renamed = |(path, _): &(PathBuf, &str)| {
            let done = fs::rename(part(path), path);
            done.map_err(|error| told(path, &error))
        };
        let done = written.and_then(|()| files.iter().try_for_each(renamed));
        if done.is_err() {
            // What is left is of no use; the first failure is the one to tell.
            files
                .iter()
                .for_each(|(path, _)| drop(fs::remove_file(part(path))));
        }
        done
    }

    /// Puts aside what an earlier run wrote for a sheet that failed in this one,
    /// so that nobody takes it for the sheet's. What is told of it.
    pub fn put_aside(&self, sheet: &Path) -> Vec<String> {
        let paths = [MAP, SOLIDS].map(|ending| self.folder.join(name(sheet, ending)));
        let there = paths.iter().filter(|path| path.is_file());
        there.map(|path| put_aside(path)).collect()
    }
}

fn put_aside(path: &Path) -> String {
    let mut aside = path.as_os_str().to_os_string();
    aside.push(".old");
    let aside = PathBuf::from(aside);
    let (own, old) = (path.display(), aside.display());
    match fs::rename(path, &aside) {
        Ok(()) => format!("{own} is of an earlier run: it is called {old} now"),
        Err(error) => format!("{own} is of an earlier run, and stays: {error}"),
    }
}

/// What the files of a sheet end with: its map, and whose its solids are.
const MAP: &str = ".map";
const SOLIDS: &str = ".solids";

/// A file of a sheet: `street.parcels` has `street.map`.
fn name(sheet: &Path, ending: &str) -> OsString {
    let mut name = sheet.file_stem().unwrap_or_default().to_os_string();
    name.push(ending);
    name
}

/// The name of a file until it is whole.
pub(crate) fn part(path: &Path) -> PathBuf {
    let mut part = path.as_os_str().to_os_string();
    part.push(format!(".{}.part", std::process::id()));
    part.into()
}

fn told(path: &Path, error: &io::Error) -> String {
    format!("{}: {error}", path.display())
}

/// Writes a file under its other name. A folder in the way of its own is told
/// before any file is renamed.
fn write_part(path: &Path, text: &str) -> Result<(), String> {
    let done = if path.is_dir() {
        Err(io::ErrorKind::IsADirectory.into())
    } else {
        write_whole(&part(path), text)
    };
    done.map_err(|error| told(path, &error))
}

fn write_whole(path: &Path, text: &str) -> io::Result<()> {
    let mut file = File::create(path)?;
    file.write_all(text.as_bytes())?;
    file.sync_all()
}
