//! The words of the command line.

use crate::line::{heights, number};
use crate::{Heights, Source};
use std::ffi::OsString;
use std::path::PathBuf;

/// What the command line asks for.
#[derive(Clone, Debug, Default, PartialEq, Eq)]
pub struct Options {
    /// Help, and nothing else.
    pub help: bool,
    /// The version, and nothing else.
    pub version: bool,
    /// Only totals are printed, and not how far it is.
    pub quiet: bool,
    /// The time that solids are lifted through.
    pub time: Option<Heights>,
    /// The folder that lifted maps are written to.
    pub out: Option<PathBuf>,
    /// The file that a table of all sheets is written to.
    pub table: Option<PathBuf>,
    /// Files and folders, and standard input.
    pub named: Vec<Source>,
}

impl Options {
    /// Reads the words behind the program's name, or tells what is wrong.
    ///
    /// ```
    /// use laremban_parcels::{Source, options::Options};
    ///
    /// let words = ["--time", "0..25", "street.parcels", "-"].map(Into::into);
    /// let options = Options::read(words).unwrap();
    /// assert_eq!(options.time, Some((0, 25)));
    /// let street = Source::File("street.parcels".into());
    /// assert_eq!(options.named, [street, Source::StandardInput]);
    /// ```
    pub fn read(words: impl IntoIterator<Item = OsString>) -> Result<Options, String> {
        let mut options = Options::default();
        let mut words = words.into_iter();
        while let Some(word) = words.next() {
            match word.to_str() {
                Some("--help" | "-h") => options.help = true,
                Some("--version") => options.version = true,
                Some("--quiet") => options.quiet = true,
                Some("--time") => options.take_time(words.next())?,
                Some("--out") => take_path("--out", "folder", &mut options.out, words.next())?,
                Some("--table") => {
                    take_path("--table", "file", &mut options.table, words.next())?;
                }
                Some("--") => options.named.extend(words.by_ref().map(file)),
                Some("-") => options.named.push(Source::StandardInput),
                Some(other) if other.starts_with('-') => {
                    return Err(format!("{other}: no such option"));
                }
                _ => options.named.push(file(word)),
            }
        }
        if !options.help && !options.version {
            options.test_names()?;
        }
        Ok(options)
    }

    /// There is something to lift. Standard input is read once, and has no name
    /// that a map could have.
    fn test_names(&self) -> Result<(), String> {
        let stdin = |source: &&Source| **source == Source::StandardInput;
        let told = match self.named.iter().filter(stdin).count() {
            0 if self.named.is_empty() => {
                "no sheet is named: a file, a folder, or `-` for standard input"
            }
            0 => return Ok(()),
            1 if self.out.is_none() => return Ok(()),
            1 => "--out: a map is named after its sheet's file, and `-` has none",
            _ => "-: standard input is read once",
        };
        Err(told.to_string())
    }

    fn take_time(&mut self, word: Option<OsString>) -> Result<(), String> {
        let word = word.ok_or("--time: LO..HI is wanted behind it")?;
        let word = word.to_string_lossy();
        if number(&word).is_ok() {
            let wanted = "LO..HI is wanted, from when to when, as 0..25";
            return Err(format!("--time: {word} is one time alone: {wanted}"));
        }
        let span = heights(&word).map_err(|told| format!("--time: {told}"))?;
        match self.time.replace(span) {
            None => Ok(()),
            Some(_) => Err("--time: it is given twice".to_string()),
        }
    }
}

/// The path behind an option that is given once.
fn take_path(
    option: &str,
    what: &str,
    taken: &mut Option<PathBuf>,
    word: Option<OsString>,
) -> Result<(), String> {
    let word = word.ok_or_else(|| format!("{option}: a {what} is wanted behind it"))?;
    if word.is_empty() {
        return Err(format!("{option}: the {what} has no name"));
    }
    match taken.replace(word.into()) {
        None => Ok(()),
        Some(_) => Err(format!("{option}: it is given twice")),
    }
}

/// A file or a folder.
fn file(word: OsString) -> Source {
    Source::File(word.into())
}

#[cfg(test)]
mod tests {
    use super::*;

    #[test]
    fn wrong_words() {
        for words in [
            &[][..],
            &["--quiet"],
            &["--no-such-option", "a"],
            &["-", "a", "-"],
            &["-", "--out", "x"],
            &["a", "--time"],
            &["a", "--time", "5"],
            &["a", "--time", "5..5"],
            &["a", "--time", "0..1..2"],
            &["a", "--time", "0..99999999999"],
            &["a", "--time", "0..1", "--time", "0..1"],
            &["a", "--out"],
            &["a", "--out", ""],
            &["a", "--out", "x", "--out", "x"],
            &["a", "--table"],
            &["a", "--table", ""],
            &["a", "--table", "x", "--table", "x"],
        ] {
            assert!(
                Options::read(words.iter().map(Into::into)).is_err(),
                "{words:?}"
            );
        }
    }

    #[test]
    fn words_behind_two_dashes_are_names() {
        let options = Options::read(["--quiet", "--", "--time", "-"].map(Into::into)).unwrap();
        assert_eq!(options.named, ["--time", "-"].map(|name| file(name.into())));
        assert!(options.quiet);
    }
}
