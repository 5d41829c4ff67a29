//! The words of the command line.

use crate::marking::{DIMENSIONS, Plan};
use std::ffi::OsString;
use std::time::Duration;

/// What a program is asked for.
#[derive(Clone, Copy, Debug, PartialEq, Eq)]
pub enum Asked {
    /// It reads a plan, and writes its lift.
    Lift,
    /// It reads the bytes of a list, and prints as `liftrun` does.
    Replies,
}

/// What the command line asks for.
#[derive(Clone, Debug, PartialEq, Eq)]
pub enum Options {
    /// Help, and nothing else.
    Help,
    /// The version, and nothing else.
    Version,
    /// A program is marked.
    Mark(Marked),
}

/// What is marked, and how.
#[derive(Clone, Debug, PartialEq, Eq)]
pub struct Marked {
    /// What it is asked for.
    pub asked: Asked,
    /// The sheets.
    pub plan: Plan,
    /// How long it may take for one of them.
    pub limit: Duration,
    /// The program.
    pub program: OsString,
    /// What stands behind it.
    pub arguments: Vec<OsString>,
}

/// No more sheets than this are asked for.
const MOST_SHEETS: u64 = 1_000_000;
/// Nobody waits longer than a day.
const MOST_SECONDS: u64 = 86_400;

impl Options {
    /// Reads the words behind the marker's name, or tells what is wrong. What
    /// stands behind the program's name is the program's.
    ///
    /// ```
    /// use laremban_mark::options::Options;
    ///
    /// let words = ["--sheets", "50", "python3", "lifter.py", "--sheets"].map(Into::into);
    /// let Ok(Options::Mark(marked)) = Options::read(words) else { panic!() };
    /// assert_eq!(marked.plan.sheets, 50);
    /// assert_eq!(marked.program, "python3");
    /// assert_eq!(marked.arguments, ["lifter.py", "--sheets"]);
    /// ```
    pub fn read(words: impl IntoIterator<Item = OsString>) -> Result<Options, String> {
        let mut words = words.into_iter();
        let mut given = Given::default();
        let program = loop {
            let word = words
                .next()
                .ok_or("no program is named: --help tells more")?;
            match word.to_str() {
                Some("--help" | "-h") => return Ok(Options::Help),
                Some("--version") => return Ok(Options::Version),
                Some("--") => break words.next().ok_or("no program is named behind --")?,
                Some(option) if option.starts_with('-') => given.take(option, &mut words)?,
                _ => break word,
            }
        };
        Ok(Options::Mark(Marked {
            asked: given.asked.unwrap_or(Asked::Lift),
            plan: given.plan,
            limit: given.limit,
            program,
            arguments: words.collect(),
        }))
    }
}

/// The options so far.
struct Given {
    asked: Option<Asked>,
    plan: Plan,
    limit: Duration,
}

impl Default for Given {
    fn default() -> Given {
        Given {
            asked: None,
            plan: Plan {
                sheets: 200,
                seed: 1,
                dimension: None,
            },
            limit: Duration::from_secs(10),
        }
    }
}

impl Given {
    /// Takes an option, with the number behind it where it has one.
    fn take(
        &mut self,
        option: &str,
        words: &mut impl Iterator<Item = OsString>,
    ) -> Result<(), String> {
        let mut number = |least, most| number(option, words.next(), least, most);
        match option {
            "--sheets" => self.plan.sheets = number(1, MOST_SHEETS)? as usize,
            "--seed" => self.plan.seed = number(0, u64::MAX)?,
            "--dimension" => {
                let (least, most) = (*DIMENSIONS.start() as u64, *DIMENSIONS.end() as u64);
                self.plan.dimension = Some(number(least, most)? as usize);
            }
            "--seconds" => self.limit = Duration::from_secs(number(1, MOST_SECONDS)?),
            "--lift" => choose(&mut self.asked, Asked::Lift)?,
            "--replies" => choose(&mut self.asked, Asked::Replies)?,
            other => {
                let other = other.escape_debug();
                return Err(format!("no option is called {other}: --help tells them"));
            }
        }
        Ok(())
    }
}

/// One of the two exercises, and not both.
fn choose(asked: &mut Option<Asked>, one: Asked) -> Result<(), String> {
    match asked.replace(one) {
        Some(other) if other != one => Err("one of --lift and --replies".to_string()),
        _ => Ok(()),
    }
}

/// The number behind an option, in decimal digits alone.
fn number(option: &str, word: Option<OsString>, least: u64, most: u64) -> Result<u64, String> {
    let word = word.unwrap_or_default();
    let digits = word.to_str().filter(|text| !text.starts_with('+'));
    let number = digits.and_then(|text| text.parse().ok());
    let number = number.filter(|number| (least..=most).contains(number));
    number.ok_or_else(|| format!("{option}: expected a number from {least} to {most}"))
}

#[cfg(test)]
mod tests {
    use super::*;

    #[test]
    fn wrong_words() {
        for words in [
            &[][..],
            &["--sheets", "5"],
            &["--sheets", "0", "a"],
            &["--sheets", "1000001", "a"],
            &["--sheets", "+5", "a"],
            &["--sheets"],
            &["--seed", "-1", "a"],
            &["--seed", "18446744073709551616", "a"],
            &["--dimension", "0", "a"],
            &["--dimension", "5", "a"],
            &["--seconds", "0", "a"],
            &["--seconds", "1.5", "a"],
            &["--lift", "--replies", "a"],
            &["--no-such-option", "a"],
            &["--"],
        ] {
            let read = Options::read(words.iter().map(Into::into));
            assert!(read.is_err(), "{words:?}");
        }
    }

    #[test]
    fn a_program_may_be_called_like_an_option() {
        let words = ["--replies", "--replies", "--", "--help", "-h"];
        let read = Options::read(words.map(Into::into));
        let Ok(Options::Mark(marked)) = read else {
            panic!("{read:?}")
        };
        assert_eq!((marked.asked, marked.plan.seed), (Asked::Replies, 1));
        assert_eq!(
            (marked.program, marked.arguments),
            ("--help".into(), vec!["-h".into()])
        );
    }
}
