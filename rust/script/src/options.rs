//! What the program is asked for.

use laremban::{DARTS, Side};
use laremban_script::Room;
use std::ffi::OsString;
use std::path::PathBuf;

pub const HELP: &str =
    "script FILE: runs the commands that a file has in words, a line each, and tells each reply
script: the same with the words of standard input
  --plan N, --lifted N   room for so many darts, 16384 at most and if nothing is said
  --strict               exit status 1 where a command was refused
script --bytes FILE: writes the bytes of the commands, for liftrun
script --hex FILE: the same in hexadecimal, with the words as comments
script --words FILE: writes the words of a file of bytes
script --text plan FILE, script --text lifted FILE: runs the commands, and writes the map
that they leave as text, as the programs that tools/mark marks read and write it
script --version: tells which version it is
The commands: NEW dimension, DART, DART x how-many, SEW axis a b, UNSEW axis a,
PLACE dart axis coordinate, SPAN dart lo hi, SPAN dart lo hi object, CLEAR dart, LIFT,
ADOPT, COUNT side axis. A side is plan or lifted. Besides, what stands there is shown by SHOW side,
SHOW lifted names, SHOW lifted names dart (names are (d, k, t, s), and the letter behind
a link is its case: docs/LIFT.md), SHOW cell axis dart, SHOW cell lifted axis dart and
SHOW pieces axis dart.
Exit status: 0, a refused command is no failure; 2 where nothing could be run.
";

pub const VERSION: &str = concat!("script (Laremban ", env!("CARGO_PKG_VERSION"), ")\n");

/// What is done with the input.
#[derive(Clone, Copy, PartialEq)]
pub enum Job {
    Run,
    Bytes,
    Hex,
    Words,
    Text(Side),
    Help,
    Version,
}

pub struct Options {
    pub job: Job,
    pub room: Room,
    pub strict: bool,
    /// Standard input where there is none.
    pub file: Option<PathBuf>,
}

impl Options {
    /// The options, or what is wrong with them.
    pub fn read(words: impl Iterator<Item = OsString>) -> Result<Options, String> {
        let mut options = Options {
            job: Job::Run,
            room: Room::default(),
            strict: false,
            file: None,
        };
        let mut words = words;
        while let Some(word) = words.next() {
            match word.to_str() {
                Some("--plan") => options.room.plan = darts("--plan", words.next())?,
                Some("--lifted") => options.room.lifted = darts("--lifted", words.next())?,
                Some("--strict") => options.strict = true,
                Some("--bytes") => options.set(Job::Bytes)?,
                Some("--hex") => options.set(Job::Hex)?,
                Some("--words") => options.set(Job::Words)?,
                Some("--text") => options.set(Job::Text(side(words.next())?))?,
                Some("--help" | "-h") => options.job = Job::Help,
                Some("--version") => options.job = Job::Version,
                Some(other) if other.starts_with('-') => {
                    return Err(format!("no option is called {other}: --help tells them"));
                }
                _ if options.file.is_some() => return Err("one file, or none".to_string()),
                _ => options.file = Some(word.into()),
            }
            if matches!(options.job, Job::Help | Job::Version) {
                break;
            }
        }
        Ok(options)
    }

    fn set(&mut self, job: Job) -> Result<(), String> {
        match self.job {
            Job::Run => self.job = job,
            _ => return Err("one of --bytes, --hex, --words and --text".to_string()),
        }
        Ok(())
    }
}

/// The side whose map is written.
fn side(word: Option<OsString>) -> Result<Side, String> {
    let word = word.unwrap_or_default();
    let named = |side: &Side| word.to_str() == Some(&side.to_string());
    let side = [Side::Plan, Side::Lifted].into_iter().find(named);
    side.ok_or_else(|| "--text: expected plan or lifted".to_string())
}

/// How many darts there is room for, in decimal digits alone.
fn darts(option: &str, word: Option<OsString>) -> Result<usize, String> {
    let word = word.unwrap_or_default();
    let digits = word.to_str().filter(|text| !text.starts_with('+'));
    let number = digits.and_then(|text| text.parse().ok());
    let room = number.filter(|&darts| darts <= DARTS);
    room.ok_or_else(|| format!("{option}: expected how many darts, 0 to {DARTS}"))
}
