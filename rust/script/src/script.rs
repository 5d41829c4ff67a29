//! A whole script: its lines, or what can't be read in it; and its bytes.

use crate::line::Line;
use crate::words::hex;
use laremban::{Command, Commands};
use std::fmt;

/// No script has more commands than this, so that a short one can't ask for
/// more memory than there is.
const MOST_COMMANDS: usize = 10_000_000;

/// So many lines that can't be read are told.
const FAULTS: usize = 10;

/// So many darts stand in one line of hexadecimal text.
const DARTS_A_LINE: u16 = 16;

/// A script that can be read.
#[derive(Clone, Debug, Default, PartialEq, Eq)]
pub struct Script {
    lines: Vec<Line>,
}

/// A line that can't be read, and why.
#[derive(Clone, Debug, PartialEq, Eq)]
pub struct Fault {
    /// Its number, from 1.
    pub line: usize,
    /// The word at fault and what was expected.
    pub told: String,
}

/// The lines that can't be read: the first ten, and how many more.
#[derive(Clone, Debug, Default, PartialEq, Eq)]
pub struct Faults {
    /// The first of them.
    pub first: Vec<Fault>,
    /// How many more there are.
    pub more: usize,
}

impl Faults {
    /// Adds a line by its place from 0.
    fn add(&mut self, at: usize, told: &dyn fmt::Display) {
        match self.first.len() < FAULTS {
            true => self.first.push(Fault {
                line: at + 1,
                told: told.to_string(),
            }),
            false => self.more += 1,
        }
    }
}

impl Script {
    /// The script that bytes have as text, or the lines that can't be read.
    /// What stands behind `#` is not looked at, whatever bytes it has.
    ///
    /// ```
    /// use laremban_script::Script;
    ///
    /// let script = Script::read(b"new 2  # flat\r\n\r\nDart X 08").unwrap();
    /// assert_eq!(script.lines()[1].to_string(), "DART x 8");
    /// let faults = Script::read(b"NEW two").unwrap_err();
    /// assert_eq!(faults.first[0].line, 1);
    /// assert_eq!(faults.first[0].told, "`two`: expected a number from 0 to 255 (dimension of NEW dimension)");
    /// ```
    pub fn read(bytes: &[u8]) -> Result<Script, Faults> {
        let bytes = bytes.strip_prefix(b"\xef\xbb\xbf").unwrap_or(bytes);
        let (mut script, mut faults) = (Script::default(), Faults::default());
        let mut room = MOST_COMMANDS;
        for (at, bytes) in bytes.split(|&byte| byte == b'\n').enumerate() {
            let line = match Line::read(&before_comment(bytes)) {
                Ok(None) => continue,
                Ok(Some(line)) => line,
                Err(told) => {
                    faults.add(at, &told);
                    continue;
                }
            };
            match room.checked_sub(line.count_commands()) {
                Some(left) => room = left,
                None => {
                    faults.add(
                        at,
                        &format!("no script has more than {MOST_COMMANDS} commands"),
                    );
                    break;
                }
            }
            script.lines.push(line);
        }
        match faults.first.is_empty() {
            true => Ok(script),
            false => Err(faults),
        }
    }

    /// Its lines, without those that ask for nothing.
    pub fn lines(&self) -> &[Line] {
        &self.lines
    }

    /// Its commands.
    pub fn commands(&self) -> Commands {
        let mut list = Commands::new();
        for line in &self.lines {
            put(&mut list, line);
        }
        list
    }

    /// How many of its lines are no commands.
    pub fn count_shows(&self) -> usize {
        let shows = self.lines.iter().filter(|line| line.count_commands() == 0);
        shows.count()
    }

    /// Its bytes in hexadecimal, a line a command with its words behind it.
    ///
    /// ```
    /// use laremban_script::Script;
    ///
    /// let script = Script::read(b"NEW 2\nSEW 0 0 1").unwrap();
    /// assert_eq!(script.hex(), "10 02  # NEW 2\n12 00 0000 0001  # SEW 0 0 1\n");
    /// ```
    pub fn hex(&self) -> String {
        self.lines.iter().map(hex_lines).collect()
    }
}

/// A line without its comment. What is no UTF-8 becomes a character that no
/// word has.
fn before_comment(line: &[u8]) -> String {
    let words = line.split(|&byte| byte == b'#').next();
    String::from_utf8_lossy(words.unwrap_or_default()).into_owned()
}

/// Adds a line's commands.
fn put(list: &mut Commands, line: &Line) {
    match *line {
        Line::Command(command) => list.push(command),
        Line::Darts(many) => list.darts(many.into()),
        Line::Show(_) => list,
    };
}

/// A line in hexadecimal with its words behind it, and darts so many to a line
/// at most; nothing of what is no command.
fn hex_lines(line: &Line) -> String {
    match *line {
        Line::Show(_) => String::new(),
        Line::Command(command) => format!("{}  # {line}\n", hex(command)),
        Line::Darts(many) => {
            let first = (0..many).step_by(DARTS_A_LINE.into());
            let some = first.map(|first| DARTS_A_LINE.min(many - first));
            some.map(hex_darts).collect()
        }
    }
}

fn hex_darts(many: u16) -> String {
    let darts = vec![hex(Command::Dart); many.into()];
    format!("{}  # {}\n", darts.join(" "), Line::Darts(many))
}

impl fmt::Display for Fault {
    fn fmt(&self, f: &mut fmt::Formatter) -> fmt::Result {
        write!(f, "{}: {}", self.line, self.told)
    }
}
