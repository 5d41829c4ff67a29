//! A line of a script: a command, some darts at once, or something to be shown.

use crate::reader::{Unreadable, Words, number, same, unreadable};
use crate::words::{AXIS, DART, Form, all_words, side, words};
use laremban::{Command, Side};
use std::fmt;

/// What a line asks for.
#[derive(Clone, Copy, Debug, PartialEq, Eq)]
pub enum Line {
    /// A command of document 01.
    Command(Command),
    /// The command DART, so many times.
    Darts(u16),
    /// No command: a look at the maps as they stand there.
    Show(Show),
}

/// What is shown. Operands may be any number, as those of commands.
#[derive(Clone, Copy, Debug, PartialEq, Eq)]
pub enum Show {
    /// All darts of a side.
    Map(Side),
    /// The lifted darts with their names, and the case that makes each link: all
    /// of them, or one.
    Names {
        /// The one dart.
        dart: Option<u16>,
    },
    /// The darts of a dart's cell of an axis.
    Cell {
        /// Whose cell it is.
        side: Side,
        /// The cell's axis.
        axis: u8,
        /// A dart of the cell.
        dart: u16,
    },
    /// The pieces of the plan's cell of an axis.
    Pieces {
        /// The cell's axis.
        axis: u8,
        /// A dart of the cell.
        dart: u16,
    },
}

impl Line {
    /// How many commands it has.
    pub fn count_commands(&self) -> usize {
        match *self {
            Line::Command(_) => 1,
            Line::Darts(many) => many.into(),
            Line::Show(_) => 0,
        }
    }

    /// The line that words make; nothing where there is no word.
    pub(crate) fn read(text: &str) -> Result<Option<Line>, Unreadable> {
        let mut words = Words::new(text);
        let Some(word) = words.next() else {
            return Ok(None);
        };
        let line = match Form::of_word(word, words.count()) {
            Some(_) if same("DART", word) && words.peek().is_some() => darts(&mut words)?,
            Some(form) => Line::Command(form.read(&mut words)?),
            None if same("SHOW", word) => Line::Show(show(&mut words)?),
            None => {
                let expected = format!("a command ({}) or SHOW", all_words());
                return Err(unreadable(Some(word), expected));
            }
        };
        words.end()?;
        Ok(Some(line))
    }
}

/// What stands behind DART where more than one is asked for.
fn darts(words: &mut Words) -> Result<Line, Unreadable> {
    let times = |word: &str| same("x", word).then_some(());
    words.expect(times, "`x` and how many darts, or the end of the line")?;
    let range = (1, u16::MAX.into());
    let many = words.expect(
        |word| number(word, range),
        format!("how many darts: a number from {} to {}", range.0, range.1),
    )?;
    Ok(Line::Darts(many as u16))
}

/// The word behind SHOW.
enum Shown {
    Map(Side),
    Cell,
    Pieces,
}

fn shown(word: &str) -> Option<Shown> {
    match side(word) {
        Some(side) => Some(Shown::Map(side)),
        None if same("cell", word) => Some(Shown::Cell),
        None if same("pieces", word) => Some(Shown::Pieces),
        None => None,
    }
}

/// What stands behind SHOW.
fn show(words: &mut Words) -> Result<Show, Unreadable> {
    Ok(
        match words.expect(shown, "`plan`, `lifted`, `cell` or `pieces`")? {
            Shown::Map(Side::Lifted) if words.peek().is_some() => names(words)?,
            Shown::Map(side) => Show::Map(side),
            Shown::Cell => {
                let side = words.peek().and_then(side);
                if side.is_some() {
                    words.next();
                }
                let side = side.unwrap_or(Side::Plan);
                let (axis, dart) = cell(words, "SHOW cell [side] axis dart")?;
                Show::Cell { side, axis, dart }
            }
            Shown::Pieces => {
                let (axis, dart) = cell(words, "SHOW pieces axis dart")?;
                Show::Pieces { axis, dart }
            }
        },
    )
}

/// What stands behind SHOW lifted where there is a word more.
fn names(words: &mut Words) -> Result<Show, Unreadable> {
    let wanted = |word: &str| same("names", word).then_some(());
    words.expect(wanted, "`names` or the end of the line")?;
    let dart = match words.peek() {
        Some(_) => Some(words.operand(DART, "SHOW lifted names [dart]")? as u16),
        None => None,
    };
    Ok(Show::Names { dart })
}

/// The axis and the dart of a cell, each read within its width.
fn cell(words: &mut Words, usage: &str) -> Result<(u8, u16), Unreadable> {
    let axis = words.operand(AXIS, usage)?;
    let dart = words.operand(DART, usage)?;
    Ok((axis as u8, dart as u16))
}

impl fmt::Display for Line {
    fn fmt(&self, f: &mut fmt::Formatter) -> fmt::Result {
        match *self {
            Line::Command(command) => f.write_str(&words(command)),
            Line::Darts(many) => write!(f, "{} x {many}", words(Command::Dart)),
            Line::Show(show) => write!(f, "SHOW {show}"),
        }
    }
}

impl fmt::Display for Show {
    fn fmt(&self, f: &mut fmt::Formatter) -> fmt::Result {
        match *self {
            Show::Map(side) => write!(f, "{side}"),
            Show::Names { dart: None } => write!(f, "{} names", Side::Lifted),
            Show::Names { dart: Some(dart) } => write!(f, "{} names {dart}", Side::Lifted),
            Show::Cell {
                side: Side::Plan,
                axis,
                dart,
            } => write!(f, "cell {axis} {dart}"),
            Show::Cell { side, axis, dart } => write!(f, "cell {side} {axis} {dart}"),
            Show::Pieces { axis, dart } => write!(f, "pieces {axis} {dart}"),
        }
    }
}
