//! The commands in words with their operands: one table, by which a command is
//! read from words and written in words, and by which an error tells what was
//! expected.

use crate::reader::{Unreadable, Words, number, same};
use laremban::{Command, Commands, Side, decode};
use std::fmt;

/// What stands behind a word.
#[derive(Clone, Copy)]
pub(crate) struct Operand {
    name: &'static str,
    kind: Kind,
}

/// How an operand is written in bytes. Any number that fits is read, so that
/// the run itself refuses what it can't use.
#[derive(Clone, Copy, PartialEq)]
enum Kind {
    /// A byte: a dimension or an axis.
    Byte,
    /// A byte with a name for each side.
    Side,
    /// Two bytes: a dart or an object.
    Word,
    /// Four bytes in two's complement: a coordinate or an end.
    Height,
}

const fn operand(name: &'static str, kind: Kind) -> Operand {
    Operand { name, kind }
}

pub(crate) const AXIS: Operand = operand("axis", Kind::Byte);
pub(crate) const DART: Operand = operand("dart", Kind::Word);
const LO: Operand = operand("lo", Kind::Height);
const HI: Operand = operand("hi", Kind::Height);

/// A command: its word, its byte, and its operands in the order that words and
/// bytes share.
pub(crate) struct Form {
    word: &'static str,
    byte: u8,
    operands: &'static [Operand],
}

const fn form(word: &'static str, byte: u8, operands: &'static [Operand]) -> Form {
    Form {
        word,
        byte,
        operands,
    }
}

/// Where two commands have one word, the one with fewer operands stands first.
const FORMS: [Form; 11] = [
    form("NEW", 0x10, &[operand("dimension", Kind::Byte)]),
    form("DART", 0x11, &[]),
    form(
        "SEW",
        0x12,
        &[AXIS, operand("a", Kind::Word), operand("b", Kind::Word)],
    ),
    form("UNSEW", 0x13, &[AXIS, operand("a", Kind::Word)]),
    form(
        "PLACE",
        0x14,
        &[DART, AXIS, operand("coordinate", Kind::Height)],
    ),
    form("SPAN", 0x15, &[DART, LO, HI]),
    form("SPAN", 0x1a, &[DART, LO, HI, operand("object", Kind::Word)]),
    form("CLEAR", 0x16, &[DART]),
    form("LIFT", 0x17, &[]),
    form("ADOPT", 0x18, &[]),
    form("COUNT", 0x19, &[operand("side", Kind::Side), AXIS]),
];

/// The side that a word names.
pub(crate) fn side(word: &str) -> Option<Side> {
    let sides = [Side::Plan, Side::Lifted];
    sides.into_iter().find(|side| same(&side.to_string(), word))
}

impl Operand {
    /// Its name among the operands of a command.
    pub(crate) fn name(self) -> &'static str {
        self.name
    }

    /// How many bytes it has.
    fn width(self) -> usize {
        match self.kind {
            Kind::Byte | Kind::Side => 1,
            Kind::Word => 2,
            Kind::Height => 4,
        }
    }

    /// The least and the greatest number that fit its bytes.
    fn range(self) -> (i64, i64) {
        match self.kind {
            Kind::Byte | Kind::Side => (0, u8::MAX.into()),
            Kind::Word => (0, u16::MAX.into()),
            Kind::Height => (i32::MIN.into(), i32::MAX.into()),
        }
    }

    /// The number that a word tells.
    pub(crate) fn number(self, word: &str) -> Option<i64> {
        match side(word) {
            Some(side) if self.kind == Kind::Side => Some(side.number().into()),
            _ => number(word, self.range()),
        }
    }

    /// The word that tells the number in its bytes, the highest first.
    fn word(self, bytes: &[u8]) -> String {
        let folded = bytes
            .iter()
            .fold(0, |number: u32, &byte| number << 8 | u32::from(byte));
        let side = || u8::try_from(folded).ok().and_then(Side::from_number);
        match self.kind {
            Kind::Height => folded.cast_signed().to_string(),
            Kind::Side => side().map_or_else(|| folded.to_string(), |side| side.to_string()),
            Kind::Byte | Kind::Word => folded.to_string(),
        }
    }
}

impl fmt::Display for Operand {
    fn fmt(&self, f: &mut fmt::Formatter) -> fmt::Result {
        let (least, most) = self.range();
        let named = match self.kind {
            Kind::Side => "`plan`, `lifted` or ",
            _ => "",
        };
        write!(f, "{named}a number from {least} to {most}")
    }
}

impl Form {
    /// The form of a word, in whatever case, behind which so many words stand. Of
    /// two commands with this word it is the one with more operands, where there
    /// are words enough.
    pub(crate) fn of_word(word: &str, behind: usize) -> Option<&'static Form> {
        let mut forms = FORMS.iter().filter(|form| same(form.word, word));
        let first = forms.next()?;
        let more = forms.rfind(|form| form.operands.len() <= behind);
        more.or(Some(first))
    }

    /// The command with the operands that come next. The operands become bytes,
    /// and the proved call reads the command from them.
    pub(crate) fn read(&self, words: &mut Words) -> Result<Command, Unreadable> {
        let mut bytes = vec![self.byte];
        for &operand in self.operands {
            let number = words.operand(operand, self)?;
            let all = number.to_be_bytes();
            bytes.extend(&all[all.len() - operand.width()..]);
        }
        let command = decode(&bytes, 0).command;
        Ok(command.expect("a byte of the table with all its operands"))
    }
}

impl fmt::Display for Form {
    /// Its word and the names of its operands.
    fn fmt(&self, f: &mut fmt::Formatter) -> fmt::Result {
        f.write_str(self.word)?;
        let mut names = self.operands.iter().map(|operand| operand.name);
        names.try_for_each(|name| write!(f, " {name}"))
    }
}

/// The words of a command.
pub(crate) fn words(command: Command) -> String {
    let list = list(command);
    let (form, parts) = parts(list.bytes());
    let operands = form.operands.iter().zip(parts);
    let told = operands.map(|(operand, bytes)| operand.word(bytes));
    let all: Vec<String> = [form.word.to_string()].into_iter().chain(told).collect();
    all.join(" ")
}

/// The bytes of a command in hexadecimal, each operand in one word.
pub(crate) fn hex(command: Command) -> String {
    let list = list(command);
    let (form, parts) = parts(list.bytes());
    let digits = |bytes: &[u8]| bytes.iter().map(|byte| format!("{byte:02x}")).collect();
    let all: Vec<String> = [&[form.byte][..]]
        .into_iter()
        .chain(parts)
        .map(digits)
        .collect();
    all.join(" ")
}

/// The list of one command.
fn list(command: Command) -> Commands {
    [command].into_iter().collect()
}

/// The form of a whole command's bytes, and the bytes of its operands.
fn parts(bytes: &[u8]) -> (&'static Form, Vec<&[u8]>) {
    let form = FORMS.iter().find(|form| form.byte == bytes[0]);
    let form = form.expect("a command of the table");
    let mut rest = &bytes[1..];
    let operands = form.operands.iter().map(|operand| {
        let (own, others) = rest.split_at(operand.width());
        rest = others;
        own
    });
    (form, operands.collect())
}

/// The words of all commands, for an error.
pub(crate) fn all_words() -> String {
    let mut words: Vec<&str> = FORMS.iter().map(|form| form.word).collect();
    words.dedup();
    words.join(", ")
}
