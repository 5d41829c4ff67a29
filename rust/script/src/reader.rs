//! Words read one after the other, and what is told where one is not what was
//! expected.

use crate::words::Operand;
use std::fmt;
use std::str::SplitWhitespace;

/// So many characters of a word are enough to find it.
const SHOWN: usize = 40;

/// Whether a word is a keyword: case does not matter.
pub(crate) fn same(keyword: &str, word: &str) -> bool {
    keyword.eq_ignore_ascii_case(word)
}

/// A decimal number within a range: digits, behind a minus if there is one.
pub(crate) fn number(word: &str, (least, most): (i64, i64)) -> Option<i64> {
    let digits = word.strip_prefix('-').unwrap_or(word);
    let decimal = !digits.is_empty() && digits.bytes().all(|byte| byte.is_ascii_digit());
    let number = word.parse().ok().filter(|_| decimal)?;
    (least..=most).contains(&number).then_some(number)
}

/// Why a line can't be read: the word at fault, none where the line ends too
/// early, and what was expected in its place.
#[derive(Clone, Debug, PartialEq, Eq)]
pub(crate) struct Unreadable {
    word: Option<String>,
    expected: String,
}

impl fmt::Display for Unreadable {
    fn fmt(&self, f: &mut fmt::Formatter) -> fmt::Result {
        match &self.word {
            Some(word) => write!(f, "`{word}`: expected {}", self.expected),
            None => write!(f, "the line ends too early: expected {}", self.expected),
        }
    }
}

/// The words of a line that are still to be read.
pub(crate) struct Words<'a> {
    rest: SplitWhitespace<'a>,
}

impl<'a> Words<'a> {
    pub(crate) fn new(line: &'a str) -> Words<'a> {
        let rest = line.split_whitespace();
        Words { rest }
    }

    /// The next word, if there is one.
    pub(crate) fn next(&mut self) -> Option<&'a str> {
        self.rest.next()
    }

    /// The next word, if there is one; it stays to be read.
    pub(crate) fn peek(&self) -> Option<&'a str> {
        self.rest.clone().next()
    }

    /// How many words are left.
    pub(crate) fn count(&self) -> usize {
        self.rest.clone().count()
    }

    /// What the next word tells, or that something else was expected.
    pub(crate) fn expect<T>(
        &mut self,
        read: impl Fn(&str) -> Option<T>,
        expected: impl fmt::Display,
    ) -> Result<T, Unreadable> {
        let word = self.next();
        word.and_then(read)
            .ok_or_else(|| unreadable(word, expected))
    }

    /// The number of an operand; `usage` has its name among others.
    pub(crate) fn operand(
        &mut self,
        operand: Operand,
        usage: impl fmt::Display,
    ) -> Result<i64, Unreadable> {
        let name = operand.name();
        self.expect(
            |word| operand.number(word),
            format_args!("{operand} ({name} of {usage})"),
        )
    }

    /// Nothing may be left.
    pub(crate) fn end(&mut self) -> Result<(), Unreadable> {
        match self.next() {
            None => Ok(()),
            word => Err(unreadable(word, "the end of the line")),
        }
    }
}

/// The error of a word, of which no more is kept than helps to find it. What a
/// terminal would act on is written out.
pub(crate) fn unreadable(word: Option<&str>, expected: impl fmt::Display) -> Unreadable {
    let shown = |word: &str| {
        word.chars()
            .take(SHOWN)
            .flat_map(char::escape_debug)
            .collect()
    };
    Unreadable {
        word: word.map(shown),
        expected: expected.to_string(),
    }
}
