//! What a program wrote, read as a map that may be wrong in any way: the numbers
//! that stand there, and no more is tested of them.

use crate::clean::clean;
use laremban::text::{VERSION, What};
use std::fmt;

/// What the first line begins with.
const WORD: &str = "laremban-map";
/// So many characters of a word are enough to find it.
const SHOWN: usize = 40;

/// The numbers of a map.
#[derive(Clone, Debug, PartialEq, Eq)]
pub struct Written {
    /// The dimension that the first line tells.
    pub dimension: usize,
    /// Of each dart its links, one more than the dimension, its coordinates, and
    /// its object.
    pub rows: Vec<Vec<i64>>,
}

/// Why there is no map.
#[derive(Clone, Debug, PartialEq, Eq)]
pub enum Fault {
    /// There is nothing but white space.
    Nothing,
    /// The first line with words in it is not that of a map: its beginning.
    NoMap(usize, String),
    /// The map is written in another version of the format.
    OtherVersion(usize, u32),
    /// The map has another dimension than it should have.
    Dimension(usize, usize),
    /// A line has another number of words than a dart has, which is the last.
    OtherNumbers(usize, usize, usize),
    /// A word is no number: its beginning.
    NoNumber(usize, String),
    /// The text ends before a line: so many darts are written of so many that
    /// the first line tells.
    TooFew(usize, usize, usize),
    /// A line comes behind the last of so many darts.
    TooMany(usize, usize),
}

impl fmt::Display for Fault {
    fn fmt(&self, f: &mut fmt::Formatter) -> fmt::Result {
        match self {
            Fault::Nothing => f.write_str("the program wrote nothing"),
            Fault::NoMap(line, word) => {
                write!(
                    f,
                    "line {line}: `{word}` is not `{WORD} {VERSION} dimension count`"
                )
            }
            &Fault::OtherVersion(line, version) => {
                write!(f, "line {line}: {}", What::OtherVersion(version))
            }
            Fault::Dimension(is, should) => {
                write!(f, "the map has dimension {is}, should have {should}")
            }
            Fault::OtherNumbers(line, is, should) => {
                let (links, coordinates) = (should / 2, should / 2 - 1);
                write!(f, "line {line}: {is} numbers, should be {should}: ")?;
                write!(f, "{links} links, {coordinates} coordinates and an object")
            }
            Fault::NoNumber(line, word) => {
                write!(f, "line {line}: `{word}` is no number")
            }
            Fault::TooFew(line, is, should) => {
                write!(f, "line {line}: the text ends there, behind {is} of the ")?;
                write!(f, "{should} darts that its first line tells")
            }
            Fault::TooMany(line, count) => {
                write!(f, "line {line}: a line more than the {count} darts have")
            }
        }
    }
}

impl std::error::Error for Fault {}

impl Written {
    /// The map of a dimension that bytes have as text. Blanks, blank lines and
    /// line ends are free.
    ///
    /// ```
    /// use laremban_mark::written::Written;
    ///
    /// let written = Written::read(b"laremban-map 2 1 2\r\n 1 0  0 9\n\n0 7 -4 9", 1).unwrap();
    /// assert_eq!(written.rows, [[1, 0, 0, 9], [0, 7, -4, 9]]);
    /// let fault = Written::read(b"laremban-map 2 1 2\n1 0 x 9\n", 1).unwrap_err();
    /// assert_eq!(fault.to_string(), "line 2: `x` is no number");
    /// ```
    pub fn read(bytes: &[u8], dimension: usize) -> Result<Written, Fault> {
        let text = String::from_utf8_lossy(bytes);
        let text = text.strip_prefix('\u{feff}').unwrap_or(&text);
        let mut lines = (1..)
            .zip(text.split('\n'))
            .filter(|(_, line)| !line.trim().is_empty());
        let (at, first) = lines.next().ok_or(Fault::Nothing)?;
        let (is, count) = head(at, first)?;
        if is != dimension as u64 {
            return Err(Fault::Dimension(is as usize, dimension));
        }
        let (mut rows, mut last) = (Vec::new(), at);
        for (at, line) in lines {
            last = at;
            if rows.len() as u64 == count {
                return Err(Fault::TooMany(at, rows.len()));
            }
            rows.push(row(at, line, 2 * dimension + 2)?);
        }
        if (rows.len() as u64) < count {
            return Err(Fault::TooFew(last + 1, rows.len(), count as usize));
        }
        Ok(Written { dimension, rows })
    }
}

/// The dimension and the number of darts that the first line tells.
fn head(at: usize, line: &str) -> Result<(u64, u64), Fault> {
    let words: Vec<&str> = line.split_whitespace().collect();
    let numbers = match words[..] {
        [WORD, version, dimension, count] => numbers(version, dimension, count),
        _ => None,
    };
    match numbers {
        Some((VERSION, dimension, count)) => Ok((dimension, count)),
        Some((other, ..)) => Err(Fault::OtherVersion(at, other)),
        None => Err(Fault::NoMap(at, clean(&words.join(" "), SHOWN))),
    }
}

/// The numbers of the first line, where they are all numbers.
fn numbers(version: &str, dimension: &str, count: &str) -> Option<(u32, u64, u64)> {
    let (dimension, count) = (dimension.parse().ok()?, count.parse().ok()?);
    Some((version.parse().ok()?, dimension, count))
}

/// The numbers of a dart.
fn row(at: usize, line: &str, many: usize) -> Result<Vec<i64>, Fault> {
    let number = |word: &str| {
        let parsed = word.parse();
        parsed.map_err(|_| Fault::NoNumber(at, clean(word, SHOWN)))
    };
    let row: Vec<i64> = line
        .split_whitespace()
        .map(number)
        .collect::<Result<_, _>>()?;
    match row.len() == many {
        true => Ok(row),
        false => Err(Fault::OtherNumbers(at, row.len(), many)),
    }
}

#[cfg(test)]
mod tests {
    use super::*;

    #[test]
    fn what_is_no_map_is_told_with_its_line() {
        for (text, told) in [
            ("", "the program wrote nothing"),
            (" \r\n\t\n", "the program wrote nothing"),
            ("20", "line 1: `20` is not `laremban-map 2 dimension count`"),
            (
                "\n\u{1b}[1m hello",
                "line 2: `\\u{1b}[1m hello` is not `laremban-map 2 dimension count`",
            ),
            (
                "laremban-map 2 -1 0",
                "line 1: `laremban-map 2 -1 0` is not `laremban-map 2 dimension count`",
            ),
            (
                "\nlaremban-map 1 2 20\n",
                "line 2: version 1 has no objects, and is read no more: version 2 is wanted",
            ),
            (
                "laremban-map 3 2 20\n",
                "line 1: version 3 is not known: version 2 is wanted",
            ),
            (
                "laremban-map 2 99999999999 0",
                "the map has dimension 99999999999, should have 2",
            ),
            (
                "laremban-map 2 2 1\n0 0 0 1 1",
                "line 2: 5 numbers, should be 6: 3 links, 2 coordinates and an object",
            ),
            (
                "laremban-map 2 2 1\n0 0 0 1 99999999999999999999 0",
                "line 2: `99999999999999999999` is no number",
            ),
            (
                "laremban-map 2 2 2\n0 0 0 1 1 0\n",
                "line 3: the text ends there, behind 1 of the 2 darts that its first line tells",
            ),
            (
                "laremban-map 2 2 0\n\n0 0 0 1 1 0\n",
                "line 3: a line more than the 0 darts have",
            ),
        ] {
            let fault = Written::read(text.as_bytes(), 2).expect_err(text);
            assert_eq!(fault.to_string(), told);
        }
        assert!(Written::read(b"\xff\xfe", 2).is_err());
    }

    #[test]
    fn white_space_is_free_and_links_may_be_any() {
        let text = "\u{feff}\r\n\tlaremban-map  2 2 +1 \r\n\r\n-3 +99 007 1 2 070000";
        let written = Written::read(text.as_bytes(), 2).unwrap();
        assert_eq!(written.rows, [[-3, 99, 7, 1, 2, 70000]]);
    }
}
