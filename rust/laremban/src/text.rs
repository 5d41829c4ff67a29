//! A lifted map as text, for programs in other languages: a line for the map,
//! then a line a dart.
//!
//! The first line is `laremban-map 2 dimension count`, where 2 is the version.
//! A dart's line has its links along axes 0 to the dimension, then its
//! coordinates, as many as the dimension, and then the object that it carries.
//! Numbers are decimal, with one blank between them. [`plan`] has the text of a
//! plan, with its spans.
//!
//! Version 1 had no objects. It is read no more, and [`What::OtherVersion`] says
//! so.
//!
//! ```
//! use laremban::{LINKS, LiftedTables, text};
//!
//! let mut edge = LiftedTables::new(2);
//! edge.links[..2 * LINKS].copy_from_slice(&[1, 0, 0, 0, 0, 0, 0, 1, 1, 1, 1, 1]);
//! edge.places[5] = -4;
//! edge.objects.fill(101);
//! let written = text::write(edge.map(1, 2));
//! assert_eq!(written, "laremban-map 2 1 2\n1 0 0 101\n0 1 -4 101\n");
//!
//! let read = text::read(&written)?;
//! assert_eq!((read.dimension, read.count), (1, 2));
//! assert_eq!(read.tables, edge);
//! # Ok::<(), text::Fault>(())
//! ```

pub mod plan;

use crate::calls::check;
use crate::map::Map;
use crate::refusal::Refused;
use crate::tables::LiftedTables;
use crate::widths::{COORDINATES, DARTS, GREATEST_DIMENSION, LINKS, SPANS};
use std::fmt::{self, Display, Write};
use std::str::FromStr;

/// What the first line begins with.
const WORD: &str = "laremban-map";
/// The version of both formats, of maps and of plans, which their first lines tell.
pub const VERSION: u32 = 2;
/// The version before it, in which neither had objects.
const WITHOUT_OBJECTS: u32 = 1;

/// A map that was read, and that the check accepts: a lifted one, or a plan where
/// it was a plan's text.
#[derive(Clone, Debug, PartialEq, Eq)]
#[non_exhaustive]
pub struct Held<Tables> {
    /// Its tables, with a row for each dart and no more.
    pub tables: Tables,
    /// Its dimension.
    pub dimension: u8,
    /// How many darts it has.
    pub count: usize,
}

/// Why a text is no map.
#[derive(Clone, Debug, PartialEq, Eq)]
#[non_exhaustive]
pub struct Fault {
    /// The line at fault, from 1.
    pub line: usize,
    /// What is wrong with it.
    pub what: What,
}

/// What is wrong with a line.
#[derive(Clone, Debug, PartialEq, Eq)]
#[non_exhaustive]
pub enum What {
    /// It is not the first line of a map.
    NoMap,
    /// The text is of this version of its format, which is not read here.
    OtherVersion(u32),
    /// No map has such a dimension.
    NoDimension,
    /// No map has so many darts.
    TooManyDarts,
    /// The text ends before its darts do.
    TooFewLines,
    /// There are more lines than so many darts have.
    TooManyLines(usize),
    /// It has not as many numbers as a dart of a map of this dimension.
    OtherNumbers(usize),
    /// It is not the first line of a plan.
    NoPlan,
    /// It has not the numbers of a dart of a plan of this dimension.
    OtherPlanNumbers(usize),
    /// It has more spans than a row can have.
    TooManySpans,
    /// A word is no number that fits; its first forty characters.
    NoNumber(String),
    /// The check refuses the map, at the dart of this line if it tells one.
    Refused(Refused),
}

impl Display for What {
    fn fmt(&self, f: &mut fmt::Formatter) -> fmt::Result {
        match self {
            What::NoMap => write!(f, "it is not `{WORD} {VERSION} dimension count`"),
            &What::OtherVersion(version) => {
                let why = match version {
                    WITHOUT_OBJECTS => "has no objects, and is read no more",
                    _ => "is not known",
                };
                write!(f, "version {version} {why}: version {VERSION} is wanted")
            }
            What::NoDimension => write!(f, "the dimension is not 1 to {GREATEST_DIMENSION}"),
            What::TooManyDarts => write!(f, "more than {DARTS} darts"),
            What::TooFewLines => f.write_str("the text ends before its darts do"),
            What::TooManyLines(count) => write!(f, "a line more than the {count} darts have"),
            What::OtherNumbers(dimension) => {
                write!(f, "{} links, {dimension} coordinates", dimension + 1)?;
                f.write_str(" and an object are wanted, with one blank between them")
            }
            What::NoPlan => write!(f, "it is not `{} {VERSION} dimension count`", plan::WORD),
            What::OtherPlanNumbers(dimension) => {
                write!(f, "{} links, {dimension} coordinates", dimension + 1)?;
                f.write_str(" and two ends and an object for each span are wanted, with one")?;
                f.write_str(" blank between them")
            }
            What::TooManySpans => write!(f, "more than {SPANS} spans"),
            What::NoNumber(word) => {
                let word = word.escape_debug();
                write!(f, "`{word}` is no number that fits here")
            }
            What::Refused(refused) => write!(f, "{refused}"),
        }
    }
}

impl Display for Fault {
    fn fmt(&self, f: &mut fmt::Formatter) -> fmt::Result {
        write!(f, "line {}: {}", self.line, self.what)
    }
}

impl std::error::Error for Fault {}

/// The text of a lifted map. That of a plan is written as that of the map that
/// ADOPT would make it from: without spans, and with object 0 for each dart.
pub fn write(map: Map) -> String {
    let (dimension, count) = (map.dimension(), map.count());
    let mut text = format!("{WORD} {VERSION} {dimension} {count}\n");
    for dart in 0..count {
        let object = [map.object(dart).into()];
        put_line(&mut text, numbers(&map, dart).chain(object));
    }
    text
}

/// The links and the coordinates of a dart.
fn numbers(map: &Map, dart: usize) -> impl Iterator<Item = i64> {
    let links = (0..=map.dimension()).map(move |axis| map.link(dart, axis) as i64);
    links.chain(map.place(dart).iter().copied().map(i64::from))
}

/// A line of numbers.
fn put_line(text: &mut String, numbers: impl Iterator<Item = i64>) {
    let mut between = "";
    for number in numbers {
        // To write to a string can't fail.
        let _ = write!(text, "{between}{number}");
        between = " ";
    }
    text.push('\n');
}

/// The map that a text holds, once [`check`] has accepted it.
///
/// ```
/// use laremban::text;
///
/// let fault = text::read("laremban-map 2 1 2\n1 0 0 7\n1 1 4 7\n").unwrap_err();
/// assert!(matches!(fault.what, text::What::Refused(refused) if refused.dart == Some(0)));
/// let told = "line 2: refused by 7 at dart 0: a link, followed twice, does not lead back";
/// assert_eq!(fault.to_string(), told);
///
/// let old = text::read("laremban-map 1 1 2\n1 0 0\n0 1 4\n").unwrap_err();
/// let told = "line 1: version 1 has no objects, and is read no more: version 2 is wanted";
/// assert_eq!(old.to_string(), told);
/// ```
pub fn read(text: &str) -> Result<Held<LiftedTables>, Fault> {
    let mut lines = text.lines();
    let first = lines.next().unwrap_or_default();
    let (dimension, count) = head(first, WORD, What::NoMap).map_err(at(1))?;
    let mut tables = LiftedTables::new(count);
    for dart in 0..count {
        let line = lines.next().ok_or(What::TooFewLines);
        let row = line.and_then(|line| put_dart(&mut tables, dart, dimension, line));
        row.map_err(at(dart + 2))?;
    }
    if lines.next().is_some() {
        return Err(at(count + 2)(What::TooManyLines(count)));
    }
    check(&tables.adopted().plan(dimension, count)).map_err(refused)?;
    Ok(Held {
        tables,
        dimension,
        count,
    })
}

/// A fault at a line.
fn at(line: usize) -> impl Fn(What) -> Fault {
    move |what| Fault { line, what }
}

/// A refusal of the check, told at its dart's line.
fn refused(refused: Refused) -> Fault {
    let line = refused.dart.map_or(1, |dart| usize::from(dart) + 2);
    at(line)(What::Refused(refused))
}

/// The dimension and the count that the first line tells behind its word.
fn head(line: &str, word: &str, other: What) -> Result<(u8, usize), What> {
    let words: Vec<&str> = line.split(' ').collect();
    let &[first, version, dimension, count] = &words[..] else {
        return Err(other);
    };
    if first != word {
        return Err(other);
    }
    let version = number(version)?;
    if version != VERSION {
        return Err(What::OtherVersion(version));
    }
    let (dimension, count) = (number(dimension)?, number(count)?);
    if !(1..=GREATEST_DIMENSION).contains(&usize::from(dimension)) {
        return Err(What::NoDimension);
    }
    if count > DARTS {
        return Err(What::TooManyDarts);
    }
    Ok((dimension, count))
}

/// Writes the rows of a dart to the tables of a lifted map, by its line.
fn put_dart(tables: &mut LiftedTables, dart: usize, dimension: u8, line: &str) -> Result<(), What> {
    let words: Vec<&str> = line.split(' ').collect();
    let Some((row, &[object])) = words.split_at_checked(row_words(dimension)) else {
        return Err(What::OtherNumbers(dimension.into()));
    };
    let (links, places) = (&mut tables.links, &mut tables.places);
    put_row(links, places, dart, row)?;
    tables.objects[dart] = number(object)?;
    Ok(())
}

/// How many words the links and the coordinates of a dart have.
fn row_words(dimension: u8) -> usize {
    2 * usize::from(dimension) + 1
}

/// Writes the links and the place of a dart to their tables, by so many words:
/// axes above the dimension hold its own number, unused coordinates 0.
fn put_row(links: &mut [u16], places: &mut [i32], dart: usize, words: &[&str]) -> Result<(), What> {
    let dimension = words.len() / 2;
    let links = &mut links[LINKS * dart..][..LINKS];
    links.fill(dart as u16);
    for (link, word) in links.iter_mut().zip(&words[..=dimension]) {
        *link = number(word)?;
    }
    let places = &mut places[COORDINATES * dart..][..COORDINATES];
    for (place, word) in places.iter_mut().zip(&words[dimension + 1..]) {
        *place = number(word)?;
    }
    Ok(())
}

/// So many characters of a word are enough to find it.
const SHOWN: usize = 40;

fn number<N: FromStr>(word: &str) -> Result<N, What> {
    word.parse()
        .map_err(|_| What::NoNumber(word.chars().take(SHOWN).collect()))
}

#[cfg(test)]
mod tests {
    use super::*;
    use crate::refusal::Refusal;

    const EDGE: &str = "laremban-map 2 1 2\n1 0 0 7\n0 1 4 65535\n";

    #[test]
    fn line_ends_are_free() {
        let held = read(EDGE).unwrap();
        assert_eq!(write(held.tables.map(1, 2)), EDGE);
        assert_eq!(held.tables.links[LINKS..], [0, 1, 1, 1, 1, 1]);
        assert_eq!(held.tables.objects, [7, 65535]);
        assert_eq!(read(EDGE.trim_end()).as_ref(), Ok(&held));
        assert_eq!(read(&EDGE.replace('\n', "\r\n")), Ok(held));
        let none = read("laremban-map 2 5 0\n").unwrap();
        assert_eq!((none.dimension, none.count), (5, 0));
    }

    #[test]
    fn every_fault_has_its_line() {
        let number = |word: &str| What::NoNumber(word.to_string());
        let refused = |refusal, dart| What::Refused(Refused::new(refusal, Some(dart)));
        for (text, line, what) in [
            ("", 1, What::NoMap),
            ("laremban-map 2 1", 1, What::NoMap),
            ("laremban-map 1 1 0", 1, What::OtherVersion(1)),
            ("laremban-map 3 1 0", 1, What::OtherVersion(3)),
            ("laremban-map 2 0 0", 1, What::NoDimension),
            ("laremban-map 2 6 0", 1, What::NoDimension),
            ("laremban-map 2 1 16385", 1, What::TooManyDarts),
            (
                "laremban-map 2 1 99999999999999999999",
                1,
                number("99999999999999999999"),
            ),
            ("laremban-map 2 1 2\n1 0 0 7", 3, What::TooFewLines),
            (
                "laremban-map 2 1 2\n1 0 0 7\n0 1 4 7\n\n",
                4,
                What::TooManyLines(2),
            ),
            ("laremban-map 2 1 2\n1 0 0", 2, What::OtherNumbers(1)),
            (
                "laremban-map 2 1 2\n1 0 0 7\n0 1 4 7 7",
                3,
                What::OtherNumbers(1),
            ),
            (
                "laremban-map 2 1 2\n1 0 0 7\n0  1 4 7\n",
                3,
                What::OtherNumbers(1),
            ),
            (
                "laremban-map 2 1 2\n1 0 0 7\n0 65536 4 7\n",
                3,
                number("65536"),
            ),
            (
                "laremban-map 2 1 2\n1 0 0 7\n0 1 2147483648 7\n",
                3,
                number("2147483648"),
            ),
            (
                "laremban-map 2 1 2\n1 0 0 7\n0 1 4 65536\n",
                3,
                number("65536"),
            ),
            ("laremban-map 2 1 2\n1 0 0 -1", 2, number("-1")),
            (
                "laremban-map 2 1 2\n1 0 0 7\n0 2 4 7\n",
                3,
                refused(Refusal::LinkBeyond, 1),
            ),
            (
                "laremban-map 2 1 2\n1 1 0 7\n0 0 4 7\n",
                2,
                refused(Refusal::PlacesDiffer, 0),
            ),
        ] {
            assert_eq!(
                read(text).expect_err(text),
                Fault { line, what },
                "{text:?}"
            );
        }
    }
}
