//! A line of a sheet: a parcel's name, its corners and its heights.

use crate::finding::shown;
use crate::{Heights, Point};
use laremban::Span;

/// What a line says, before anything of it is tested but its form.
#[derive(Clone, Debug, PartialEq, Eq)]
pub struct Line<'a> {
    /// The parcel's name.
    pub name: &'a str,
    /// Its corners in order, and its spans as they are written; or what is wrong
    /// with the form.
    pub body: Result<(Vec<Point>, Vec<Span>), String>,
}

/// A mark or a word of a line.
#[derive(Clone, Copy, Debug, PartialEq, Eq)]
enum Token<'a> {
    Mark(&'a str),
    Word(&'a str),
}

/// The marks of a line; the rest of it is words and blanks.
const MARKS: [&str; 5] = ["(", ")", ",", ":", ".."];

/// The longest name, in characters: every wall that is shared tells it again.
const NAME: usize = 200;

/// What parts words and means nothing else.
fn is_blank(c: char) -> bool {
    c == ' ' || c == '\t'
}

/// A line read: nothing where it is blank or has only a comment.
///
/// ```
/// use laremban::Span;
/// use laremban_parcels::line::read;
///
/// let line = read("shed (0 0) (4, 0) (4 3): 0..3 3..4 of 101 # by the gate").unwrap().unwrap();
/// assert_eq!(line.name, "shed");
/// let spans = vec![Span::new(0, 3), Span::new(3, 4).of(101)];
/// assert_eq!(line.body, Ok((vec![(0, 0), (4, 0), (4, 3)], spans)));
/// assert_eq!(read("# nothing"), Ok(None));
/// assert!(read("(0 0) (4 0) (4 3):").is_err());
/// ```
pub fn read(text: &str) -> Result<Option<Line<'_>>, String> {
    let said = text.split('#').next().unwrap_or_default();
    let said = said.trim_matches(is_blank);
    if said.is_empty() {
        return Ok(None);
    }
    let odd = |c: char| (c.is_control() || c.is_whitespace()) && !is_blank(c);
    if let Some(c) = said.chars().find(|&c| odd(c)) {
        return Err(format!(
            "the character U+{:04X} is not for a sheet",
            c as u32
        ));
    }
    let ends = |c: char| is_blank(c) || c == '(' || c == ':';
    let (name, rest) = said.split_at(said.find(ends).unwrap_or(said.len()));
    if name.is_empty() {
        return Err("a parcel begins with its name".to_string());
    }
    if name.chars().count() > NAME {
        return Err(format!("a name has at most {NAME} characters"));
    }
    let body = body(rest);
    Ok(Some(Line { name, body }))
}

/// The marks and words of what stands behind a name, one by one.
struct Tokens<'a> {
    rest: &'a str,
}

impl<'a> Tokens<'a> {
    /// The next one, which stays to be read.
    fn peek(&self) -> Option<Token<'a>> {
        Tokens { rest: self.rest }.next()
    }
}

impl<'a> Iterator for Tokens<'a> {
    type Item = Token<'a>;

    fn next(&mut self) -> Option<Token<'a>> {
        let text = self.rest.trim_start_matches(is_blank);
        let length = match mark_at(text) {
            Some(mark) => mark.len(),
            None => word_length(text),
        };
        let (token, rest) = text.split_at(length);
        self.rest = rest;
        match mark_at(text) {
            _ if token.is_empty() => None,
            Some(mark) => Some(Token::Mark(mark)),
            None => Some(Token::Word(token)),
        }
    }
}

/// The mark that a text begins with.
fn mark_at(text: &str) -> Option<&'static str> {
    MARKS.into_iter().find(|mark| text.starts_with(mark))
}

/// How long the word is that a text begins with: up to a blank or a mark.
fn word_length(text: &str) -> usize {
    let mut places = text.char_indices();
    let end = places.find(|&(at, c)| is_blank(c) || mark_at(&text[at..]).is_some());
    end.map_or(text.len(), |(at, _)| at)
}

/// What stands behind a name.
fn body(rest: &str) -> Result<(Vec<Point>, Vec<Span>), String> {
    let mut tokens = Tokens { rest };
    let mut corners = Vec::new();
    loop {
        match tokens.next() {
            Some(Token::Mark("(")) => corners.push(corner(&mut tokens)?),
            Some(Token::Mark(":")) => break,
            other => return Err(no_colon(other, &tokens, !corners.is_empty())),
        }
    }
    let mut spans = Vec::new();
    while let Some(first) = tokens.next() {
        let (lo, hi) = ends(first, &mut tokens)?;
        spans.push(Span::new(lo, hi).of(object(&mut tokens)?));
    }
    Ok((corners, spans))
}

/// What is told of a token where a corner or `:` is wanted, once there are
/// corners or before. What looks like heights, or is no more, has lost its colon.
fn no_colon(found: Option<Token>, after: &Tokens, corners: bool) -> String {
    match (found, after.peek()) {
        (Some(Token::Word(lo)), Some(Token::Mark(".."))) if corners => {
            format!("`:` is missing before the heights `{}..`", shown(lo))
        }
        (None, _) if corners => {
            "`:` is missing behind the last corner; without heights it is needed too".to_string()
        }
        _ => {
            let wanted = "a corner `(x y)`, or `:` behind the last corner";
            format!("{} stands where {wanted} is wanted", told(found))
        }
    }
}

/// A corner behind its `(`.
fn corner(tokens: &mut Tokens) -> Result<Point, String> {
    let x = tokens.next();
    let y = match tokens.next() {
        Some(Token::Mark(",")) => tokens.next(),
        other => other,
    };
    match (x, y, tokens.next()) {
        (Some(Token::Word(x)), Some(Token::Word(y)), Some(Token::Mark(")"))) => {
            Ok((number(x)?, number(y)?))
        }
        _ => Err("a corner is not of the form `(x y)`".to_string()),
    }
}

/// Heights that begin with a token.
fn ends(lo: Token, tokens: &mut Tokens) -> Result<Heights, String> {
    match (lo, tokens.next(), tokens.next()) {
        (Token::Word(lo), Some(Token::Mark("..")), Some(Token::Word(hi))) => {
            Ok((number(lo)?, number(hi)?))
        }
        _ => {
            let found = told(Some(lo));
            Err(format!("{found} stands where heights `lo..hi` are wanted"))
        }
    }
}

/// What stands between heights and the number of their object.
const OF: Token = Token::Word("of");

/// The object that stands behind heights; 0 where none does.
fn object(tokens: &mut Tokens) -> Result<u16, String> {
    if tokens.peek() != Some(OF) {
        return Ok(0);
    }
    tokens.next();
    let found = tokens.next();
    match (found, tokens.peek()) {
        // What begins the next heights is no object of these.
        (Some(Token::Word(lo)), Some(Token::Mark(".."))) => {
            let lo = shown(lo);
            Err(format!("the object behind `of` is missing before `{lo}..`"))
        }
        (Some(Token::Word(word)), _) => {
            let object = number(word).ok().and_then(|object| object.try_into().ok());
            object.ok_or_else(|| no_object(word))
        }
        _ => Err(format!(
            "{} stands where an object is wanted, behind `of`",
            told(found)
        )),
    }
}

fn no_object(word: &str) -> String {
    let (word, most) = (shown(word), u16::MAX);
    format!("`{word}` is no object: a whole number from 0 to {most} is wanted behind `of`")
}

/// A token, or that there is none, in words.
fn told(token: Option<Token>) -> String {
    match token {
        None => "the end of the line".to_string(),
        Some(Token::Mark(text) | Token::Word(text)) => format!("`{}`", shown(text)),
    }
}

/// A whole number of 32 bits: digits, behind a sign or none.
///
/// ```
/// use laremban_parcels::line::number;
///
/// assert_eq!((number("-7"), number("+007")), (Ok(-7), Ok(7)));
/// assert!(number("4.5").is_err() && number("2147483648").is_err());
/// ```
pub fn number(word: &str) -> Result<i32, String> {
    let digits = word.strip_prefix(['+', '-']).unwrap_or(word);
    if digits.is_empty() || !digits.bytes().all(|byte| byte.is_ascii_digit()) {
        return Err(format!("`{}` is no whole number", shown(word)));
    }
    word.parse()
        .map_err(|_| format!("{} does not fit in 32 bits", shown(word)))
}

/// Heights `lo..hi` alone, as an option gives them.
///
/// ```
/// assert_eq!(laremban_parcels::line::heights("0..25"), Ok((0, 25)));
/// assert!(laremban_parcels::line::heights("5..5").is_err());
/// ```
pub fn heights(text: &str) -> Result<Heights, String> {
    let mut tokens = Tokens { rest: text };
    let lo = tokens.next().ok_or("`lo..hi` is wanted")?;
    let heights = ends(lo, &mut tokens)?;
    match tokens.next() {
        None => ordered(heights),
        more => Err(format!("{} stands behind `lo..hi`", told(more))),
    }
}

/// Heights, where the low end is below the high end.
pub(crate) fn ordered((lo, hi): Heights) -> Result<Heights, String> {
    if lo < hi {
        Ok((lo, hi))
    } else {
        Err(format!("{lo}..{hi}: the low end is not below the high end"))
    }
}

#[cfg(test)]
mod tests {
    use super::*;

    fn fault(text: &str) -> String {
        match read(text) {
            Ok(Some(line)) => line.body.expect_err(text),
            Ok(None) => panic!("{text}: a blank line"),
            Err(told) => told,
        }
    }

    #[test]
    fn blanks_are_free() {
        let plain = read("a (0 -1) (2 3): 0..3 of 7 -3..0");
        for same in [
            "a(0 -1)(2 3):0..3 of 7 -3..0",
            "\ta ( 0 , -1 )\t(2,3) : 0 .. 3\tof  7 -3 ..0  # a remark",
            "a (-0 -01) (+2 03): 00..3 of +007 -3..-0 of 0",
        ] {
            assert_eq!(read(same), plain, "{same}");
        }
    }

    #[test]
    fn what_has_another_form_is_told() {
        for (text, wanted) in [
            ("(0 0):", "a parcel begins with its name"),
            (": 0..3", "a parcel begins with its name"),
            ("a", "the end of the line stands where a corner"),
            ("a (0 0) 0..3", "`:` is missing before the heights `0..`"),
            (
                "a (0 0) -3 .. 0",
                "`:` is missing before the heights `-3..`",
            ),
            ("a (0 0) (4 0)", "`:` is missing behind the last corner"),
            ("a (0 0) 4 0) (4 3):", "`4` stands where a corner"),
            ("a 0..3", "`0` stands where a corner"),
            ("a (0 0", "a corner is not of the form"),
            ("a (0 0 0):", "a corner is not of the form"),
            ("a (0,,0):", "a corner is not of the form"),
            ("a (0 0), (1 1):", "`,` stands where a corner"),
            ("a (0 x):", "`x` is no whole number"),
            ("a (0 -):", "`-` is no whole number"),
            ("a (0 4.5):", "`4.5` is no whole number"),
            ("a (0 0x10):", "`0x10` is no whole number"),
            ("a (0 \u{663}):", "is no whole number"),
            ("a (0 2147483648):", "2147483648 does not fit in 32 bits"),
            ("a (0 -2147483649):", "does not fit in 32 bits"),
            ("a (0 0): 3", "`3` stands where heights"),
            ("a (0 0): 0..", "`0` stands where heights"),
            ("a (0 0): 0...3", "`.3` is no whole number"),
            ("a (0 0): 0..3,3..6", "`,` stands where heights"),
            ("a (0 0): :", "`:` stands where heights"),
            (
                "a (0 0): 0..3 of",
                "the end of the line stands where an object is wanted, behind `of`",
            ),
            ("a (0 0): 0..3 of of", "`of` is no object: a whole number"),
            ("a (0 0): 0..3 of flat", "`flat` is no object: a whole"),
            (
                "a (0 0): 0..3 of 65536",
                "`65536` is no object: a whole number from 0 to 65535 is wanted behind `of`",
            ),
            ("a (0 0): 0..3 of -1", "`-1` is no object: a whole number"),
            ("a (0 0): 0..3 of 9999999999", "`9999999999` is no object"),
            ("a (0 0): 0..3 of 1.5", "`1.5` is no object"),
            (
                "a (0 0): 0..3 of 3..6 of 7",
                "the object behind `of` is missing before `3..`",
            ),
            ("a (0 0): 0..3 of : 7", "`:` stands where an object"),
            ("a (0 0): 0..3 of 7 8", "`8` stands where heights"),
            ("a (0 0): of 7", "`of` stands where heights"),
            ("a (0 0) of 7: 0..3", "`of` stands where a corner"),
            ("a (0 0): 0..3of 7", "`3of` is no whole number"),
            ("a (0 0): 0..3 Of 7", "`Of` stands where heights"),
            ("a\0 (0 0):", "the character U+0000"),
            ("a\r(0 0):", "the character U+000D"),
            ("a\u{a0}(0 0):", "the character U+00A0"),
        ] {
            let told = fault(text);
            assert!(told.contains(wanted), "{text:?}: {told}");
        }
    }

    #[test]
    fn a_long_word_is_told_by_its_start() {
        let told = fault(&format!("a ({} 0):", "9".repeat(10_000)));
        assert!(told.len() < 100, "{told}");
    }
}
