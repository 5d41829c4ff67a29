//! Lines of `key=value` words: the small writer and reader under `cases`.

use crate::map::{Dart, Map, Span};
use crate::step::Reply;
use crate::widths::PER_SPAN;
use std::collections::BTreeMap;
use std::fmt::Display;
use std::str::FromStr;

/// A line under construction: a kind's word, then words `key=value`.
pub struct Line(String);

impl Line {
    /// Starts a line with the kind's word.
    pub fn new(kind: &str) -> Line {
        Line(kind.to_string())
    }

    /// Adds one word.
    pub fn put(mut self, key: &str, value: impl Display) -> Line {
        self.0.push_str(&format!(" {key}={value}"));
        self
    }

    /// Adds a list of numbers, separated by commas.
    pub fn list<T: Display>(self, key: &str, values: &[T]) -> Line {
        let words: Vec<String> = values.iter().map(T::to_string).collect();
        self.put(key, words.join(","))
    }

    /// Adds bytes as hexadecimal digits without spaces.
    pub fn hex(self, key: &str, bytes: &[u8]) -> Line {
        let digits: Vec<String> = bytes.iter().map(|b| format!("{b:02x}")).collect();
        self.put(key, digits.concat())
    }

    /// Adds replies as number, value, number, value and so on.
    pub fn replies(self, key: &str, replies: &[Reply]) -> Line {
        let pair = |r: &Reply| [u32::from(r.number), r.value.into()];
        let flat: Vec<u32> = replies.iter().flat_map(pair).collect();
        self.list(key, &flat)
    }

    /// Adds a map under a prefix: dimension, count, links, places and rows.
    pub fn map(self, prefix: &str, map: &Map) -> Line {
        let links: Vec<usize> = map.darts.iter().flat_map(|d| d.links.clone()).collect();
        let places: Vec<i32> = map.darts.iter().flat_map(|d| d.place.clone()).collect();
        let mut rows = Vec::new();
        for dart in &map.darts {
            rows.push(dart.row.len() as i32);
            let numbers = |s: &Span| [s.lo, s.hi, s.object.into()];
            rows.extend(dart.row.iter().flat_map(numbers));
        }
        self.put(&format!("{prefix}.dim"), map.dim)
            .put(&format!("{prefix}.count"), map.count())
            .list(&format!("{prefix}.links"), &links)
            .list(&format!("{prefix}.places"), &places)
            .list(&format!("{prefix}.rows"), &rows)
    }

    /// The finished line, without a newline.
    pub fn done(self) -> String {
        self.0
    }
}

/// The words of a line. Each is taken once; what is left over is an error.
pub struct Words<'a> {
    pub kind: &'a str,
    values: BTreeMap<&'a str, &'a str>,
}

impl<'a> Words<'a> {
    /// Splits a line into its kind and its words.
    pub fn split(line: &'a str) -> Result<Words<'a>, String> {
        let mut words = line.trim_end_matches(['\n', '\r']).split(' ');
        let kind = words.next().unwrap_or("");
        let mut values = BTreeMap::new();
        for word in words {
            let (key, value) = word
                .split_once('=')
                .ok_or(format!("the word '{word}' has no '='"))?;
            if values.insert(key, value).is_some() {
                return Err(format!("the key '{key}' stands twice"));
            }
        }
        Ok(Words { kind, values })
    }

    /// Takes the word of a key.
    fn take(&mut self, key: &str) -> Result<&'a str, String> {
        let found = self.values.remove(key);
        found.ok_or(format!("'{}' lacks the key '{key}'", self.kind))
    }

    /// Takes one number.
    pub fn number<T: FromStr>(&mut self, key: &str) -> Result<T, String> {
        number(key, self.take(key)?)
    }

    /// Takes a list of numbers; an empty word is an empty list.
    pub fn list<T: FromStr>(&mut self, key: &str) -> Result<Vec<T>, String> {
        let value = self.take(key)?;
        if value.is_empty() {
            return Ok(Vec::new());
        }
        value.split(',').map(|word| number(key, word)).collect()
    }

    /// Takes bytes written as hexadecimal digits.
    pub fn hex(&mut self, key: &str) -> Result<Vec<u8>, String> {
        let value = self.take(key)?;
        let wrong = || format!("'{key}' is not an even number of hexadecimal digits");
        if !value.len().is_multiple_of(2) || !value.bytes().all(|b| b.is_ascii_hexdigit()) {
            return Err(wrong());
        }
        (0..value.len() / 2)
            .map(|at| u8::from_str_radix(&value[2 * at..2 * at + 2], 16).map_err(|_| wrong()))
            .collect()
    }

    /// Takes replies.
    pub fn replies(&mut self, key: &str) -> Result<Vec<Reply>, String> {
        let flat: Vec<u16> = self.list(key)?;
        if !flat.len().is_multiple_of(2) {
            return Err(format!("'{key}' has a number without its value"));
        }
        let reply = |pair: &[u16]| {
            let number = u8::try_from(pair[0]).map_err(|_| format!("'{key}': {}", pair[0]))?;
            Ok(Reply {
                number,
                value: pair[1],
            })
        };
        flat.chunks_exact(2).map(reply).collect()
    }

    /// Takes a map written under a prefix.
    pub fn map(&mut self, prefix: &str) -> Result<Map, String> {
        let dim: usize = self.number(&format!("{prefix}.dim"))?;
        let count: usize = self.number(&format!("{prefix}.count"))?;
        let links: Vec<usize> = self.list(&format!("{prefix}.links"))?;
        let places: Vec<i32> = self.list(&format!("{prefix}.places"))?;
        let rows: Vec<i32> = self.list(&format!("{prefix}.rows"))?;
        let rows = split_rows(prefix, &rows)?;
        let enough = |length: usize, width: usize| count.checked_mul(width) == Some(length);
        let wide = dim.checked_add(1).is_some_and(|w| enough(links.len(), w));
        if !wide || !enough(places.len(), dim) || rows.len() != count {
            return Err(format!(
                "'{prefix}' needs {count} darts of dimension {dim} in links, places and rows"
            ));
        }
        let dart = |(d, row): (usize, Vec<Span>)| Dart {
            links: links[d * (dim + 1)..][..dim + 1].to_vec(),
            place: places[d * dim..][..dim].to_vec(),
            row,
        };
        let darts = rows.into_iter().enumerate().map(dart).collect();
        Ok(Map { dim, darts })
    }

    /// Ends the reading: a word nobody asked for is an error.
    pub fn done(self) -> Result<(), String> {
        match self.values.keys().next() {
            None => Ok(()),
            Some(key) => Err(format!("'{}' has no key '{key}'", self.kind)),
        }
    }
}

/// One decimal number.
fn number<T: FromStr>(key: &str, word: &str) -> Result<T, String> {
    let wrong = format!("'{key}': '{word}' is not a number that fits");
    word.parse().map_err(|_| wrong)
}

/// Splits `count,lo,hi,object,..,count,..` into rows.
fn split_rows(prefix: &str, flat: &[i32]) -> Result<Vec<Vec<Span>>, String> {
    let wrong = || format!("'{prefix}.rows' ends inside a row or has a negative count");
    let span = |n: &[i32]| {
        let (lo, hi) = (n[0], n[1]);
        let object = u16::try_from(n[2]);
        let object = object.map_err(|_| format!("'{prefix}.rows': no object is {}", n[2]))?;
        Ok(Span { lo, hi, object })
    };
    let mut rows = Vec::new();
    let mut rest = flat;
    while let Some((&held, behind)) = rest.split_first() {
        let numbers = usize::try_from(held).map_err(|_| wrong())?;
        let numbers = numbers.checked_mul(PER_SPAN).ok_or_else(wrong)?;
        if behind.len() < numbers {
            return Err(wrong());
        }
        let (own, others) = behind.split_at(numbers);
        let row: Result<_, String> = own.chunks_exact(PER_SPAN).map(span).collect();
        rows.push(row?);
        rest = others;
    }
    Ok(rows)
}
