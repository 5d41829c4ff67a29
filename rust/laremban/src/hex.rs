//! Commands written in hexadecimal, for people to read: bytes of two digits,
//! alone or several to a word, and comments from `#` to the end of the line.

use std::fmt;

/// So many characters of a word are enough to find it.
const SHOWN: usize = 40;

/// A word that is not made of bytes.
#[derive(Clone, Debug, PartialEq, Eq)]
#[non_exhaustive]
pub struct Fault {
    /// Its line, from 1.
    pub line: usize,
    /// The word, or its first forty characters.
    pub word: String,
}

impl fmt::Display for Fault {
    fn fmt(&self, f: &mut fmt::Formatter) -> fmt::Result {
        let (line, word) = (self.line, self.word.escape_debug());
        write!(
            f,
            "line {line}: `{word}` is not made of bytes in hexadecimal"
        )
    }
}

impl std::error::Error for Fault {}

/// The bytes that a text gives, or the first word that gives none.
///
/// ```
/// use laremban::hex;
///
/// assert_eq!(hex::bytes("10 02 # NEW 2"), Ok(vec![0x10, 2]));
/// assert_eq!(hex::bytes("10\n0 2").unwrap_err().line, 2);
/// ```
pub fn bytes(text: &str) -> Result<Vec<u8>, Fault> {
    let mut bytes = Vec::new();
    for (line, words) in (1..).zip(text.lines()) {
        let words = words.split('#').next().unwrap_or_default();
        for word in words.split_whitespace() {
            let more = word_bytes(word).ok_or_else(|| fault(line, word))?;
            bytes.extend(more);
        }
    }
    Ok(bytes)
}

fn fault(line: usize, word: &str) -> Fault {
    let word = word.chars().take(SHOWN).collect();
    Fault { line, word }
}

fn word_bytes(word: &str) -> Option<Vec<u8>> {
    let digits: Option<Vec<u8>> = word
        .chars()
        .map(|c| c.to_digit(16).map(|d| d as u8))
        .collect();
    let digits = digits?;
    let (pairs, rest) = digits.as_chunks::<2>();
    rest.is_empty()
        .then(|| pairs.iter().map(|[high, low]| high * 16 + low).collect())
}

#[cfg(test)]
mod tests {
    use super::bytes;

    #[test]
    fn words_and_comments() {
        assert_eq!(
            bytes("10 02 # NEW 2\n\n120000000001"),
            Ok(vec![0x10, 2, 0x12, 0, 0, 0, 0, 1])
        );
        assert_eq!(bytes(""), Ok(vec![]));
        assert_eq!(bytes("# 10"), Ok(vec![]));
        assert_eq!(bytes("fF"), Ok(vec![255]));
    }

    #[test]
    fn what_is_no_byte_is_told_with_its_line() {
        for wrong in ["1", "1g", "0x10", "10 0", "é1", "+1"] {
            let fault = bytes(&format!("10\n{wrong}")).unwrap_err();
            assert_eq!(fault.line, 2, "{fault}");
            assert!(wrong.ends_with(&fault.word), "{fault}");
        }
    }
}
