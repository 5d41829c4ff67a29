//! Text of others, in characters that can be printed.

/// A text, or so many of its first characters, with what can't be printed
/// written as an escape.
pub fn clean(text: &str, most: usize) -> String {
    let mut clean = String::new();
    for (at, c) in text.chars().enumerate() {
        match c {
            _ if at == most => {
                clean.push_str("..");
                break;
            }
            '\'' | '"' | '\\' => clean.push(c),
            c => clean.extend(c.escape_debug()),
        }
    }
    clean
}

#[cfg(test)]
mod tests {
    use super::clean;

    #[test]
    fn control_characters_are_escapes() {
        assert_eq!(clean("it's \u{1b}[1m\r", 40), "it's \\u{1b}[1m\\r");
        assert_eq!(clean("abcdef", 3), "abc..");
        assert_eq!(clean("abc", 3), "abc");
    }
}
