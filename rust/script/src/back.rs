//! Bytes turned back to words.

use crate::line::Line;
use crate::prose::many;
use laremban::{Command, decode};

/// So many of the bytes that can't be read are told.
const SHOWN: usize = 32;

/// The script whose bytes these are, up to a command that can't be read: what is
/// left from there on is told in a comment.
///
/// ```
/// use laremban_script::words_of_bytes;
///
/// assert_eq!(words_of_bytes(&[0x10, 2, 0x11, 0x11]), "NEW 2\nDART x 2\n");
/// let span = [0x1a, 0, 0, 0, 0, 0, 0, 0, 0, 0, 3, 0, 7];
/// assert_eq!(words_of_bytes(&span), "SPAN 0 0 3 7\n");
/// assert_eq!(
///     words_of_bytes(&[0x17, 0x13, 0]),
///     "LIFT\n# byte 1: the bytes end before the command's operands do; 2 bytes are left: 13 00\n"
/// );
/// ```
pub fn words_of_bytes(bytes: &[u8]) -> String {
    let (mut told, mut darts, mut at) = (String::new(), 0, 0);
    while at < bytes.len() {
        let read = decode(bytes, at);
        if read.command != Ok(Command::Dart) || darts == u16::MAX {
            put_darts(&mut told, &mut darts);
        }
        match read.command {
            Ok(Command::Dart) => darts += 1,
            Ok(command) => put(&mut told, Line::Command(command)),
            Err(refused) => {
                let (why, left) = (refused.refusal, rest(&bytes[at..]));
                told.push_str(&format!("# byte {at}: {why}; {left}\n"));
            }
        }
        at = read.next;
    }
    put_darts(&mut told, &mut darts);
    told
}

fn put(told: &mut String, line: Line) {
    told.push_str(&format!("{line}\n"));
}

/// Writes the darts that were met in a row, and none are left to be written.
fn put_darts(told: &mut String, darts: &mut u16) {
    match std::mem::take(darts) {
        0 => {}
        1 => put(told, Line::Command(Command::Dart)),
        several => put(told, Line::Darts(several)),
    }
}

/// The bytes that are left, or the first of them.
fn rest(left: &[u8]) -> String {
    let shown = left.iter().take(SHOWN).map(|byte| format!("{byte:02x}"));
    let shown: Vec<String> = shown.collect();
    let are = if left.len() == 1 { "is" } else { "are" };
    let more = match left.len().saturating_sub(SHOWN) {
        0 => String::new(),
        more => format!(" and {more} more"),
    };
    let number = many(left.len(), "byte");
    format!("{number} {are} left: {}{more}", shown.join(" "))
}
