//! What the program prints.

use crate::run::run;
use crate::widths::*;

/// The program's whole output for an input: `long` alone when the input is too
/// long to be run, else a line for each reply and a last line with the four
/// numbers. Every line ends with one newline.
pub fn printed(bytes: &[u8]) -> String {
    if bytes.len() > PROGRAM_BYTES {
        return "long\n".to_string();
    }
    let ended = run(bytes, PROGRAM_PLAN, PROGRAM_LIFTED, PROGRAM_REPLY);
    let mut text = String::new();
    for reply in &ended.replies {
        text.push_str(&format!("{} {}\n", reply.number, reply.value));
    }
    text.push_str(&format!(
        "end {} {} {} {}\n",
        ended.number, ended.taken, ended.accepted, ended.refused
    ));
    text
}
