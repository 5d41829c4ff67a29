//! `liftrun`: runs commands in the program's room, and prints the replies and
//! how the run ended. The commands are the bytes of standard input, or stand in
//! hexadecimal in the file that is named.

use laremban::{PROGRAM_BYTES, hex, liftrun};
use std::ffi::OsString;
use std::fs::File;
use std::io::{self, Read, Write};
use std::path::Path;
use std::process::ExitCode;

const HELP: &str =
    "liftrun FILE: runs the commands that a file has in hexadecimal; # starts a comment
liftrun: runs the bytes of standard input, which are not hexadecimal text
Printed: a line `number value` for each command, 0 where it is accepted, and `end` with the
number that the run ended by and how many commands were taken, accepted and refused.
liftrun --version: tells which version it is
";

const VERSION: &str = concat!("liftrun (Laremban ", env!("CARGO_PKG_VERSION"), ")\n");

/// The longest text of commands that is read, in bytes.
const MOST_TEXT: u64 = 1 << 20;

/// The input, or as much of it as shows that it is too long to be run.
fn input() -> Result<Vec<u8>, String> {
    let mut bytes = Vec::new();
    let most = PROGRAM_BYTES as u64 + 1;
    let read = io::stdin().lock().take(most).read_to_end(&mut bytes);
    read.map(|_| bytes)
        .map_err(|error| format!("standard input: {error}"))
}

/// The commands that a file has in hexadecimal. Comments may hold any bytes, and
/// a byte-order mark may stand in front.
fn written(file: &Path) -> Result<Vec<u8>, String> {
    let told = |what: String| format!("{}: {what}", file.display());
    let mut bytes = Vec::new();
    let opened = File::open(file).map_err(|error| told(error.to_string()))?;
    let read = opened.take(MOST_TEXT + 1).read_to_end(&mut bytes);
    read.map_err(|error| told(error.to_string()))?;
    if bytes.len() as u64 > MOST_TEXT {
        return Err(told(format!("more than {MOST_TEXT} bytes")));
    }
    let text = String::from_utf8_lossy(&bytes);
    let text = text.strip_prefix('\u{feff}').unwrap_or(&text);
    hex::bytes(text).map_err(|fault| told(fault.to_string()))
}

fn print(text: &str) -> Result<(), String> {
    let mut out = io::stdout().lock();
    let printed = out.write_all(text.as_bytes()).and_then(|()| out.flush());
    printed.map_err(|error| format!("standard output: {error}"))
}

fn run() -> Result<(), String> {
    let files: Vec<OsString> = std::env::args_os().skip(1).collect();
    let bytes = match files.as_slice() {
        [] => input()?,
        [word] if word == "--help" || word == "-h" => return print(HELP),
        [word] if word == "--version" => return print(VERSION),
        [file] => written(file.as_ref())?,
        _ => return Err("one file of commands, or none".to_string()),
    };
    print(&liftrun(&bytes))
}

fn main() -> ExitCode {
    match run() {
        Ok(()) => ExitCode::SUCCESS,
        Err(told) => {
            // Where standard error can't be written either, the status has to do.
            let _ = writeln!(io::stderr(), "liftrun: {told}");
            ExitCode::FAILURE
        }
    }
}
