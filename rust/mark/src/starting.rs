//! Why a program can't be started, and what may be meant instead.

use crate::clean::clean;
use std::ffi::OsStr;
use std::fs::File;
use std::io::{self, ErrorKind, Read};
use std::path::Path;

/// So many characters of a first line are told.
const SHOWN: usize = 80;
/// So much of a file is read for it.
const MOST_READ: u64 = 512;
/// What the system says of a file that is no program: `ENOEXEC`, which Rust has
/// no kind for.
const NO_FORMAT: Option<i32> = Some(8);

/// What is told where a program could not be started.
pub fn not_started(program: &OsStr, error: &io::Error) -> String {
    let (file, name) = (Path::new(program), program.to_string_lossy());
    let by_path = name.contains('/');
    let name = name.escape_debug();
    let kind = error.kind();
    // A name without a slash is looked for elsewhere first.
    let folder = file.is_dir() && (by_path || kind == ErrorKind::NotFound);
    let why = match kind {
        _ if folder => "it is a folder".to_string(),
        ErrorKind::NotFound if file.exists() && !by_path => {
            format!("{error}; in this folder there is ./{name}")
        }
        ErrorKind::NotFound => match called_by(file) {
            Some(line) => {
                format!("the file is there, but not the program of its first line, `{line}`")
            }
            None => error.to_string(),
        },
        ErrorKind::PermissionDenied => format!("{error}; chmod +x makes a file a program"),
        _ if error.raw_os_error() == NO_FORMAT => format!(
            "{error}; a script needs #! and its language in its first line, \
             or to be called by it: tools/mark python3 lifter.py"
        ),
        _ => error.to_string(),
    };
    format!("{name}: the program can't be started: {why}")
}

/// The first line of a script, where it names the program that runs it.
fn called_by(file: &Path) -> Option<String> {
    let mut bytes = Vec::new();
    let opened = File::open(file).ok()?;
    opened.take(MOST_READ).read_to_end(&mut bytes).ok()?;
    let line = bytes.split(|&byte| byte == b'\n').next()?;
    let line = line.starts_with(b"#!").then_some(line)?;
    // A carriage return is shown: it is part of the name that is not found.
    Some(clean(&String::from_utf8_lossy(line), SHOWN))
}
