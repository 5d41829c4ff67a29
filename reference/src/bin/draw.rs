//! `draw [SEED]` prints the cases of a seed (1 when none is given), one a
//! line, and on standard error what they reach and what they lack.

use reference::{cases, draw, tally};
use std::io::{self, BufWriter, Write};
use std::process::ExitCode;

/// Prints every case; a closed pipe simply ends the printing.
fn print(drawn: &[cases::Case]) -> io::Result<()> {
    let mut out = BufWriter::new(io::stdout().lock());
    for case in drawn {
        writeln!(out, "{}", cases::write(case))?;
    }
    out.flush()
}

/// Draws, prints, and fails when the cases lack something.
fn main() -> ExitCode {
    let seed = match std::env::args().nth(1) {
        None => 1,
        Some(word) => match word.parse() {
            Ok(seed) => seed,
            Err(_) => {
                eprintln!("usage: draw [SEED], where SEED is a whole number");
                return ExitCode::FAILURE;
            }
        },
    };
    let drawn = draw::draw(seed);
    if print(&drawn).is_err() {
        return ExitCode::FAILURE;
    }
    let found = tally::tally(&drawn);
    eprint!("{found}");
    let lacking = found.enforce();
    for lack in &lacking {
        eprintln!("lacking {lack}");
    }
    if lacking.is_empty() {
        ExitCode::SUCCESS
    } else {
        ExitCode::FAILURE
    }
}
