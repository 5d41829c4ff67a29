//! `mark`: runs a program on drawn sheets, and holds what it writes against the
//! proved code.
#![forbid(unsafe_code)]

use laremban_mark::exercise::Exercise;
use laremban_mark::lifting::Lifting;
use laremban_mark::marking::{Progress, mark};
use laremban_mark::options::{Asked, Marked, Options};
use laremban_mark::program::Program;
use laremban_mark::replying::Replying;
use laremban_mark::report::report;
use laremban_mark::starting::not_started;
use std::io::{self, ErrorKind, IsTerminal, Write};
use std::process::ExitCode;
use std::time::{Duration, Instant};

const HELP: &str =
    "mark [--sheets N] [--seed S] [--dimension M] [--lift | --replies] PROGRAM [ARGUMENTS]
Runs a program on drawn sheets, and holds what it writes against the proved lifter.
  --lift         the program reads a plan as text and writes its lift as text; so it is
                 where nothing is said
  --replies      it reads the bytes of a list of commands, and prints as liftrun does
  --sheets N     so many sheets, 200 if nothing is said
  --seed S       other sheets for each seed, 1 if nothing is said
  --dimension M  plans of that dimension alone, 1 to 4
  --seconds N    how long the program may take for one sheet, 10 if nothing is said
  --version      tells which version it is
Printed: how many sheets of each dimension are right; and of the first wrong one the smallest
sheet found that is still wrong, as a script, with what differs.
Exit status: 0 all are right, 1 some are wrong, 2 the program can't be started or the words are
wrong. docs/FORMATS.md has both formats.
";

const VERSION: &str = concat!("mark (Laremban ", env!("CARGO_PKG_VERSION"), ")\n");

/// Some sheets are wrong, or what is told could not be written.
const WRONG: u8 = 1;
/// The words are wrong, or the program can't be started.
const FAILED: u8 = 2;

/// How far it is is told after so long, and again each time.
const TOLD_EACH: Duration = Duration::from_secs(2);

/// A line on standard error, if anybody can read it.
fn tell(told: &str) {
    let _ = writeln!(io::stderr(), "mark: {told}");
}

/// Writes to standard output. Where nobody reads on, that is no failure.
fn print(text: &str, status: u8) -> ExitCode {
    let mut out = io::stdout().lock();
    match out.write_all(text.as_bytes()).and_then(|()| out.flush()) {
        Err(error) if error.kind() != ErrorKind::BrokenPipe => {
            tell(&format!("standard output: {error}"));
            WRONG.into()
        }
        _ => status.into(),
    }
}

/// Tells how far it is, where somebody sits before it.
fn progress(sheets: usize) -> impl FnMut(Progress) {
    let (seen, mut last) = (io::stderr().is_terminal(), Instant::now());
    move |far| {
        let told = match far {
            _ if !seen => return,
            Progress::FirstFound(at, told) => {
                let first = told.first().map_or("", String::as_str);
                tell(&format!("sheet {} is wrong: {first}", at + 1));
                return;
            }
            _ if last.elapsed() < TOLD_EACH => return,
            Progress::Done(done, wrong) => format!("{done} of {sheets} sheets, {wrong} wrong"),
            Progress::Smaller(tries) => format!("{tries} smaller sheets tried"),
        };
        last = Instant::now();
        tell(&told);
    }
}

fn marked<E: Exercise>(exercise: &E, marked: &Marked) -> io::Result<ExitCode> {
    let program = Program {
        name: marked.program.clone(),
        arguments: marked.arguments.clone(),
        limit: marked.limit,
    };
    let marks = mark(
        exercise,
        &program,
        marked.plan,
        progress(marked.plan.sheets),
    )?;
    let status = if marks.all_right() { 0 } else { WRONG };
    Ok(print(&report(exercise, marked.plan, &marks), status))
}

fn main() -> ExitCode {
    let told = match Options::read(std::env::args_os().skip(1)) {
        Ok(Options::Help) => return print(HELP, 0),
        Ok(Options::Version) => return print(VERSION, 0),
        Ok(Options::Mark(words)) => {
            let ended = match words.asked {
                Asked::Lift => marked(&Lifting, &words),
                Asked::Replies => marked(&Replying, &words),
            };
            match ended {
                Ok(code) => return code,
                Err(error) => not_started(&words.program, &error),
            }
        }
        Err(told) => told,
    };
    tell(&told);
    FAILED.into()
}
