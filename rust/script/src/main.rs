//! `script`: runs a list of commands that is written in words, and tells each
//! reply in words; or turns words to bytes, and bytes to words.
#![forbid(unsafe_code)]

mod options;

use laremban::{Refusal, Side};
use laremban_script::{Faults, Run, Script, words_of_bytes};
use options::{HELP, Job, Options, VERSION};
use std::fs::File;
use std::io::{self, BufWriter, ErrorKind, IsTerminal, Read, Write};
use std::process::ExitCode;

/// No input is longer than this.
const MOST_BYTES: u64 = 1 << 26;

/// A command was refused, and that was asked for.
const REFUSED: u8 = 1;
/// Nothing was run, or what was told could not be written.
const FAILED: u8 = 2;

/// What is told on standard error, a line each.
type Failure = Vec<String>;

/// Where the words or bytes come from, as errors name it.
fn source(options: &Options) -> String {
    match &options.file {
        Some(file) => file.display().to_string(),
        None => "standard input".to_string(),
    }
}

/// The whole input. What does not end is not read to its end.
fn input(options: &Options) -> Result<Vec<u8>, Failure> {
    let read = match &options.file {
        Some(file) => File::open(file).and_then(limited),
        None => {
            if io::stdin().is_terminal() {
                tell(awaited(options.job));
            }
            limited(io::stdin().lock())
        }
    };
    let told = match read {
        Ok(bytes) if bytes.len() as u64 <= MOST_BYTES => return Ok(bytes),
        Ok(_) => format!("more than {MOST_BYTES} bytes"),
        Err(error) => error.to_string(),
    };
    Err(vec![format!("{}: {told}", source(options))])
}

/// What is read where nobody named a file, for those who sit before it.
fn awaited(job: Job) -> &'static str {
    match job {
        Job::Words => "reads bytes from this terminal, up to Ctrl-D; --help tells more",
        _ => "reads commands from this terminal, a line each, up to Ctrl-D; --help tells them",
    }
}

/// So many bytes as are read at most, and one more where there are more.
fn limited(from: impl Read) -> io::Result<Vec<u8>> {
    let mut bytes = Vec::new();
    from.take(MOST_BYTES + 1).read_to_end(&mut bytes)?;
    Ok(bytes)
}

fn read(options: &Options) -> Result<Script, Failure> {
    let bytes = input(options)?;
    Script::read(&bytes).map_err(|faults| unreadable(&source(options), &faults))
}

/// The first lines that can't be read, and how many more there are.
fn unreadable(source: &str, faults: &Faults) -> Failure {
    let first = faults.first.iter();
    let mut told: Failure = first.map(|fault| format!("{source}:{fault}")).collect();
    match faults.more {
        0 => {}
        1 => told.push(format!("{source}: 1 more line can't be read")),
        more => told.push(format!("{source}: {more} more lines can't be read")),
    }
    told
}

/// Writes to standard output. Where nobody reads on, that is no failure.
fn print(write: impl FnOnce(&mut dyn Write) -> io::Result<()>) -> Result<(), Failure> {
    let mut out = BufWriter::new(io::stdout().lock());
    match write(&mut out).and_then(|()| out.flush()) {
        Err(error) if error.kind() != ErrorKind::BrokenPipe => {
            Err(vec![format!("standard output: {error}")])
        }
        _ => Ok(()),
    }
}

/// A script in another form. What it shows has no bytes.
fn turned(options: &Options, form: fn(&Script) -> Vec<u8>) -> Result<(), Failure> {
    let script = read(options)?;
    match script.count_shows() {
        0 => {}
        1 => tell("1 SHOW line is left out: it is no command"),
        shows => tell(&format!(
            "{shows} SHOW lines are left out: they are no commands"
        )),
    }
    print(|out| out.write_all(&form(&script)))
}

fn ran(options: &Options) -> Result<ExitCode, Failure> {
    let script = read(options)?;
    let run = Run::new(&script, options.room);
    print(|mut out| run.tell(&mut out))?;
    Ok(status(options, &run))
}

/// The map of a side that the commands leave. Their replies are not told, so
/// that it is said where some were refused.
fn written(options: &Options, side: Side) -> Result<ExitCode, Failure> {
    let script = read(options)?;
    let run = Run::new(&script, options.room);
    let blank = match side {
        Side::Plan => Refusal::NoPlan,
        Side::Lifted => Refusal::NothingLifted,
    };
    match run.ended().refused {
        0 => {}
        1 => tell("1 command was refused"),
        refused => tell(&format!("{refused} commands were refused")),
    }
    let text = run.text(side);
    let text = text.ok_or_else(|| vec![format!("{}: {blank}", source(options))])?;
    print(|out| out.write_all(text.as_bytes()))?;
    Ok(status(options, &run))
}

/// What a run that was told ends with.
fn status(options: &Options, run: &Run) -> ExitCode {
    match options.strict && run.ended().refused > 0 {
        true => REFUSED.into(),
        false => ExitCode::SUCCESS,
    }
}

fn run() -> Result<ExitCode, Failure> {
    let options = Options::read(std::env::args_os().skip(1)).map_err(|told| vec![told])?;
    match options.job {
        Job::Run => return ran(&options),
        Job::Text(side) => return written(&options, side),
        Job::Bytes => turned(&options, |script| script.commands().bytes().to_vec())?,
        Job::Hex => turned(&options, |script| script.hex().into_bytes())?,
        Job::Words => {
            let words = words_of_bytes(&input(&options)?);
            print(|out| out.write_all(words.as_bytes()))?;
        }
        Job::Help => print(|out| out.write_all(HELP.as_bytes()))?,
        Job::Version => print(|out| out.write_all(VERSION.as_bytes()))?,
    }
    Ok(ExitCode::SUCCESS)
}

/// A line on standard error, if anybody can read it.
fn tell(told: &str) {
    let _ = writeln!(io::stderr(), "script: {told}");
}

fn main() -> ExitCode {
    run().unwrap_or_else(|failure| {
        failure.iter().for_each(|told| tell(told));
        FAILED.into()
    })
}
