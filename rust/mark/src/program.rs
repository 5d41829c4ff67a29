//! The program that is marked: run on an input, within a time, whatever it does.

use crate::clean::clean;
use crate::watch::Watch;
use std::ffi::OsString;
use std::fmt;
use std::io::{self, Read, Write};
use std::process::{Child, Command, ExitStatus, Stdio};
use std::sync::mpsc::{Receiver, channel};
use std::thread;
use std::time::{Duration, Instant};

/// So much of what a program writes to standard error is looked at.
const MOST_TOLD: usize = 4_096;
/// So many characters of it are told.
const SHOWN: usize = 200;
/// After a program was ended, so long is waited for what it wrote.
const AFTERWARDS: Duration = Duration::from_secs(1);
/// How often it is looked whether a program has ended that writes no more.
const LOOK: Duration = Duration::from_micros(200);

/// A program with its arguments.
pub struct Program {
    /// The name, as it was given.
    pub name: OsString,
    /// What stands behind it.
    pub arguments: Vec<OsString>,
    /// How long one run may take.
    pub limit: Duration,
}

/// Why a run counts as wrong, whatever was written.
#[derive(Clone, Debug, PartialEq, Eq)]
pub enum Failure {
    /// It ended with a status other than 0; and lines of what it told.
    Status(i32, Vec<String>),
    /// It was ended by a signal, or in another way that has no status.
    Signal(String, Vec<String>),
    /// It did not end in time.
    Hangs(Duration),
    /// It ended, but something that it started kept its output open all that time.
    Held(Duration),
    /// It wrote more than so many bytes, and no right answer is so long.
    Endless(usize),
}

impl fmt::Display for Failure {
    fn fmt(&self, f: &mut fmt::Formatter) -> fmt::Result {
        match self {
            Failure::Status(status, _) => write!(f, "the program ended with status {status}"),
            Failure::Signal(how, _) => write!(f, "the program crashed: {how}"),
            Failure::Hangs(limit) => {
                let seconds = limit.as_secs();
                write!(f, "the program did not end within {seconds} s (--seconds)")
            }
            Failure::Held(limit) => {
                let seconds = limit.as_secs();
                write!(
                    f,
                    "the program ended, but something that it started held its "
                )?;
                write!(f, "output for {seconds} s (--seconds)")
            }
            Failure::Endless(most) => {
                write!(f, "the program wrote more than {most} bytes, and was ended")
            }
        }
    }
}

impl Failure {
    /// What is told of it, a line each.
    pub fn lines(&self) -> Vec<String> {
        let told = match self {
            Failure::Status(_, told) | Failure::Signal(_, told) => &told[..],
            Failure::Hangs(_) | Failure::Held(_) | Failure::Endless(_) => &[],
        };
        let told = told.iter().map(|line| format!("standard error: {line}"));
        [self.to_string()].into_iter().chain(told).collect()
    }
}

/// What comes of a pipe: its bytes, as far as they are wanted, and whether there
/// were more.
struct Heard {
    bytes: Vec<u8>,
    more: bool,
}

impl Program {
    /// Runs it on an input. What it wrote, at most so many bytes; or why it
    /// failed. An error is one of starting it.
    pub fn run(&self, input: Vec<u8>, most: usize) -> io::Result<Result<Vec<u8>, Failure>> {
        let mut command = Command::new(&self.name);
        command.args(&self.arguments);
        command.stdin(Stdio::piped()).stdout(Stdio::piped());
        command.stderr(Stdio::piped());
        let watch = Watch::new()?;
        watch.over(&mut command);
        let until = Instant::now() + self.limit;
        let mut child = command.spawn()?;
        feed(&mut child, input);
        let written = hear(child.stdout.take(), most);
        let told = hear(child.stderr.take(), MOST_TOLD);
        let ended = self.wait(&mut child, &written, most, until);
        // All that it started ends now, and so does the program where it still runs.
        drop(watch);
        let status = match ended {
            Ok((status, heard)) if status.success() => return Ok(Ok(heard)),
            Ok((status, _)) => status,
            Err(failure) => {
                let _ = child.kill();
                let _ = child.wait();
                return Ok(Err(failure));
            }
        };
        let told = told.recv_timeout(AFTERWARDS).map(|heard| heard.bytes);
        Ok(Err(failed(status, &told.unwrap_or_default())))
    }

    /// Waits until it has ended and all is read, or is to be ended.
    fn wait(
        &self,
        child: &mut Child,
        written: &Receiver<Heard>,
        most: usize,
        until: Instant,
    ) -> Result<(ExitStatus, Vec<u8>), Failure> {
        let left = || until.saturating_duration_since(Instant::now());
        let heard = written.recv_timeout(left());
        let failure = match &heard {
            Ok(heard) if heard.more => Failure::Endless(most),
            Err(_) if matches!(child.try_wait(), Ok(Some(_))) => Failure::Held(self.limit),
            _ => Failure::Hangs(self.limit),
        };
        if let Ok(Heard { bytes, more: false }) = heard {
            loop {
                match child.try_wait() {
                    Ok(Some(status)) => return Ok((status, bytes)),
                    Ok(None) if !left().is_zero() => thread::sleep(LOOK),
                    _ => break,
                }
            }
        }
        Err(failure)
    }
}

/// Writes the input beside all else. A program that does not read it to its end
/// is no failure.
fn feed(child: &mut Child, input: Vec<u8>) {
    if let Some(mut pipe) = child.stdin.take() {
        thread::spawn(move || pipe.write_all(&input));
    }
}

/// Reads a pipe beside all else: to its end, or to where it is too much.
fn hear(pipe: Option<impl Read + Send + 'static>, most: usize) -> Receiver<Heard> {
    let (send, heard) = channel();
    thread::spawn(move || {
        let mut bytes = Vec::new();
        if let Some(pipe) = pipe {
            let mut pipe = pipe.take(most as u64 + 1);
            let _ = pipe.read_to_end(&mut bytes);
            let more = bytes.len() > most;
            let _ = send.send(Heard { bytes, more });
            // What comes on is read and forgotten, so that the program can go on.
            let _ = io::copy(&mut pipe.into_inner(), &mut io::sink());
        }
    });
    heard
}

/// A status that is not 0.
fn failed(status: ExitStatus, told: &[u8]) -> Failure {
    let told = shown(told);
    match status.code() {
        Some(code) => Failure::Status(code, told),
        None => Failure::Signal(status.to_string(), told),
    }
}

/// The first two lines with something in them, and the last one, where most
/// languages tell what went wrong.
fn shown(told: &[u8]) -> Vec<String> {
    let told = String::from_utf8_lossy(told);
    let lines = told.lines().filter(|line| !line.trim().is_empty());
    let mut lines: Vec<String> = lines.map(|line| clean(line.trim_end(), SHOWN)).collect();
    let last = lines.len().saturating_sub(1);
    lines.drain(2.min(last)..last);
    lines
}
