//! Somebody who ends a program with all that it started: when its time is over,
//! when it has ended itself, and where the marker is ended before it, as by
//! Ctrl-C.
//!
//! To signal a process group is no part of Rust's library, and a program that is
//! ended can't end others. So a shell does both: it leads a group that the program
//! joins, and where the pipe that it reads ends, it ends its own group. The number
//! of the group is the shell's until the shell is reaped: no other group is hit.

use std::io;
use std::process::{Child, Command, Stdio};
use std::thread;
use std::time::{Duration, Instant};

/// What the shell does. A program that signals its own group is no reason to stop
/// watching it.
const WORK: &str = "trap '' HUP INT QUIT TERM
read -r line
kill -s KILL 0";

/// So long is waited for the shell: a program can stop it, as by `kill -STOP 0`.
const PATIENCE: Duration = Duration::from_secs(1);
/// How often it is looked whether it has ended.
const LOOK: Duration = Duration::from_micros(100);

/// The shell. All in its group ends where this is dropped.
pub struct Watch {
    shell: Child,
}

impl Watch {
    /// Begins to watch.
    pub fn new() -> io::Result<Watch> {
        let mut command = Command::new("/bin/sh");
        command.args(["-c", WORK]).stdin(Stdio::piped());
        command.stdout(Stdio::null()).stderr(Stdio::null());
        join(&mut command, 0);
        let shell = command.spawn()?;
        Ok(Watch { shell })
    }

    /// A program that is about to be started is watched.
    pub fn over(&self, command: &mut Command) {
        join(command, self.shell.id());
    }
}

impl Drop for Watch {
    fn drop(&mut self) {
        drop(self.shell.stdin.take());
        let until = Instant::now() + PATIENCE;
        while let Ok(None) = self.shell.try_wait() {
            if Instant::now() > until {
                let _ = self.shell.kill();
                let _ = self.shell.wait();
                return;
            }
            thread::sleep(LOOK);
        }
    }
}

/// What is about to be started joins a process group, or its own by 0.
#[cfg(unix)]
fn join(command: &mut Command, group: u32) {
    use std::os::unix::process::CommandExt;
    command.process_group(group as i32);
}

/// Elsewhere there are none.
#[cfg(not(unix))]
fn join(_: &mut Command, _: u32) {}
