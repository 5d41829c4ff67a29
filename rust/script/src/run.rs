//! A script, run and told.

use crate::history::{History, PATIENCE};
use crate::joining::accept;
use crate::line::Line;
use crate::prose::{darts, many};
use crate::reason::reason;
use crate::reply::{accepted, end, refused};
use crate::script::Script;
use crate::show::show;
use laremban::{Command, DARTS, Ended, LiftedTables, PlanTables, Refused, Side, Sizes};
use laremban::{replies, run, sizes, text};
use std::io::{self, Write};

/// How many darts each side has room for.
#[derive(Clone, Copy, Debug, PartialEq, Eq)]
pub struct Room {
    /// The plan's capacity.
    pub plan: usize,
    /// The lifted side's capacity.
    pub lifted: usize,
}

impl Default for Room {
    /// All the room that there can be.
    fn default() -> Room {
        Room {
            plan: DARTS,
            lifted: DARTS,
        }
    }
}

/// A script that was run.
pub struct Run<'a> {
    script: &'a Script,
    room: Room,
    memory: Vec<u8>,
    ended: Ended,
    plan: PlanTables,
    lifted: LiftedTables,
    sizes: Sizes,
}

impl<'a> Run<'a> {
    /// Runs a script by the proved run, with memory for all its replies.
    pub fn new(script: &'a Script, room: Room) -> Run<'a> {
        let list = script.commands();
        let mut plan = PlanTables::new(room.plan);
        let mut lifted = LiftedTables::new(room.lifted);
        let mut memory = list.reply_memory();
        let ended = run(
            list.bytes(),
            &mut plan.lend(),
            &mut lifted.lend(),
            &mut memory,
        );
        let sizes = sizes(list.bytes(), &memory, ended);
        Run {
            script,
            room,
            memory,
            ended,
            plan,
            lifted,
            sizes,
        }
    }

    /// The four numbers of the run.
    pub fn ended(&self) -> Ended {
        self.ended
    }

    /// The map of a side as text, as the run left it: the plan with its spans, or
    /// the lifted map with its objects. Nothing where that side is blank.
    ///
    /// ```
    /// use laremban::Side;
    /// use laremban_script::{Room, Run, Script};
    ///
    /// let script = Script::read(b"NEW 1\nDART x 2\nSEW 0 0 1\nSPAN 0 0 3 7").unwrap();
    /// let run = Run::new(&script, Room::default());
    /// let plan = "laremban-plan 2 1 2\n1 0 0 0 3 7\n0 1 0 0 3 7\n";
    /// assert_eq!(run.text(Side::Plan).as_deref(), Some(plan));
    /// assert_eq!(run.text(Side::Lifted), None);
    /// ```
    pub fn text(&self, side: Side) -> Option<String> {
        let size = match side {
            Side::Plan => self.sizes.plan,
            Side::Lifted => self.sizes.lifted,
        };
        match (side, size.dimension) {
            (_, 0) => None,
            (Side::Plan, dimension) => {
                Some(text::plan::write(self.plan.map(dimension, size.count)))
            }
            (Side::Lifted, dimension) => Some(text::write(self.lifted.map(dimension, size.count))),
        }
    }

    /// Tells each line of the script with its reply, and how the run ended.
    pub fn tell(&self, out: &mut impl Write) -> io::Result<()> {
        let mut replies = replies(&self.memory, self.ended);
        let mut history = History::new(PATIENCE);
        for line in self.script.lines() {
            let told = match *line {
                Line::Command(command) => {
                    let reply = replies.next();
                    reply.map(|reply| self.reply(command, reply, &mut history))
                }
                Line::Darts(wanted) => {
                    let some = replies.by_ref().take(wanted.into());
                    Some(self.darts(wanted, some, &mut history))
                }
                Line::Show(what) => Some(show(what, &mut history)),
            };
            if let Some(told) = told {
                writeln!(out, "{line}: {told}")?;
            }
        }
        writeln!(out, "{}", end(self.ended))
    }

    /// A command's reply.
    fn reply(
        &self,
        command: Command,
        reply: Result<u16, Refused>,
        history: &mut History,
    ) -> String {
        match reply {
            Ok(value) => {
                let became = accept(command, value, history);
                accepted(command, value, became)
            }
            Err(Refused { refusal, .. }) => {
                refused(refusal, &reason(command, refusal, history, self.room))
            }
        }
    }

    /// The replies to several DARTs: once one is refused, all that follow are.
    fn darts(
        &self,
        wanted: u16,
        replies: impl Iterator<Item = Result<u16, Refused>>,
        history: &mut History,
    ) -> String {
        let (mut numbers, mut refusal) = (Vec::new(), None);
        for reply in replies {
            match reply {
                Ok(value) => {
                    history.accept(Command::Dart, value);
                    numbers.push(usize::from(value));
                }
                Err(met) => refusal = Some(met.refusal),
            }
        }
        let made = match numbers.as_slice() {
            [] => None,
            [first, .., last] => Some(darts(*first, *last)),
            [one] => Some(darts(*one, *one)),
        };
        let rest = refusal.map(|met| {
            let times = many(usize::from(wanted) - numbers.len(), "time");
            let why = reason(Command::Dart, met, history, self.room);
            format!("refused by {} ({times}): {why}", met.number())
        });
        let parts: Vec<String> = made.into_iter().chain(rest).collect();
        parts.join(", then ")
    }
}
