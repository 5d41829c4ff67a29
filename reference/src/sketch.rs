//! A run under construction: bytes, and the run on paper as far as it got, so
//! that the next command can be chosen by the maps it would meet.

use crate::command::{Command, write};
use crate::lift::Lifted;
use crate::random::Random;
use crate::refusal::REPLIES_FULL;
use crate::step::{Next, Paper, Room, carry_out, step};

/// The most darts a drawn plan has; a slow evaluator has to follow.
pub const PLAN_DARTS: usize = 10;
/// The most darts a drawn lifted map has.
pub const LIFTED_DARTS: usize = 48;
/// The most commands a drawn run has.
pub const COMMANDS: usize = 24;

/// How large a drawn run may get: the darts of both sides, and its commands.
#[derive(Clone, Copy, Debug, PartialEq, Eq)]
pub struct Limits {
    pub plan: usize,
    pub lifted: usize,
    pub commands: usize,
}

impl Limits {
    /// Those of a run that a slow evaluator has to follow.
    pub const SMALL: Limits = Limits {
        plan: PLAN_DARTS,
        lifted: LIFTED_DARTS,
        commands: COMMANDS,
    };
}

/// A run that is being drawn.
pub struct Sketch<'r> {
    pub random: &'r mut Random,
    pub limits: Limits,
    pub bytes: Vec<u8>,
    pub paper: Paper,
    pub over: bool,
    /// Which of its scene's runs this is: a scene may take what it draws in turn.
    pub turn: usize,
}

impl<'r> Sketch<'r> {
    /// Starts a small run, with no bytes.
    pub fn new(random: &'r mut Random) -> Sketch<'r> {
        Sketch::within(random, Limits::SMALL)
    }

    /// Starts a run of any size, with no bytes.
    pub fn within(random: &'r mut Random, limits: Limits) -> Sketch<'r> {
        Sketch {
            random,
            limits,
            bytes: Vec::new(),
            paper: Paper::blank(),
            over: false,
            turn: 0,
        }
    }

    /// The room the sketch is drawn in; the case itself may lend another.
    fn room(&self) -> Room {
        Room::new(self.limits.plan, self.limits.lifted, usize::MAX)
    }

    /// Adds a command and lets the paper run follow it. A run that is over, or
    /// long enough, takes no more.
    pub fn say(&mut self, command: Command) -> Result<usize, u8> {
        if self.over || self.paper.taken >= self.limits.commands {
            return Err(REPLIES_FULL);
        }
        let at = self.bytes.len();
        self.bytes.extend(write(command));
        let room = self.room();
        let next = step(&mut self.paper, room, &self.bytes, at);
        self.over = matches!(next, Next::End(_));
        let reply = self.paper.replies[self.paper.replies.len() - 1];
        match reply.number {
            0 => Ok(reply.value.into()),
            number => Err(number),
        }
    }

    /// What a command would meet here, without saying it.
    pub fn outcome(&self, command: Command) -> Result<usize, u8> {
        let mut plan = self.paper.plan.clone();
        // The edits of a plan do not look at the lifted map, and copying it
        // would take most of the time.
        let mut lifted = match command {
            Command::Lift | Command::Adopt | Command::Count { .. } => self.paper.lifted.clone(),
            _ => Lifted::blank(),
        };
        carry_out(&mut plan, &mut lifted, self.room(), command)
    }

    /// Makes up commands until one would meet what is wanted, and says that
    /// one; says nothing when none is found in a fair number of tries.
    pub fn seek(
        &mut self,
        make: fn(&mut Random, &Paper) -> Command,
        wanted: impl Fn(Result<usize, u8>) -> bool,
    ) -> bool {
        for _ in 0..80 {
            let command = make(self.random, &self.paper);
            if wanted(self.outcome(command)) {
                return self.say(command).is_ok();
            }
        }
        false
    }

    /// How many darts the plan has now.
    pub fn count(&self) -> usize {
        self.paper.plan.count()
    }
}
