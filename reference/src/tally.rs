//! What a set of cases reaches, and whether that is enough.

use crate::cases::Case;
use crate::command::Command;
use crate::join_tally::Joins;
use crate::map::Map;
use crate::object_tally::Objects;
use crate::refusal::{ACCEPTED, LAST, NO_PAIRING, REPLIES_FULL};
use crate::run::{Lengths, Taken, run, trace};
use crate::sew::partners;
use crate::widths::{
    GREATEST_DIMENSION, PROGRAM_BYTES, PROGRAM_LIFTED, PROGRAM_PLAN, PROGRAM_REPLY,
};
use std::fmt;

/// How often each thing was met.
#[derive(Clone, Debug, Default, PartialEq, Eq)]
pub struct Tally {
    /// Each refusal number, by number.
    pub refusals: [usize; LAST as usize + 1],
    pub runs: usize,
    pub program_runs: usize,
    pub tables: usize,
    pub prints: usize,
    pub calls: usize,
    /// Accepted lifts over neighbours whose spans interleave, all together.
    pub interleaved: usize,
    /// The same by the dimension of the plan.
    pub interleaved_at: [usize; GREATEST_DIMENSION],
    /// Accepted sews where each side has two darts or more.
    pub wide_sews: usize,
    /// Accepted unsews that free each partner once, not twice as many.
    pub twisted_unsews: usize,
    /// Sews without a pairing: shared dart, other size, other links.
    pub unpaired: [usize; 3],
    /// Runs with accepted LIFT, ADOPT, SPAN and LIFT in this order.
    pub climbs: usize,
    /// Runs with darts at dimension 3 or more.
    pub high_runs: usize,
    pub accepted_calls: usize,
    pub widest_plan: usize,
    pub widest_lifted: usize,
    /// Runs and lift calls whose lifted map passes 31 darts.
    pub large: usize,
    pub most_commands: usize,
    pub objects: Objects,
    pub joins: Joins,
}

/// Counts everything over all cases.
pub fn tally(cases: &[Case]) -> Tally {
    let mut found = Tally::default();
    for case in cases {
        found.add(case);
    }
    found
}

/// Whether two darts linked along the top axis have rows where an end of one
/// lies strictly inside a span of the other.
pub fn interleaves(plan: &Map) -> bool {
    (0..plan.count()).any(|d| {
        let across = plan.row(plan.link(d, plan.dim));
        let inside = |end: i32| plan.row(d).iter().any(|s| s.lo < end && end < s.hi);
        across.iter().any(|s| inside(s.lo) || inside(s.hi))
    })
}

impl Tally {
    /// Counts one case.
    fn add(&mut self, case: &Case) {
        match case {
            Case::Run {
                bytes,
                plan_capacity,
                lifted_capacity,
                reply_length,
                ..
            } => {
                self.runs += 1;
                let lent = [*plan_capacity, *lifted_capacity, *reply_length];
                let program = [PROGRAM_PLAN, PROGRAM_LIFTED, PROGRAM_REPLY];
                self.program_runs += usize::from(lent == program);
                self.add_run(bytes, lent, None);
            }
            Case::Tables {
                bytes,
                lengths,
                before,
                ..
            } => {
                self.tables += 1;
                let (plan, lifted) = (lengths.plan_capacity(), lengths.lifted_capacity());
                self.add_run(bytes, [plan, lifted, before.len()], Some(lengths));
            }
            Case::Prints { bytes, .. } => {
                self.prints += 1;
                if bytes.len() <= PROGRAM_BYTES {
                    let lent = [PROGRAM_PLAN, PROGRAM_LIFTED, PROGRAM_REPLY];
                    self.add_run(bytes, lent, None);
                }
            }
            call => self.add_call(call),
        }
    }

    /// Counts one table call.
    fn add_call(&mut self, case: &Case) {
        self.calls += 1;
        self.objects.add_call(case);
        self.joins.add_call(case);
        match case {
            Case::Check { number, .. } | Case::Looseness { number, .. } => self.refuse(*number),
            Case::Lift {
                plan,
                number,
                value,
                ..
            } => {
                self.refuse(*number);
                if *number == ACCEPTED {
                    self.accepted_calls += 1;
                    self.add_lift(&plan.raw().map());
                    self.widest_lifted = self.widest_lifted.max(*value);
                    self.large += usize::from(*value > 31);
                }
            }
            Case::Pieces { number, .. } => {
                self.refuse(*number);
                self.accepted_calls += usize::from(*number == ACCEPTED);
            }
            _ => {}
        }
    }

    /// Counts an accepted lift of a plan.
    fn add_lift(&mut self, plan: &Map) {
        if interleaves(plan) {
            self.interleaved += 1;
            self.interleaved_at[plan.dim] += 1;
        }
    }

    /// Counts a refusal; 0 is none.
    fn refuse(&mut self, number: u8) {
        if let Some(met) = self.refusals.get_mut(usize::from(number)) {
            *met += 1;
        }
    }

    /// Counts what a run met, command by command; on tables where lengths are given.
    fn add_run(
        &mut self,
        bytes: &[u8],
        [plan, lifted, reply]: [usize; 3],
        lengths: Option<&Lengths>,
    ) {
        let ended = run(bytes, plan, lifted, reply);
        if ended.number == REPLIES_FULL {
            self.refuse(REPLIES_FULL);
        }
        self.most_commands = self.most_commands.max(ended.taken);
        let seen = trace(bytes, plan, lifted, reply);
        for taken in &seen {
            self.add_taken(taken);
        }
        let high = |m: &Map| m.dim >= 3 && m.count() > 0;
        self.high_runs += usize::from(seen.iter().any(|t| high(&t.plan) || high(&t.lifted.map)));
        self.large += usize::from(seen.iter().any(|t| t.lifted.map.count() > 31));
        self.climbs += usize::from(climbs(&seen));
        self.objects.add_run(bytes, &seen, lengths);
        self.joins.add_run(&seen, lengths.is_some());
    }

    /// Counts what one command met.
    fn add_taken(&mut self, taken: &Taken) {
        self.refuse(taken.reply.number);
        self.widest_plan = self.widest_plan.max(taken.plan.count());
        self.widest_lifted = self.widest_lifted.max(taken.lifted.map.count());
        let accepted = taken.reply.number == ACCEPTED;
        let (plan, value) = (&taken.plan_before, usize::from(taken.reply.value));
        match taken.command {
            Command::Lift if accepted => self.add_lift(plan),
            Command::Sew { .. } if accepted => self.wide_sews += usize::from(value >= 4),
            Command::Sew { axis, a, b } if taken.reply.number == NO_PAIRING => {
                let side = |dart: u16| partners(plan, axis.into(), dart.into());
                self.unpaired[reason(side(a).contains(&b.into()), side(a).len(), side(b).len())] +=
                    1;
            }
            Command::Unsew { axis, a } if accepted => {
                let side = partners(plan, axis.into(), a.into());
                self.twisted_unsews += usize::from(value == side.len());
            }
            _ => {}
        }
    }

    /// What is not met often enough; empty when all is well.
    pub fn enforce(&self) -> Vec<String> {
        let mut lacking = Vec::new();
        let mut want = |what: &str, met: usize, least: usize| {
            if met < least {
                lacking.push(format!("{what}: {met}, at least {least} wanted"));
            }
        };
        for (number, &met) in self.refusals.iter().enumerate().skip(1) {
            want(&format!("refusal {number}"), met, 3);
        }
        want("runs", self.runs, 150);
        want("runs on tables", self.tables, 20);
        want("prints", self.prints, 10);
        want("table calls", self.calls, 100);
        want("lifts over interleaving spans", self.interleaved, 50);
        for (dim, &met) in self.interleaved_at.iter().enumerate().skip(1) {
            want(&format!("those at dimension {dim}"), met, 3);
        }
        want("wide sews", self.wide_sews, 30);
        want("twisted unsews", self.twisted_unsews, 3);
        want("unpaired by a shared dart", self.unpaired[0], 3);
        want("unpaired by size", self.unpaired[1], 3);
        want("unpaired by links", self.unpaired[2], 3);
        want("climbs", self.climbs, 15);
        want("runs at dimension 3 or more", self.high_runs, 20);
        want("accepted lift or pieces calls", self.accepted_calls, 30);
        lacking.extend(self.objects.enforce());
        lacking.extend(self.joins.enforce());
        lacking
    }
}

/// Which of the three reasons a missing pairing has.
fn reason(shared: bool, one: usize, other: usize) -> usize {
    match (shared, one == other) {
        (true, _) => 0,
        (false, false) => 1,
        (false, true) => 2,
    }
}

/// Whether a lift was adopted, given a span as it stood, and lifted again. A
/// new plan begins anew; adopting once more drops the spans.
fn climbs(seen: &[Taken]) -> bool {
    let mut stage = 0;
    for taken in seen.iter().filter(|t| t.reply.number == ACCEPTED) {
        stage = match (taken.command, stage) {
            (Command::New { .. }, _) => 0,
            (Command::Lift, 0) => 1,
            (Command::Adopt, 1 | 3) => 2,
            (Command::Span { .. } | Command::SpanOf { .. }, 2) => 3,
            (Command::Lift, 3) => return true,
            (_, stage) => stage,
        };
    }
    false
}

impl fmt::Display for Tally {
    /// One line a subject.
    fn fmt(&self, out: &mut fmt::Formatter) -> fmt::Result {
        writeln!(
            out,
            "runs {} ({} as the program), on tables {}, prints {}, table calls {} ({} accepted lifts or pieces)",
            self.runs, self.program_runs, self.tables, self.prints, self.calls, self.accepted_calls
        )?;
        writeln!(
            out,
            "interleaved lifts {} {:?}, wide sews {}, twisted unsews {}, climbs {}, high runs {}",
            self.interleaved,
            &self.interleaved_at[1..],
            self.wide_sews,
            self.twisted_unsews,
            self.climbs,
            self.high_runs
        )?;
        writeln!(
            out,
            "unpaired {:?}, widest plan {}, widest lifted {}, above 31 darts {}, most commands {}",
            self.unpaired, self.widest_plan, self.widest_lifted, self.large, self.most_commands
        )?;
        write!(out, "{}{}", self.objects, self.joins)?;
        write!(out, "refusals")?;
        for (number, met) in self.refusals.iter().enumerate().skip(1) {
            write!(out, " {number}:{met}")?;
        }
        writeln!(out)
    }
}
