//! What drawn lists meet of spans that are joined.

use crate::met::Kind;
use reference::command::Command;
use reference::joins::{KINDS, cover, kinds};
use reference::map::{Map, Span};
use reference::refusal::*;
use reference::span::overlap;
use reference::step::{Paper, Reply};
use std::collections::BTreeSet;

const JOINED: &str = "SPAN or 1A joined to others, dimension";
const IN_A_CELL: &str = "SPAN or 1A joined to others in several darts, dimension";
const FEWER: &str = "SPAN or 1A joined to others, spans fewer:";
const LIFTED: &str = "LIFT after joining, from dimension";
const SEWN: &str = "SEW of rows made equal by joining, dimension";
const UNSEWN: &str = "SEW refused for rows that cover the same, dimension";

/// The kinds that must be met, but for those of a new span and a row.
const OTHERS: [(&str, &[usize]); 6] = [
    (JOINED, &[1, 2, 3, 4, 5]),
    (IN_A_CELL, &[1, 2, 3, 4, 5]),
    (FEWER, &[0, 1, 2, 3, 4, 5, 6, 7]),
    (LIFTED, &[1, 2, 3, 4]),
    (SEWN, &[1, 2, 3]),
    (UNSEWN, &[1, 2, 3]),
];

/// SPAN and 1A: each kind of a new span and a row is met by both.
const COMMANDS: &[usize] = &[0x15, 0x1a];

/// All kinds that must be met.
pub fn wanted() -> impl Iterator<Item = Kind> {
    let of_rows = KINDS.into_iter().map(|kind| (kind, COMMANDS));
    let all = OTHERS.into_iter().chain(of_rows);
    all.flat_map(|(kind, numbers)| numbers.iter().map(move |&number| (kind, number)))
}

/// The rows of a plan as the next command finds them.
#[derive(Default)]
pub struct Rows {
    rows: Vec<Vec<Span>>,
    /// The darts whose rows were last altered by joining.
    made: BTreeSet<usize>,
    /// Whether one was since the last lift.
    is_new: bool,
}

impl Rows {
    fn row(&self, dart: usize) -> &[Span] {
        self.rows.get(dart).map_or(&[], |row| row)
    }

    /// The kinds that a command met; what it leaves is kept for the next.
    pub fn look(&mut self, command: Command, reply: Reply, paper: &Paper) -> Vec<Kind> {
        let is_accepted = reply.number == ACCEPTED;
        match command {
            Command::Span { .. } => self.look_at_span(command, COMMANDS[0], reply, paper),
            Command::SpanOf { .. } => self.look_at_span(command, COMMANDS[1], reply, paper),
            Command::New { .. } | Command::Adopt | Command::Clear { .. } if is_accepted => {
                self.keep(&paper.plan, false);
                self.is_new &= !self.made.is_empty();
                vec![]
            }
            Command::Lift if is_accepted => {
                let is_new = std::mem::take(&mut self.is_new);
                met([(is_new, LIFTED, paper.plan.dim)])
            }
            Command::Sew { axis, a, b } => {
                let is_below = usize::from(axis) < paper.plan.dim;
                let made = [a, b].map(|dart| self.made.contains(&dart.into()));
                let is_made = is_below && made[0] != made[1];
                let [one, other] = [a, b].map(|dart| self.row(dart.into()));
                let is_same = is_below && one != other && cover(one) == cover(other);
                let is_refused = reply.number == PAIR_DISAGREES;
                met([
                    (is_made && is_accepted, SEWN, paper.plan.dim),
                    (is_same && is_refused, UNSEWN, paper.plan.dim),
                ])
            }
            _ => vec![],
        }
    }

    fn look_at_span(
        &mut self,
        command: Command,
        byte: usize,
        reply: Reply,
        paper: &Paper,
    ) -> Vec<Kind> {
        let numbers = [ACCEPTED, SPAN_OVERLAPS, ROW_FULL];
        let Some((dart, added)) = command.span() else {
            return vec![];
        };
        if !numbers.contains(&reply.number) {
            return vec![];
        }
        let (plan, row) = (&paper.plan, self.row(dart.into()));
        let kinds = kinds(row, added).into_iter().map(|kind| (kind, byte));
        let mut all: Vec<Kind> = kinds.collect();
        if reply.number == ACCEPTED {
            let is_joined = row.iter().any(|&held| overlap(held, added));
            let after = plan.row(dart.into()).len();
            all.extend(met([
                (is_joined, JOINED, plan.dim),
                (is_joined && reply.value > 1, IN_A_CELL, plan.dim),
                (is_joined, FEWER, row.len().saturating_sub(after)),
            ]));
            self.keep(plan, is_joined);
        }
        all
    }

    /// Keeps the rows of a plan, after joining or after something else.
    fn keep(&mut self, plan: &Map, is_joined: bool) {
        self.made.retain(|&dart| dart < plan.count());
        self.rows.resize(plan.count(), vec![]);
        for (dart, row) in self.rows.iter_mut().enumerate() {
            if row[..] != *plan.row(dart) {
                plan.row(dart).clone_into(row);
                self.is_new |= is_joined;
                match is_joined {
                    true => self.made.insert(dart),
                    false => self.made.remove(&dart),
                };
            }
        }
    }
}

/// Those of some kinds that are met.
fn met<const N: usize>(kinds: [(bool, &'static str, usize); N]) -> Vec<Kind> {
    let met = kinds.into_iter().filter(|&(is_met, _, _)| is_met);
    met.map(|(_, kind, number)| (kind, number)).collect()
}
