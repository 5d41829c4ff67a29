//! What a set of cases meets of spans that are joined, and whether that is enough.

use crate::cases::{Case, Plan};
use crate::command::Command;
use crate::joins::{KINDS, Kind, cover, kinds};
use crate::map::{Map, Span};
use crate::refusal::*;
use crate::run::Taken;
use crate::span::overlap;
use crate::widths::*;
use std::collections::{BTreeMap, BTreeSet};

const BY_SPAN: Kind = "joined by SPAN";
const BY_NO_OBJECT: Kind = "joined by 1A of object 0";
const BY_OBJECT: Kind = "joined by 1A of another object";
const IN_ONE_DART: Kind = "joined in a dart alone";
const IN_A_CELL: Kind = "joined in a cell of several darts";
const LIFTED: Kind = "LIFT after joining";
const SMALLER: Kind = "LIFT to fewer darts for joining alone";
const SEWN: Kind = "SEW of rows made equal by joining";
const UNSEWN: Kind = "SEW refused for rows that cover the same";
const LEFT_SHORTER: Kind = "rows on tables that joining left one span shorter";
const LEFT_MUCH_SHORTER: Kind = "rows on tables that joining left several spans shorter";
/// Tables refused by 10 for an overlap alone: within one object, of two objects.
pub const RAW_OVERLAPS: [Kind; 2] = [
    "tables with an overlap within one object",
    "tables with an overlap of two objects",
];

/// The kinds beside those of a new span and a row.
const OTHERS: [Kind; 13] = [
    BY_SPAN,
    BY_NO_OBJECT,
    BY_OBJECT,
    IN_ONE_DART,
    IN_A_CELL,
    LIFTED,
    SMALLER,
    SEWN,
    UNSEWN,
    LEFT_SHORTER,
    LEFT_MUCH_SHORTER,
    RAW_OVERLAPS[0],
    RAW_OVERLAPS[1],
];

/// How often each kind has to be met.
const LEAST: usize = 2;

/// How often each kind was met.
#[derive(Clone, Debug, Default, PartialEq, Eq)]
pub struct Joins {
    met: BTreeMap<Kind, usize>,
}

/// The row that an accepted SPAN or 1A found, where it overlapped something of it.
fn joined(taken: &Taken) -> Option<(usize, &[Span])> {
    let (dart, added) = taken.command.span()?;
    let row = taken.plan_before.row(dart.into());
    let is_joined = row.iter().any(|&held| overlap(held, added));
    (taken.reply.number == ACCEPTED && is_joined).then_some((dart.into(), row))
}

/// Whether the plan is another one after a command.
fn is_other_plan(taken: &Taken) -> bool {
    let is_other = matches!(taken.command, Command::New { .. } | Command::Adopt);
    is_other && taken.reply.number == ACCEPTED
}

impl Joins {
    fn meet(&mut self, is_met: bool, kind: Kind) {
        *self.met.entry(kind).or_default() += usize::from(is_met);
    }

    /// How often a kind was met.
    pub fn times(&self, kind: Kind) -> usize {
        self.met.get(kind).copied().unwrap_or(0)
    }

    /// Counts what the commands of a run met; whether it is one on tables.
    pub fn add_run(&mut self, seen: &[Taken], is_on_tables: bool) {
        for taken in seen {
            self.add_taken(taken);
        }
        self.add_lifts(seen);
        self.add_sews(seen);
        if is_on_tables && let Some(last) = seen.last() {
            self.add_left(seen, &last.plan);
        }
    }

    /// Counts what one command met in a row.
    fn add_taken(&mut self, taken: &Taken) {
        let numbers = [ACCEPTED, SPAN_OVERLAPS, ROW_FULL];
        if let Some((dart, added)) = taken.command.span()
            && numbers.contains(&taken.reply.number)
        {
            for kind in kinds(taken.plan_before.row(dart.into()), added) {
                self.meet(true, kind);
            }
        }
        if joined(taken).is_some() {
            let kind = match taken.command {
                Command::Span { .. } => BY_SPAN,
                Command::SpanOf {
                    object: SPAN_OBJECT,
                    ..
                } => BY_NO_OBJECT,
                _ => BY_OBJECT,
            };
            self.meet(true, kind);
            self.meet(taken.reply.value == 1, IN_ONE_DART);
            self.meet(taken.reply.value > 1, IN_A_CELL);
        }
    }

    /// Counts lifts of rows that were altered by joining since the lift before.
    fn add_lifts(&mut self, seen: &[Taken]) {
        let mut altered = Vec::new();
        for taken in seen {
            if is_other_plan(taken) {
                altered.clear();
            }
            if taken.plan != taken.plan_before {
                altered.push(joined(taken).is_some());
            }
            if taken.command == Command::Lift && taken.reply.number == ACCEPTED {
                let is_fewer = taken.lifted.map.count() < taken.lifted_before.map.count();
                let is_joining = altered.contains(&true);
                self.meet(is_joining, LIFTED);
                let is_alone = is_joining && !altered.contains(&false);
                self.meet(is_alone && is_fewer, SMALLER);
                altered.clear();
            }
        }
    }

    /// Counts sews below the top axis of a dart whose row was made by joining and
    /// one whose row was not, and those that find rows not equal which cover the same.
    fn add_sews(&mut self, seen: &[Taken]) {
        let mut made = BTreeSet::new();
        for taken in seen {
            if is_other_plan(taken) {
                made.clear();
            }
            let is_other = |d: &usize| taken.plan.row(*d) != taken.plan_before.row(*d);
            let others = (0..taken.plan.count()).filter(is_other);
            match joined(taken) {
                Some(_) => made.extend(others),
                None => others.for_each(|d| {
                    made.remove(&d);
                }),
            }
            if let Command::Sew { axis, a, b } = taken.command
                && usize::from(axis) < taken.plan.dim
            {
                let (a, b) = (a.into(), b.into());
                let is_made = made.contains(&a) != made.contains(&b);
                self.meet(taken.reply.number == ACCEPTED && is_made, SEWN);
                let [one, other] = [a, b].map(|d| taken.plan.row(d));
                let is_cover = one != other && cover(one) == cover(other);
                let is_refused = taken.reply.number == PAIR_DISAGREES;
                self.meet(is_refused && is_cover, UNSEWN);
            }
        }
    }

    /// Counts rows that are shorter for joining, where a run leaves them so.
    fn add_left(&mut self, seen: &[Taken], left: &Map) {
        let shorter = seen.iter().filter_map(|taken| {
            let (dart, before) = joined(taken)?;
            let after = taken.plan.row(dart);
            (after == left.row(dart)).then(|| before.len() - after.len())
        });
        let most = shorter.max().unwrap_or(0);
        self.meet(most == 1, LEFT_SHORTER);
        self.meet(most > 1, LEFT_MUCH_SHORTER);
    }

    /// Counts one call on tables.
    pub fn add_call(&mut self, case: &Case) {
        match case {
            Case::Check { plan, number, .. }
            | Case::Lift { plan, number, .. }
            | Case::Pieces { plan, number, .. } => self.add_plan(plan, *number),
            _ => {}
        }
    }

    /// Counts tables that a call answered by a number.
    pub fn add_plan(&mut self, plan: &Plan, number: u8) {
        if number == BAD_ROW {
            let rows = plan.spans.chunks_exact(SPAN_NUMBERS).take(plan.count);
            let found: BTreeSet<bool> = rows.filter_map(overlap_of_one).collect();
            for (is_of_one, kind) in [true, false].into_iter().zip(RAW_OVERLAPS) {
                self.meet(found.contains(&is_of_one), kind);
            }
        }
    }

    /// What is not met often enough; empty when all is well.
    pub fn enforce(&self) -> Vec<String> {
        let all = KINDS.iter().chain(&OTHERS);
        all.map(|&kind| (kind, self.times(kind)))
            .filter(|&(_, met)| met < LEAST)
            .map(|(kind, met)| format!("{kind}: {met}, at least {LEAST} wanted"))
            .collect()
    }
}

/// Where a raw row has nothing wrong but neighbours that overlap: whether those are
/// of one object each time.
fn overlap_of_one(row: &[i32]) -> Option<bool> {
    let held = usize::try_from(row[0]).ok().filter(|&held| held <= SPANS)?;
    let spans: Vec<&[i32]> = row[1..].chunks_exact(PER_SPAN).take(held).collect();
    let is_span = |s: &&[i32]| s[0] < s[1] && (0..OBJECT_LIMIT).contains(&s[2]);
    let is_ascending = spans.windows(2).all(|pair| pair[0][0] <= pair[1][0]);
    let over = spans.windows(2).filter(|pair| pair[1][0] < pair[0][1]);
    let of_one: Vec<bool> = over.map(|pair| pair[0][2] == pair[1][2]).collect();
    let is_wanted = spans.iter().all(is_span) && is_ascending && !of_one.is_empty();
    is_wanted.then(|| !of_one.contains(&false))
}

impl std::fmt::Display for Joins {
    /// One line.
    fn fmt(&self, out: &mut std::fmt::Formatter) -> std::fmt::Result {
        let told: Vec<String> = KINDS
            .iter()
            .chain(&OTHERS)
            .map(|&kind| format!("{kind} {}", self.times(kind)))
            .collect();
        writeln!(out, "joins: {}", told.join(", "))
    }
}
