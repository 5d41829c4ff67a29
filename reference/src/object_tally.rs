//! What a set of cases meets of objects, and whether that is enough.

use crate::calls::check;
use crate::cases::{Case, LiftedTables, Plan};
use crate::command::{Command, read};
use crate::lift::lift;
use crate::map::Map;
use crate::refusal::*;
use crate::run::{Lengths, Taken};
use crate::sew::{pairing, pairs_agree};
use crate::widths::*;
use std::collections::BTreeSet;

/// How often each thing was met.
#[derive(Clone, Debug, Default, PartialEq, Eq)]
pub struct Objects {
    /// 1A by the number that it was replied to by.
    pub replies: [usize; LAST as usize + 1],
    /// 1A without its last byte.
    pub cut: usize,
    /// Accepted 1A with the greatest object.
    pub greatest: usize,
    /// Sews refused since rows differ in an object alone.
    pub sews: usize,
    /// Lifts where darts over one plan dart carry different objects.
    pub side_by_side: usize,
    /// Runs on paper, and on tables, in which an accepted LIFT has fewer darts than
    /// the one before, one of which behind them carried an object.
    pub shorter: [usize; 2],
    /// Those in which a LIFT is refused while lifted darts carry objects.
    pub kept: [usize; 2],
    /// Those with LIFT, ADOPT, a span and LIFT where no object is left of those
    /// that were carried before.
    pub gone: [usize; 2],
    /// Tables refused by 10 for an object alone, of one too high, and of -1.
    pub bad: [usize; 2],
    /// Tables that such a number stands in, where nothing looks; accepted.
    pub unused: [usize; 2],
    /// Accepted tables with the greatest object.
    pub greatest_held: usize,
    /// Tables refused by 11 for an object alone.
    pub rows: usize,
    /// Lift calls, and runs on tables, where the table of objects alone is just long
    /// enough for a lift.
    pub exact: [usize; 2],
    /// Those where it alone is one row short of it.
    pub short: [usize; 2],
}

/// The same map with one object for all its spans.
fn ownerless(map: &Map) -> Map {
    let mut map = map.clone();
    let spans = map.darts.iter_mut().flat_map(|dart| &mut dart.row);
    spans.for_each(|span| span.object = SPAN_OBJECT);
    map
}

/// The objects of the spans in use of tables that may be wrong, and those of the
/// others; of rows with a count that can't be one none are in use.
fn held(plan: &Plan) -> [Vec<i32>; 2] {
    let mut all = [Vec::new(), Vec::new()];
    for row in plan.spans.chunks_exact(SPAN_NUMBERS).take(plan.count) {
        let count = usize::try_from(row[0]).ok().filter(|&held| held <= SPANS);
        for (at, span) in row[1..].chunks_exact(PER_SPAN).enumerate() {
            let is_used = count.is_some_and(|held| at < held);
            all[usize::from(!is_used)].push(span[2]);
        }
    }
    all
}

/// The number that the check gives where all objects are 0.
fn ownerless_check(plan: &Plan) -> u8 {
    let mut plan = plan.clone();
    for row in plan.spans.chunks_exact_mut(SPAN_NUMBERS) {
        row[1..].chunks_exact_mut(PER_SPAN).for_each(|s| s[2] = 0);
    }
    check(&plan.raw()).number
}

/// How many darts the lift of a plan has.
fn size(plan: &Map) -> usize {
    lift(plan, DARTS).map_or(usize::MAX, |lifted| lifted.map.count())
}

/// Whether a side with these tables of objects, and so many rows in each of the
/// others, has its capacity from the objects alone.
fn is_shortest(objects: usize, others: [usize; 3]) -> bool {
    others.into_iter().all(|rows| rows > objects)
}

impl Objects {
    /// Counts what the commands of a run met; on tables where `lengths` are given.
    pub fn add_run(&mut self, bytes: &[u8], seen: &[Taken], lengths: Option<&Lengths>) {
        for taken in seen {
            self.add_taken(taken);
            if let Some(lengths) = lengths {
                self.add_tables(taken, lengths);
            }
        }
        let place = usize::from(lengths.is_some());
        self.shorter[place] += usize::from(seen.iter().any(is_shorter));
        self.kept[place] += usize::from(seen.iter().any(is_kept));
        self.gone[place] += usize::from(is_gone(seen));
        let last = (1..seen.len()).fold(0, |at, _| read(bytes, at).next);
        let is_cut = bytes.len() == last + 12 && bytes[last] == 0x1a;
        self.cut += usize::from(is_cut && !seen.is_empty());
    }

    /// Counts what one command met.
    fn add_taken(&mut self, taken: &Taken) {
        let number = taken.reply.number;
        let is_accepted = number == ACCEPTED;
        match taken.command {
            Command::SpanOf { object, .. } => {
                self.replies[usize::from(number)] += 1;
                self.greatest += usize::from(is_accepted && object == u16::MAX);
            }
            Command::Lift if is_accepted => self.add_lift(&taken.plan),
            Command::Sew { axis, a, b } if number == PAIR_DISAGREES => {
                let (axis, plan) = (axis.into(), ownerless(&taken.plan));
                let pairs = pairing(&plan, axis, a.into(), b.into());
                let agree = pairs.is_some_and(|pairs| pairs_agree(&plan, axis, &pairs));
                self.sews += usize::from(agree);
            }
            _ => {}
        }
    }

    /// Counts an accepted lift of a plan.
    fn add_lift(&mut self, plan: &Map) {
        let differs = |d: usize| {
            let row = plan.row(d);
            row.windows(2).any(|pair| pair[0].object != pair[1].object)
        };
        self.side_by_side += usize::from((0..plan.count()).any(differs));
    }

    /// Counts a LIFT in tables of these lengths.
    fn add_tables(&mut self, taken: &Taken, lengths: &Lengths) {
        let others = [
            lengths.lifted_links / LINKS,
            lengths.lifted_places / COORDINATES,
            lengths.lifted_work / WORK,
        ];
        let objects = lengths.lifted_objects / OBJECTS;
        if taken.command != Command::Lift || !is_shortest(objects, others) {
            return;
        }
        let (number, value) = (taken.reply.number, taken.reply.value);
        self.exact[1] += usize::from(number == ACCEPTED && usize::from(value) == objects);
        let is_short = number == TOO_LARGE && size(&taken.plan) == objects + 1;
        self.short[1] += usize::from(is_short);
    }

    /// Counts one call on tables.
    pub fn add_call(&mut self, case: &Case) {
        match case {
            Case::Check { plan, number, .. } | Case::Pieces { plan, number, .. } => {
                self.add_plan(plan, *number)
            }
            Case::Lift {
                plan,
                before,
                number,
                ..
            } => {
                self.add_plan(plan, *number);
                if [ACCEPTED, TOO_LARGE].contains(number) {
                    self.add_room(&plan.raw().map(), before, *number);
                }
            }
            _ => {}
        }
    }

    /// Counts tables that a call answered by a number.
    pub fn add_plan(&mut self, plan: &Plan, number: u8) {
        let [used, unused] = held(plan);
        let wrong = [OBJECT_LIMIT, -1];
        match number {
            ACCEPTED => {
                let holds_greatest = used.contains(&(OBJECT_LIMIT - 1));
                self.greatest_held += usize::from(holds_greatest);
                for (met, object) in self.unused.iter_mut().zip(wrong) {
                    *met += usize::from(unused.contains(&object));
                }
            }
            BAD_ROW if ownerless_check(plan) != BAD_ROW => {
                for (met, object) in self.bad.iter_mut().zip(wrong) {
                    *met += usize::from(used.contains(&object));
                }
            }
            ROWS_DIFFER => self.rows += usize::from(ownerless_check(plan) == ACCEPTED),
            _ => {}
        }
    }

    /// Counts a lift call that is accepted or finds too little room.
    fn add_room(&mut self, plan: &Map, lent: &LiftedTables, number: u8) {
        let others = [
            lent.links.len() / LINKS,
            lent.places.len() / COORDINATES,
            lent.work / WORK,
        ];
        let objects = lent.objects.len() / OBJECTS;
        if is_shortest(objects, others) {
            let size = size(plan);
            self.exact[0] += usize::from(number == ACCEPTED && size == objects);
            self.short[0] += usize::from(number == TOO_LARGE && size == objects + 1);
        }
        if number == ACCEPTED {
            self.add_lift(plan);
        }
    }

    /// All kinds, how often each was met, and how often it has to be.
    fn kinds(&self) -> Vec<(&'static str, usize, usize)> {
        let reply = |number: u8| self.replies[usize::from(number)];
        vec![
            ("1A accepted", reply(ACCEPTED), 40),
            ("1A without a plan", reply(NO_PLAN), 3),
            ("1A beyond the darts", reply(NO_SUCH_DART), 3),
            ("1A of an empty span", reply(EMPTY_SPAN), 3),
            ("1A over a span of another object", reply(SPAN_OVERLAPS), 6),
            ("1A to a full row", reply(ROW_FULL), 3),
            ("1A without its last byte", self.cut, 3),
            ("1A with the greatest object", self.greatest, 3),
            ("sews refused for an object", self.sews, 5),
            ("lifts with objects side by side", self.side_by_side, 20),
            ("shorter lifts over objects", self.shorter[0], 5),
            ("those on tables", self.shorter[1], 2),
            ("objects kept by refused lifts", self.kept[0], 3),
            ("those kept on tables", self.kept[1], 2),
            ("objects gone after ADOPT", self.gone[0], 5),
            ("those gone on tables", self.gone[1], 1),
            ("object 65536 in use", self.bad[0], 3),
            ("object -1 in use", self.bad[1], 3),
            ("object 65536 not in use", self.unused[0], 3),
            ("object -1 not in use", self.unused[1], 3),
            ("object 65535 in use", self.greatest_held, 3),
            ("rows that differ in an object", self.rows, 5),
            ("tables of objects just long enough", self.exact[0], 2),
            ("those of a run", self.exact[1], 2),
            ("tables of objects one row short", self.short[0], 2),
            ("those short in a run", self.short[1], 2),
        ]
    }

    /// What is not met often enough; empty when all is well.
    pub fn enforce(&self) -> Vec<String> {
        let kinds = self.kinds().into_iter();
        kinds
            .filter(|(_, met, least)| met < least)
            .map(|(what, met, least)| format!("{what}: {met}, at least {least} wanted"))
            .collect()
    }
}

impl std::fmt::Display for Objects {
    /// One line.
    fn fmt(&self, out: &mut std::fmt::Formatter) -> std::fmt::Result {
        let told: Vec<String> = self
            .kinds()
            .iter()
            .map(|(what, met, _)| format!("{what} {met}"))
            .collect();
        writeln!(out, "objects: {}", told.join(", "))
    }
}

/// An accepted LIFT to fewer darts than before, where one behind them carried an
/// object.
fn is_shorter(taken: &Taken) -> bool {
    let is_lift = taken.command == Command::Lift && taken.reply.number == ACCEPTED;
    let behind = taken.lifted_before.objects.iter();
    let mut behind = behind.skip(taken.lifted.map.count());
    is_lift && behind.any(|&object| object != 0)
}

/// A LIFT refused for its size while lifted darts carry objects.
fn is_kept(taken: &Taken) -> bool {
    let is_refused = taken.command == Command::Lift && taken.reply.number == TOO_LARGE;
    is_refused && taken.lifted.objects.iter().any(|&object| object != 0)
}

/// Whether a lift with objects was adopted, given spans as it stood, and lifted
/// again, such that none of those objects is left.
fn is_gone(seen: &[Taken]) -> bool {
    let mut adopted = None;
    for taken in seen.iter().filter(|t| t.reply.number == ACCEPTED) {
        match taken.command {
            Command::New { .. } => adopted = None,
            Command::Adopt => adopted = Some(&taken.lifted.objects),
            Command::Lift => {
                let new: BTreeSet<u16> = taken.lifted.objects.iter().copied().collect();
                let is_left = |object: &u16| new.contains(object);
                if let Some(old) = adopted
                    && !new.is_empty()
                    && old.iter().any(|&object| object != 0)
                    && !old.iter().any(is_left)
                {
                    return true;
                }
            }
            _ => {}
        }
    }
    false
}
