//! What drawn lists meet in a run, and how often each thing has to be met.

use crate::joined::{self, Rows};
use reference::command::{Command, read};
use reference::lift::lift;
use reference::lists::List;
use reference::map::{Map, Span};
use reference::refusal::*;
use reference::run::{Ended, Lengths};
use reference::sew::{pairing, pairs_agree, partners};
use reference::step::{Paper, Reply, Room};
use reference::widths::*;
use std::collections::{BTreeMap, BTreeSet};

/// A kind of thing: a word, and a number that tells which.
pub type Kind = (&'static str, usize);

/// How often each kind was met.
#[derive(Clone, Debug, Default)]
pub struct Met {
    pub kinds: BTreeMap<Kind, usize>,
    pub lists: usize,
    pub commands: usize,
}

/// Every command with each number that its reply can have.
const REPLIES: [(&str, &[usize]); 13] = [
    ("NEW replied to by", &[0, 3]),
    ("DART replied to by", &[0, 12, 13]),
    ("SEW replied to by", &[0, 3, 4, 12, 14, 15, 16]),
    ("UNSEW replied to by", &[0, 3, 4, 12, 17]),
    ("PLACE replied to by", &[0, 3, 4, 12]),
    ("SPAN replied to by", &[0, 4, 5, 12, 18, 19]),
    ("1A replied to by", &[0, 4, 5, 12, 18, 19]),
    ("CLEAR replied to by", &[0, 4, 12]),
    ("LIFT replied to by", &[0, 12, 20, 22]),
    ("ADOPT replied to by", &[0, 13, 21]),
    ("COUNT of the plan replied to by", &[0, 3, 12]),
    ("COUNT of the lifted map replied to by", &[0, 3, 21]),
    ("COUNT of another side replied to by", &[3]),
];

const ENDED: &str = "ended by";
const COMMANDS: &str = "lists with at least so many commands taken:";
const BEHIND: &str = "bytes behind a command that ended by";

const WIDE_SEW: &str = "SEW of four darts or more, dimension";
const WIDER_SEW: &str = "SEW of eight darts or more, dimension";
const WIDE_UNSEW: &str = "UNSEW of four darts or more, dimension";
const TWISTED: &str = "UNSEW of darts that are each other's partners, dimension";
const LIFTED: &str = "LIFT to some darts, from dimension";
const EXACT_LIFT: &str = "LIFT in just enough room, from dimension";
const SMALLER_LIFT: &str = "LIFT to fewer darts than before, from dimension";
const EMPTY_LIFT: &str = "LIFT to no dart where some were, from dimension";
const KEPT_LIFT: &str = "LIFT refused where something was lifted, by";
const ADOPTED: &str = "ADOPT of some darts, dimension";
const SMALLER_ADOPT: &str = "ADOPT of fewer darts than the plan had, dimension";
const SPANNED_ADOPT: &str = "ADOPT over spans, dimension";
const EXACT_ADOPT: &str = "ADOPT in just enough room, dimension";
const SHORT_ADOPT: &str = "ADOPT refused for one dart, dimension";
const COUNTED: [&str; 2] = [
    "COUNT of a plan with darts, dimension",
    "COUNT of a lifted map with darts, dimension",
];

const NEW_OVER: &str = "NEW over a plan with spans, dimension";
const LAST_DART: &str = "DART in the last row, dimension";
const FIRST_SPAN: &str = "SPAN or 1A put before others, dimension";
const EMPTIED: &str = "CLEAR of some spans, dimension";
const HIGH_DART: &str = "accepted at a dart above 255, command";
const HIGH_VALUE: &str = "value above 255, command";

const CUT_OBJECT: &str = "1A without its last bytes, so many:";
const GREATEST: &str = "1A with the greatest object, dimension";
const STRANGE_SEW: &str = "SEW refused for an object alone, dimension";
const SIDE_BY_SIDE: &str = "LIFT to other objects over one dart, from dimension";
const SHORTER_OBJECTS: &str = "LIFT to fewer darts than carried objects, from dimension";
const KEPT_OBJECTS: &str = "LIFT refused where darts carry objects, by";
const GONE_OBJECTS: &str = "LIFT after ADOPT with none of the objects before, from dimension";
const EXACT_OBJECTS: &str = "LIFT where the objects alone just have room, from dimension";
const SHORT_OBJECTS: &str = "LIFT where the objects alone are one row short, from dimension";

const PLAN_ROWS: &str = "plan capacity";
const LIFTED_ROWS: &str = "lifted capacity";
const EXACT_ROOM: &str = "just the rows that the list needs, side";
const SHORT_ROOM: &str = "one row too few, side";
const LIMIT_ROWS: &str = "rows for more than a side may have, side";
const SHORTEST: &str = "a side that has its capacity from one table alone, table";
const PART_ROW: &str = "part of a row at the end of table";
const REPLY_REST: &str = "reply memory divided by three leaves";
const REPLY_SHORT: &str = "reply memory of so many bytes";
const REPLY_EXACT: &str = "just enough reply memory, ended by";

/// The other kinds that must be met.
const OTHERS: [(&str, &[usize]); 44] = [
    (ENDED, &[0, 1, 2, 23]),
    (COMMANDS, &[0, 30, 100, 300]),
    (BEHIND, &[1]),
    (WIDE_SEW, &[2, 3, 4, 5]),
    (WIDER_SEW, &[3, 4, 5]),
    (WIDE_UNSEW, &[2, 3, 4, 5]),
    (TWISTED, &[3, 4]),
    (LIFTED, &[1, 2, 3, 4]),
    (EXACT_LIFT, &[1, 2, 3, 4]),
    (SMALLER_LIFT, &[1, 2, 3, 4]),
    (EMPTY_LIFT, &[1, 2, 3, 4]),
    (KEPT_LIFT, &[20, 22]),
    (ADOPTED, &[2, 3, 4, 5]),
    (SMALLER_ADOPT, &[2, 3, 4, 5]),
    (SPANNED_ADOPT, &[2, 3, 4, 5]),
    (EXACT_ADOPT, &[2, 3, 4, 5]),
    (SHORT_ADOPT, &[2, 3, 4, 5]),
    (COUNTED[0], &[1, 2, 3, 4, 5]),
    (COUNTED[1], &[2, 3, 4, 5]),
    (NEW_OVER, &[1, 2, 3, 4]),
    (LAST_DART, &[1, 2, 3, 4]),
    (FIRST_SPAN, &[1, 2, 3]),
    (EMPTIED, &[1, 2, 3, 4]),
    (HIGH_DART, &[0x12, 0x13, 0x14, 0x15, 0x1a]),
    (HIGH_VALUE, &[0x11, 0x17, 0x18, 0x19]),
    (CUT_OBJECT, &[1]),
    (GREATEST, &[1, 2, 3, 4]),
    (STRANGE_SEW, &[1, 2, 3]),
    (SIDE_BY_SIDE, &[1, 2, 3, 4]),
    (SHORTER_OBJECTS, &[1, 2, 3, 4]),
    (KEPT_OBJECTS, &[20, 22]),
    (GONE_OBJECTS, &[2, 3, 4]),
    (EXACT_OBJECTS, &[1, 2, 3, 4]),
    (SHORT_OBJECTS, &[1, 2, 3, 4]),
    (PLAN_ROWS, &[0, DARTS - 1, DARTS]),
    (LIFTED_ROWS, &[0, DARTS - 1, DARTS]),
    (EXACT_ROOM, &[0, 1]),
    (SHORT_ROOM, &[0, 1]),
    (LIMIT_ROWS, &[0, 1]),
    (SHORTEST, &[0, 1, 2, 3, 4, 5, 6, 7]),
    // Objects have one number a row: there is no part of one.
    (PART_ROW, &[0, 1, 2, 3, 4, 5, 7]),
    (REPLY_REST, &[0, 1, 2]),
    (REPLY_SHORT, &[0, 1, 2, 3, 4, 5]),
    (REPLY_EXACT, &[0, 1, 2]),
];

/// All kinds that must be met.
pub fn wanted() -> Vec<Kind> {
    let all = REPLIES.iter().chain(&OTHERS);
    all.flat_map(|&(kind, numbers)| numbers.iter().map(move |&number| (kind, number)))
        .chain(joined::wanted())
        .collect()
}

/// What is known of the maps before a command: the plan's dimension, darts and
/// spans, those of all darts together, and the lifted darts.
#[derive(Clone, Copy, Default)]
struct Before {
    dimension: usize,
    count: usize,
    spans: usize,
    lifted: usize,
}

/// Looks on at one run.
pub struct Watch<'a> {
    met: &'a mut Met,
    room: Room,
    /// The rows of the lifted side's table of objects, where it alone sets the
    /// capacity.
    object_rows: Option<usize>,
    before: Before,
    /// The objects of the lift before.
    objects: Vec<u16>,
    /// Where the plan was adopted: the objects that lifted darts carried then.
    adopted: BTreeSet<u16>,
    /// The plan's rows.
    rows: Rows,
}

impl Watch<'_> {
    fn meet(&mut self, is_met: bool, kind: &'static str, number: usize) {
        self.met.meet(is_met, kind, number);
    }

    /// Counts what a command met.
    pub fn look(&mut self, command: Command, reply: Reply, paper: &Paper) {
        self.met.commands += 1;
        let number = reply.number.into();
        if let Some(at) = place_of(command) {
            self.meet(true, REPLIES[at].0, number);
        }
        for (kind, number) in self.rows.look(command, reply, paper) {
            self.meet(true, kind, number);
        }
        let value = usize::from(reply.value);
        match reply.number {
            ACCEPTED => self.look_at_accepted(command, value, paper),
            _ => self.look_at_refused(command, number, paper),
        }
    }

    /// What the next command finds. The spans are summed up only where they may
    /// have changed, so that long lists are followed quickly.
    fn after(&self, command: Command, paper: &Paper) -> Before {
        let is_same = !matches!(
            command,
            Command::New { .. }
                | Command::Span { .. }
                | Command::SpanOf { .. }
                | Command::Clear { .. }
                | Command::Adopt
        );
        Before {
            dimension: paper.plan.dim,
            count: paper.plan.count(),
            spans: match is_same {
                true => self.before.spans,
                false => paper.plan.darts.iter().map(|dart| dart.row.len()).sum(),
            },
            lifted: paper.lifted.map.count(),
        }
    }

    fn look_at_accepted(&mut self, command: Command, value: usize, paper: &Paper) {
        let (dim, count) = (paper.plan.dim, paper.plan.count());
        let (before, after) = (self.before, self.after(command, paper));
        self.look_high(command, value);
        match command {
            Command::New { .. } => {
                self.meet(before.spans > 0, NEW_OVER, before.dimension);
                self.adopted.clear();
            }
            Command::Dart => self.meet(count == self.room.plan, LAST_DART, dim),
            Command::Sew { .. } => {
                self.meet(value >= 4, WIDE_SEW, dim);
                self.meet(value >= 8, WIDER_SEW, dim);
            }
            Command::Unsew { axis, a } => {
                let reached = partners(&paper.plan, axis.into(), a.into()).len();
                self.meet(value >= 4, WIDE_UNSEW, dim);
                self.meet(value < 2 * reached, TWISTED, dim);
            }
            Command::Span { .. } | Command::SpanOf { .. } => self.look_at_span(command, paper),
            Command::Clear { .. } => self.meet(after.spans < before.spans, EMPTIED, dim),
            Command::Lift => {
                self.look_at_lift(dim, value);
                self.look_at_objects(paper);
            }
            Command::Adopt => self.look_at_adopt(paper, value),
            Command::Count { side, .. } => {
                let map = [&paper.plan, &paper.lifted.map][usize::from(side)];
                let kind = COUNTED[usize::from(side)];
                self.meet(map.count() > 0, kind, map.dim);
            }
            _ => {}
        }
        self.before = after;
    }

    /// Numbers that need two bytes, in a command or in its reply.
    fn look_high(&mut self, command: Command, value: usize) {
        let (byte, dart) = match command {
            Command::Dart => (0x11, 0),
            Command::Sew { a, b, .. } => (0x12, a.max(b)),
            Command::Unsew { a, .. } => (0x13, a),
            Command::Place { dart, .. } => (0x14, dart),
            Command::Span { dart, .. } => (0x15, dart),
            Command::Lift => (0x17, 0),
            Command::Adopt => (0x18, 0),
            Command::Count { .. } => (0x19, 0),
            Command::SpanOf { dart, .. } => (0x1a, dart),
            _ => return,
        };
        self.meet(dart > 255, HIGH_DART, byte);
        self.meet(value > 255, HIGH_VALUE, byte);
    }

    fn look_at_lift(&mut self, dim: usize, value: usize) {
        let (old, room) = (self.before.lifted, self.room.lifted);
        self.meet(value > 0, LIFTED, dim);
        self.meet(value > 0 && value == room, EXACT_LIFT, dim);
        self.meet(value < old, SMALLER_LIFT, dim);
        self.meet(value == 0 && old > 0, EMPTY_LIFT, dim);
    }

    /// What the darts of an accepted lift carry, and what those before it did.
    fn look_at_objects(&mut self, paper: &Paper) {
        let (plan, objects) = (&paper.plan, &paper.lifted.objects);
        let (dim, count) = (plan.dim, objects.len());
        let differ = |row: &[Span]| row.windows(2).any(|w| w[0].object != w[1].object);
        let is_beside = (0..plan.count()).any(|d| differ(plan.row(d)));
        self.meet(is_beside, SIDE_BY_SIDE, dim);
        let mut behind = self.objects.iter().skip(count);
        let is_shorter = behind.any(|&object| object != SPAN_OBJECT);
        self.meet(is_shorter, SHORTER_OBJECTS, dim);
        let had_some = self.adopted.iter().any(|&object| object != SPAN_OBJECT);
        let is_left = objects.iter().any(|object| self.adopted.contains(object));
        self.meet(count > 0 && had_some && !is_left, GONE_OBJECTS, dim);
        let is_exact = count > 0 && self.object_rows == Some(count);
        self.meet(is_exact, EXACT_OBJECTS, dim);
        self.objects.clone_from(objects);
    }

    fn look_at_span(&mut self, command: Command, paper: &Paper) {
        if let Some((dart, added)) = command.span() {
            let (dim, row) = (paper.plan.dim, paper.plan.row(dart.into()));
            let is_first = row.last().is_some_and(|span| span.lo > added.lo);
            self.meet(is_first, FIRST_SPAN, dim);
            self.meet(added.object == u16::MAX, GREATEST, dim);
        }
    }

    fn look_at_adopt(&mut self, paper: &Paper, value: usize) {
        let dim = paper.plan.dim;
        self.meet(value > 0, ADOPTED, dim);
        self.meet(value < self.before.count, SMALLER_ADOPT, dim);
        self.meet(self.before.spans > 0, SPANNED_ADOPT, dim);
        self.meet(value > 0 && value == self.room.plan, EXACT_ADOPT, dim);
        self.adopted = paper.lifted.objects.iter().copied().collect();
    }

    fn look_at_refused(&mut self, command: Command, number: usize, paper: &Paper) {
        let lifted = &paper.lifted.map;
        match command {
            Command::Sew { axis, a, b } if number == PAIR_DISAGREES.into() => {
                let is_strange = is_strange(&paper.plan, axis.into(), a.into(), b.into());
                self.meet(is_strange, STRANGE_SEW, paper.plan.dim);
            }
            Command::Lift => {
                self.meet(lifted.count() > 0, KEPT_LIFT, number);
                let mut objects = paper.lifted.objects.iter();
                let carries = objects.any(|&object| object != SPAN_OBJECT);
                self.meet(carries, KEPT_OBJECTS, number);
                self.look_at_short_objects(number, paper);
            }
            Command::Adopt => {
                let is_short = lifted.count() == self.room.plan + 1;
                self.meet(is_short, SHORT_ADOPT, lifted.dim);
            }
            _ => {}
        }
    }

    /// A lift that is too large by one dart, for the table of objects alone.
    fn look_at_short_objects(&mut self, number: usize, paper: &Paper) {
        if let Some(rows) = self.object_rows
            && number == TOO_LARGE.into()
        {
            let is_short = lift(&paper.plan, rows + 1).is_some();
            self.meet(is_short, SHORT_OBJECTS, paper.plan.dim);
        }
    }
}

/// Whether a sew that finds pairs that disagree would find none where all spans
/// had one object.
fn is_strange(plan: &Map, axis: usize, a: usize, b: usize) -> bool {
    let mut plan = plan.clone();
    let spans = plan.darts.iter_mut().flat_map(|dart| &mut dart.row);
    spans.for_each(|span| span.object = SPAN_OBJECT);
    pairing(&plan, axis, a, b).is_some_and(|pairs| pairs_agree(&plan, axis, &pairs))
}

/// Where a command stands among the replies; nothing for an unreadable one.
fn place_of(command: Command) -> Option<usize> {
    Some(match command {
        Command::New { .. } => 0,
        Command::Dart => 1,
        Command::Sew { .. } => 2,
        Command::Unsew { .. } => 3,
        Command::Place { .. } => 4,
        Command::Span { .. } => 5,
        Command::SpanOf { .. } => 6,
        Command::Clear { .. } => 7,
        Command::Lift => 8,
        Command::Adopt => 9,
        Command::Count { side, .. } => 10 + usize::from(side.min(2)),
        Command::Unreadable { .. } => return None,
    })
}

/// How many operand bytes 1A has.
const SPAN_OF_OPERANDS: usize = 12;
/// How many tables the plan has.
const PLAN_TABLES: usize = 4;

/// The lengths of all tables with their widths, the plan's first.
fn tables(lengths: &Lengths) -> [(usize, usize); 8] {
    [
        (lengths.plan_links, LINKS),
        (lengths.plan_places, COORDINATES),
        (lengths.plan_spans, SPAN_NUMBERS),
        (lengths.plan_work, WORK),
        (lengths.lifted_links, LINKS),
        (lengths.lifted_places, COORDINATES),
        (lengths.lifted_objects, OBJECTS),
        (lengths.lifted_work, WORK),
    ]
}

impl Met {
    /// Looks on at the run of a list.
    pub fn watch(&mut self, list: &List) -> Watch<'_> {
        self.lists += 1;
        let rows = list.lengths.lifted_objects / OBJECTS;
        let longer = Lengths {
            lifted_objects: OBJECTS * (rows + 1),
            ..list.lengths
        };
        // A row more of objects alone would be a dart more.
        let is_shortest = longer.lifted_capacity() > list.lengths.lifted_capacity();
        Watch {
            met: self,
            room: list.room(),
            object_rows: is_shortest.then_some(rows),
            before: Before::default(),
            objects: Vec::new(),
            adopted: BTreeSet::new(),
            rows: Rows::default(),
        }
    }

    /// Counts how a list ended, and in what room.
    pub fn add_end(&mut self, list: &List, ended: &Ended) {
        let number = usize::from(ended.number);
        self.meet(true, ENDED, number);
        for least in [0, 30, 100, 300] {
            self.meet(ended.taken >= least, COMMANDS, least);
        }
        let last = (1..ended.taken).fold(0, |at, _| read(&list.bytes, at).next);
        let is_behind = ended.number == UNKNOWN_COMMAND && last + 1 < list.bytes.len();
        self.meet(is_behind, BEHIND, number);
        if ended.number == CUT_SHORT && list.bytes[last] == 0x1a {
            let operands = list.bytes.len() - last - 1;
            self.meet(true, CUT_OBJECT, SPAN_OF_OPERANDS - operands);
        }
        self.add_reply(list, ended);
        self.add_rows(list);
    }

    fn add_reply(&mut self, list: &List, ended: &Ended) {
        let reply = list.reply;
        self.meet(true, REPLY_REST, reply % REPLY_BYTES);
        self.meet(!list.bytes.is_empty(), REPLY_SHORT, reply);
        let is_full = reply > 0 && reply == REPLY_BYTES * ended.taken;
        self.meet(is_full, REPLY_EXACT, ended.number.into());
    }

    fn add_rows(&mut self, list: &List) {
        let room = list.room();
        let sides = [
            (PLAN_ROWS, room.plan, list.needs.plan),
            (LIFTED_ROWS, room.lifted, list.needs.lifted),
        ];
        for (side, (kind, rows, need)) in sides.into_iter().enumerate() {
            self.meet(true, kind, rows);
            self.meet(need > 0 && rows == need, EXACT_ROOM, side);
            self.meet(rows + 1 == need, SHORT_ROOM, side);
        }
        let tables = tables(&list.lengths);
        let (plan, lifted) = tables.split_at(PLAN_TABLES);
        self.add_tables(0, 0, plan);
        self.add_tables(1, PLAN_TABLES, lifted);
    }

    /// The tables of a side, numbered from the first on.
    fn add_tables(&mut self, side: usize, first: usize, tables: &[(usize, usize)]) {
        let whole = |&(length, width): &(usize, usize)| length / width;
        let is_high = tables.iter().all(|table| whole(table) > DARTS);
        self.meet(is_high, LIMIT_ROWS, side);
        for (at, table) in tables.iter().enumerate() {
            let as_short = tables.iter().filter(|other| whole(other) <= whole(table));
            self.meet(as_short.count() == 1, SHORTEST, first + at);
            let &(length, width) = table;
            self.meet(!length.is_multiple_of(width), PART_ROW, first + at);
        }
    }

    fn meet(&mut self, is_met: bool, kind: &'static str, number: usize) {
        if is_met {
            *self.kinds.entry((kind, number)).or_default() += 1;
        }
    }

    /// How often a kind was met.
    pub fn times(&self, kind: Kind) -> usize {
        self.kinds.get(&kind).copied().unwrap_or(0)
    }
}
