//! What each command does to the two maps, and one step of the run on paper.

use crate::command::{Command, read};
use crate::lift::{Lifted, lift};
use crate::map::{Dart, Map, Span};
use crate::orbit::{cell, count_cells, top_cell};
use crate::refusal::*;
use crate::sew::{pairing, pairs_agree, partners};
use crate::span::{overlap, with_span};
use crate::widths::*;
use std::collections::BTreeSet;

/// One reply: the number, 0 when accepted, and the value.
#[derive(Clone, Copy, Debug, PartialEq, Eq)]
pub struct Reply {
    pub number: u8,
    pub value: u16,
}

/// What a run is lent: both capacities in darts and the reply memory in bytes.
#[derive(Clone, Copy, Debug, PartialEq, Eq)]
pub struct Room {
    pub plan: usize,
    pub lifted: usize,
    pub reply: usize,
}

impl Room {
    /// Cuts both capacities to the greatest number of darts a side may have.
    pub fn new(plan: usize, lifted: usize, reply: usize) -> Room {
        Room {
            plan: plan.min(DARTS),
            lifted: lifted.min(DARTS),
            reply,
        }
    }
}

/// What the run on paper keeps from step to step.
#[derive(Clone, Debug, PartialEq, Eq)]
pub struct Paper {
    pub plan: Map,
    pub lifted: Lifted,
    pub replies: Vec<Reply>,
    pub taken: usize,
    pub accepted: usize,
    pub refused: usize,
}

/// How a step leaves off: at the place of the next command, or at the end of
/// the run with the number it ended by.
#[derive(Clone, Copy, Debug, PartialEq, Eq)]
pub enum Next {
    At(usize),
    End(u8),
}

impl Paper {
    /// Both maps blank, no object, no reply, all counts 0.
    pub fn blank() -> Paper {
        Paper {
            plan: Map::blank(),
            lifted: Lifted::blank(),
            replies: Vec::new(),
            taken: 0,
            accepted: 0,
            refused: 0,
        }
    }
}

/// One step. No byte left ends the run by 0, and that is seen first; too
/// little reply memory ends it by 23; neither is counted. Otherwise a command
/// is read, tried and replied to, and an unreadable one also ends the run.
pub fn step(paper: &mut Paper, room: Room, bytes: &[u8], at: usize) -> Next {
    if at >= bytes.len() {
        return Next::End(ACCEPTED);
    }
    let left = room.reply.saturating_sub(REPLY_BYTES * paper.replies.len());
    if left < REPLY_BYTES {
        return Next::End(REPLIES_FULL);
    }
    let found = read(bytes, at);
    let outcome = carry_out(&mut paper.plan, &mut paper.lifted, room, found.command);
    note(paper, outcome);
    match found.command {
        Command::Unreadable { number } => Next::End(number),
        _ => Next::At(found.next),
    }
}

/// Writes the reply of an outcome and counts it.
fn note(paper: &mut Paper, outcome: Result<usize, u8>) {
    paper.taken += 1;
    match outcome {
        Ok(_) => paper.accepted += 1,
        Err(_) => paper.refused += 1,
    }
    paper.replies.push(reply_of(outcome));
}

/// The reply of an outcome: 0 and the value, or the refusal number and 0. A
/// value is at most the number of darts a side may have, so 16 bits hold it.
pub fn reply_of(outcome: Result<usize, u8>) -> Reply {
    match outcome {
        Ok(value) => Reply {
            number: ACCEPTED,
            value: u16::try_from(value).unwrap_or(u16::MAX),
        },
        Err(number) => Reply { number, value: 0 },
    }
}

/// Does a command, giving its value, or gives the number it is refused by and
/// leaves both sides alone: each function below tries all refusals, in their
/// order, before it writes anything.
pub fn carry_out(
    plan: &mut Map,
    lifted: &mut Lifted,
    room: Room,
    command: Command,
) -> Result<usize, u8> {
    match command {
        Command::New { dimension } => new(plan, dimension),
        Command::Dart => dart(plan, room.plan),
        Command::Sew { axis, a, b } => sew(plan, axis.into(), a.into(), b.into()),
        Command::Unsew { axis, a } => unsew(plan, axis.into(), a.into()),
        Command::Place {
            dart,
            axis,
            coordinate,
        } => place(plan, dart.into(), axis.into(), coordinate),
        // SPAN is 1A with one object for all.
        Command::Span { dart, lo, hi } => {
            let object = SPAN_OBJECT;
            span(plan, dart.into(), Span { lo, hi, object })
        }
        Command::SpanOf {
            dart,
            lo,
            hi,
            object,
        } => span(plan, dart.into(), Span { lo, hi, object }),
        Command::Clear { dart } => clear(plan, dart.into()),
        Command::Lift => lift_plan(plan, lifted, room.lifted),
        Command::Adopt => adopt(plan, &lifted.map, room.plan),
        Command::Count { side, axis } => count(plan, &lifted.map, side, axis.into()),
        Command::Unreadable { number } => Err(number),
    }
}

/// Refuses by the number when the condition is met.
fn refuse_if(met: bool, number: u8) -> Result<(), u8> {
    if met { Err(number) } else { Ok(()) }
}

/// NEW: the plan becomes a map without darts, of a dimension from 1 to 4.
fn new(plan: &mut Map, dimension: u8) -> Result<usize, u8> {
    let dim = usize::from(dimension);
    let known = (LEAST_DIMENSION..=GREATEST_NEW_DIMENSION).contains(&dim);
    refuse_if(!known, OUT_OF_RANGE)?;
    *plan = Map::empty(dim);
    Ok(0)
}

/// DART: one more dart, free everywhere, at place 0, without spans.
fn dart(plan: &mut Map, capacity: usize) -> Result<usize, u8> {
    refuse_if(plan.is_blank(), NO_PLAN)?;
    refuse_if(plan.count() >= capacity, PLAN_FULL)?;
    let own = plan.count();
    plan.darts.push(Dart {
        links: vec![own; plan.dim + 1],
        place: vec![0; plan.dim],
        row: Vec::new(),
    });
    Ok(own)
}

/// SEW: links the partners of a with those of b, pair by pair.
fn sew(plan: &mut Map, axis: usize, a: usize, b: usize) -> Result<usize, u8> {
    refuse_if(plan.is_blank(), NO_PLAN)?;
    refuse_if(axis > plan.dim, OUT_OF_RANGE)?;
    refuse_if(a >= plan.count() || b >= plan.count(), NO_SUCH_DART)?;
    let linked = !plan.is_free(a, axis) || !plan.is_free(b, axis);
    refuse_if(linked, ALREADY_LINKED)?;
    let pairs = pairing(plan, axis, a, b).ok_or(NO_PAIRING)?;
    refuse_if(!pairs_agree(plan, axis, &pairs), PAIR_DISAGREES)?;
    let mut linked = BTreeSet::new();
    for (&d, &e) in &pairs {
        plan.darts[d].links[axis] = e;
        plan.darts[e].links[axis] = d;
        linked.extend([d, e]);
    }
    Ok(linked.len())
}

/// UNSEW: frees the partners of a and whatever they were linked to. The value
/// counts each freed dart once, also where a partner's partner is one of them.
fn unsew(plan: &mut Map, axis: usize, a: usize) -> Result<usize, u8> {
    refuse_if(plan.is_blank(), NO_PLAN)?;
    refuse_if(axis > plan.dim, OUT_OF_RANGE)?;
    refuse_if(a >= plan.count(), NO_SUCH_DART)?;
    refuse_if(plan.is_free(a, axis), ALREADY_FREE)?;
    let mut freed = BTreeSet::new();
    for d in partners(plan, axis, a) {
        freed.extend([d, plan.link(d, axis)]);
    }
    for &d in &freed {
        plan.darts[d].links[axis] = d;
    }
    Ok(freed.len())
}

/// PLACE: one coordinate for all darts of the corner. Here the axis numbers a
/// coordinate, so it is below the dimension.
fn place(plan: &mut Map, dart: usize, axis: usize, coordinate: i32) -> Result<usize, u8> {
    refuse_if(plan.is_blank(), NO_PLAN)?;
    refuse_if(axis >= plan.dim, OUT_OF_RANGE)?;
    refuse_if(dart >= plan.count(), NO_SUCH_DART)?;
    let corner = cell(plan, dart, 0);
    for &d in &corner {
        plan.darts[d].place[axis] = coordinate;
    }
    Ok(corner.len())
}

/// SPAN and 1A: a new span for all darts of the top cell. What it overlaps in their
/// row has to be of its object, and becomes one span with it; only a row that is
/// too long after that is full.
fn span(plan: &mut Map, dart: usize, added: Span) -> Result<usize, u8> {
    refuse_if(plan.is_blank(), NO_PLAN)?;
    refuse_if(dart >= plan.count(), NO_SUCH_DART)?;
    refuse_if(added.lo >= added.hi, EMPTY_SPAN)?;
    let row = plan.row(dart);
    let clashes = |held: &Span| overlap(*held, added) && held.object != added.object;
    refuse_if(row.iter().any(clashes), SPAN_OVERLAPS)?;
    let after = with_span(row, added);
    refuse_if(after.len() > SPANS, ROW_FULL)?;
    let parcel = top_cell(plan, dart);
    for &d in &parcel {
        plan.darts[d].row.clone_from(&after);
    }
    Ok(parcel.len())
}

/// CLEAR: no spans any more for all darts of the top cell.
fn clear(plan: &mut Map, dart: usize) -> Result<usize, u8> {
    refuse_if(plan.is_blank(), NO_PLAN)?;
    refuse_if(dart >= plan.count(), NO_SUCH_DART)?;
    let parcel = top_cell(plan, dart);
    for &d in &parcel {
        plan.darts[d].row.clear();
    }
    Ok(parcel.len())
}

/// LIFT: the lifted map becomes the lift of the plan, and its darts carry objects.
fn lift_plan(plan: &Map, lifted: &mut Lifted, capacity: usize) -> Result<usize, u8> {
    refuse_if(plan.is_blank(), NO_PLAN)?;
    refuse_if(plan.dim >= GREATEST_DIMENSION, TOP_DIMENSION)?;
    *lifted = lift(plan, capacity).ok_or(TOO_LARGE)?;
    Ok(lifted.map.count())
}

/// ADOPT: the plan becomes a copy of the lifted map, its rows empty. No plan
/// has to be there before. Objects that lifted darts carry stay with them.
fn adopt(plan: &mut Map, lifted: &Map, capacity: usize) -> Result<usize, u8> {
    refuse_if(lifted.is_blank(), NOTHING_LIFTED)?;
    refuse_if(lifted.count() > capacity, PLAN_FULL)?;
    *plan = lifted.clone();
    for dart in &mut plan.darts {
        dart.row.clear();
    }
    Ok(plan.count())
}

/// COUNT: the cells of an axis on one side. The side is judged first, then
/// whether that side is blank, then the axis.
fn count(plan: &Map, lifted: &Map, side: u8, axis: usize) -> Result<usize, u8> {
    let (map, blank) = match side {
        0 => (plan, NO_PLAN),
        1 => (lifted, NOTHING_LIFTED),
        _ => return Err(OUT_OF_RANGE),
    };
    refuse_if(map.is_blank(), blank)?;
    refuse_if(axis > map.dim, OUT_OF_RANGE)?;
    Ok(count_cells(map, axis))
}
