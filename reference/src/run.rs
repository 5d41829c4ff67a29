//! The run on paper, the same run seen in lent tables, and its trace.

use crate::command::{Command, read};
use crate::lift::Lifted;
use crate::map::Map;
use crate::step::{Next, Paper, Reply, Room, step};
use crate::table::{
    lifted_capacity, plan_capacity, write_links, write_objects, write_places, write_spans,
};
use crate::widths::REPLY_BYTES;

/// How a run ended: its four numbers, all replies, both maps and the objects of
/// the lifted darts.
#[derive(Clone, Debug, PartialEq, Eq)]
pub struct Ended {
    pub number: u8,
    pub taken: usize,
    pub accepted: usize,
    pub refused: usize,
    pub replies: Vec<Reply>,
    pub plan: Map,
    pub lifted: Lifted,
}

/// The run on paper, fed with the bytes, both capacities and the length of the
/// reply memory, and nothing else.
pub fn run(bytes: &[u8], plan: usize, lifted: usize, reply: usize) -> Ended {
    follow(bytes, Room::new(plan, lifted, reply), |_, _, _| {})
}

/// The same, shown after each command that was replied to, with the reply and
/// what the run keeps. The maps are not copied, so that long runs are followed
/// quickly.
pub fn follow(bytes: &[u8], room: Room, mut look: impl FnMut(Command, Reply, &Paper)) -> Ended {
    let mut paper = Paper::blank();
    let mut at = 0;
    loop {
        let replies = paper.replies.len();
        let next = step(&mut paper, room, bytes, at);
        if let Some(&reply) = paper.replies.get(replies) {
            look(read(bytes, at).command, reply, &paper);
        }
        match next {
            Next::At(place) => at = place,
            Next::End(number) => return ended(paper, number),
        }
    }
}

/// What is reported of a run that ended by a number.
fn ended(paper: Paper, number: u8) -> Ended {
    Ended {
        number,
        taken: paper.taken,
        accepted: paper.accepted,
        refused: paper.refused,
        replies: paper.replies,
        plan: paper.plan,
        lifted: paper.lifted,
    }
}

/// The lengths of the eight lent tables, in numbers.
#[derive(Clone, Copy, Debug, PartialEq, Eq)]
pub struct Lengths {
    pub plan_links: usize,
    pub plan_places: usize,
    pub plan_spans: usize,
    pub plan_work: usize,
    pub lifted_links: usize,
    pub lifted_places: usize,
    pub lifted_objects: usize,
    pub lifted_work: usize,
}

impl Lengths {
    /// The plan's capacity: its fewest whole rows in any of four tables.
    pub fn plan_capacity(&self) -> usize {
        plan_capacity(
            self.plan_links,
            self.plan_places,
            self.plan_spans,
            self.plan_work,
        )
    }

    /// The lifted side's capacity: its fewest whole rows in any of four.
    pub fn lifted_capacity(&self) -> usize {
        lifted_capacity(
            self.lifted_links,
            self.lifted_places,
            self.lifted_objects,
            self.lifted_work,
        )
    }
}

/// All that is fixed after a run on tables: every table but work, the reply
/// memory and the four numbers.
#[derive(Clone, Debug, PartialEq, Eq)]
pub struct After {
    pub plan_links: Vec<u16>,
    pub plan_places: Vec<i32>,
    pub plan_spans: Vec<i32>,
    pub lifted_links: Vec<u16>,
    pub lifted_places: Vec<i32>,
    pub lifted_objects: Vec<u16>,
    pub reply: Vec<u8>,
    pub number: u8,
    pub taken: usize,
    pub accepted: usize,
    pub refused: usize,
}

/// The run on tables. What the tables held before does not matter: afterwards
/// they hold the two maps of the run on paper and the objects of its lifted
/// darts, row for row, then 0 to the end of each table. The reply memory keeps what it held past the last reply.
pub fn run_on_tables(bytes: &[u8], lengths: Lengths, reply_before: &[u8]) -> After {
    let (plan, lifted) = (lengths.plan_capacity(), lengths.lifted_capacity());
    let ended = run(bytes, plan, lifted, reply_before.len());
    tables_after(&ended, lengths, reply_before)
}

/// What a run on tables of these lengths leaves, where it ended so on paper.
pub fn tables_after(ended: &Ended, lengths: Lengths, reply_before: &[u8]) -> After {
    After {
        plan_links: write_links(&ended.plan, lengths.plan_links),
        plan_places: write_places(&ended.plan, lengths.plan_places),
        plan_spans: write_spans(&ended.plan, lengths.plan_spans),
        lifted_links: write_links(&ended.lifted.map, lengths.lifted_links),
        lifted_places: write_places(&ended.lifted.map, lengths.lifted_places),
        lifted_objects: write_objects(&ended.lifted.objects, lengths.lifted_objects),
        reply: write_replies(&ended.replies, reply_before),
        number: ended.number,
        taken: ended.taken,
        accepted: ended.accepted,
        refused: ended.refused,
    }
}

/// The reply memory: three bytes a reply from the start, the rest as it was.
pub fn write_replies(replies: &[Reply], before: &[u8]) -> Vec<u8> {
    let mut memory = before.to_vec();
    for (slot, reply) in memory.chunks_exact_mut(REPLY_BYTES).zip(replies) {
        let [high, low] = reply.value.to_be_bytes();
        slot.copy_from_slice(&[reply.number, high, low]);
    }
    memory
}

/// One command that was replied to, with both sides before and after it.
#[derive(Clone, Debug)]
pub struct Taken {
    pub command: Command,
    pub reply: Reply,
    pub plan_before: Map,
    pub lifted_before: Lifted,
    pub plan: Map,
    pub lifted: Lifted,
}

/// The run once more, keeping every command taken; for tallies and tests.
pub fn trace(bytes: &[u8], plan: usize, lifted: usize, reply: usize) -> Vec<Taken> {
    let room = Room::new(plan, lifted, reply);
    let mut paper = Paper::blank();
    let mut seen = Vec::new();
    let mut at = 0;
    loop {
        let command = read(bytes, at).command;
        let (plan_before, lifted_before) = (paper.plan.clone(), paper.lifted.clone());
        let replies = paper.replies.len();
        let next = step(&mut paper, room, bytes, at);
        if let Some(&reply) = paper.replies.get(replies) {
            seen.push(Taken {
                command,
                reply,
                plan_before,
                lifted_before,
                plan: paper.plan.clone(),
                lifted: paper.lifted.clone(),
            });
        }
        match next {
            Next::At(place) => at = place,
            Next::End(_) => return seen,
        }
    }
}
