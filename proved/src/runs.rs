//! Runs held against the reference. All tables and the reply memory are lent
//! with rubbish in them and around them, and compared whole afterwards.

use crate::lent::{Lent, MARGIN, lend16, lend32};
use crate::met::Met;
use crate::{Answer, Ended, LiftedMut, PlanMut, run};
use laremban::{Plan, Size, sizes};
use reference::lift::Lifted;
use reference::lists::List;
use reference::map::Map;
use reference::random::Random;
use reference::raws::{litter_i32, litter_u16};
use reference::run::{After, Lengths, follow, tables_after};
use reference::widths::REPLY_BYTES;
use std::fmt::{Debug, Write};

/// The replies in the memory of a run that took so many commands, in order.
pub fn replies(memory: &[u8], taken: usize) -> Vec<Answer> {
    let replies = memory.as_chunks::<REPLY_BYTES>().0[..taken].iter();
    let answer = |&[number, high, low]: &[u8; REPLY_BYTES]| Answer {
        number,
        value: u16::from_be_bytes([high, low]),
    };
    replies.map(answer).collect()
}

/// All that is lent to a run.
#[derive(Clone)]
pub struct LentRun {
    pub bytes: Lent<u8>,
    pub links: Lent<u16>,
    pub places: Lent<i32>,
    pub spans: Lent<i32>,
    pub work: Lent<u16>,
    pub lifted_links: Lent<u16>,
    pub lifted_places: Lent<i32>,
    pub lifted_objects: Lent<u16>,
    pub lifted_work: Lent<u16>,
    pub replies: Lent<u8>,
}

fn litter_u8(random: &mut Random, length: usize) -> Vec<u8> {
    (0..length).map(|_| random.bits() as u8).collect()
}

fn lend8(random: &mut Random, table: &[u8]) -> Lent<u8> {
    Lent::new([0; 2].map(|_: u8| litter_u8(random, MARGIN)), table)
}

fn any16(random: &mut Random, length: usize) -> Lent<u16> {
    let table = litter_u16(random, length);
    lend16(random, &table)
}

fn any32(random: &mut Random, length: usize) -> Lent<i32> {
    let table = litter_i32(random, length);
    lend32(random, &table)
}

/// Nothing was written beside a table.
fn is_kept<T: Copy + PartialEq>(lent: &Lent<T>) -> bool {
    lent.is_untouched_behind(lent.part().len())
}

impl LentRun {
    /// Bytes, tables of the given lengths and reply memory, all but the bytes
    /// full of rubbish.
    pub fn new(random: &mut Random, bytes: &[u8], lengths: Lengths, reply: usize) -> LentRun {
        let replies = litter_u8(random, reply);
        LentRun {
            bytes: lend8(random, bytes),
            links: any16(random, lengths.plan_links),
            places: any32(random, lengths.plan_places),
            spans: any32(random, lengths.plan_spans),
            work: any16(random, lengths.plan_work),
            lifted_links: any16(random, lengths.lifted_links),
            lifted_places: any32(random, lengths.lifted_places),
            lifted_objects: any16(random, lengths.lifted_objects),
            lifted_work: any16(random, lengths.lifted_work),
            replies: lend8(random, &replies),
        }
    }

    /// Calls the proved run.
    pub fn call(&mut self) -> Ended {
        let mut plan = PlanMut::new(
            self.links.part_mut(),
            self.places.part_mut(),
            self.spans.part_mut(),
            self.work.part_mut(),
        );
        let mut lifted = LiftedMut::new(
            self.lifted_links.part_mut(),
            self.lifted_places.part_mut(),
            self.lifted_objects.part_mut(),
            self.lifted_work.part_mut(),
        );
        run(
            self.bytes.part(),
            &mut plan,
            &mut lifted,
            self.replies.part_mut(),
        )
    }

    /// Nothing was written but tables and replies.
    fn is_kept_around(&self) -> bool {
        self.bytes.is_untouched_behind(0)
            && [&self.links, &self.work].into_iter().all(is_kept)
            && [&self.lifted_links, &self.lifted_objects, &self.lifted_work]
                .into_iter()
                .all(is_kept)
            && [&self.places, &self.spans, &self.lifted_places]
                .into_iter()
                .all(is_kept)
            && is_kept(&self.replies)
    }

    /// What is not as it should be after a run that ended so; nothing where all
    /// is.
    pub fn differences(&self, ended: Ended, wanted: &After) -> String {
        let mut told = String::new();
        let four = Ended {
            number: wanted.number,
            taken: wanted.taken,
            accepted: wanted.accepted,
            refused: wanted.refused,
        };
        if ended != four {
            let _ = writeln!(told, "{ended:?}, wanted {four:?}");
        }
        told += &difference("replies", self.replies.part(), &wanted.reply);
        told += &difference("links", self.links.part(), &wanted.plan_links);
        told += &difference("places", self.places.part(), &wanted.plan_places);
        told += &difference("spans", self.spans.part(), &wanted.plan_spans);
        let (links, places) = (&self.lifted_links, &self.lifted_places);
        told += &difference("lifted links", links.part(), &wanted.lifted_links);
        told += &difference("lifted places", places.part(), &wanted.lifted_places);
        let objects = self.lifted_objects.part();
        told += &difference("lifted objects", objects, &wanted.lifted_objects);
        if !self.is_kept_around() {
            told += "something was written that is not lent for it\n";
        }
        told
    }

    /// What the crate tells otherwise of both maps, once the tables hold them: their
    /// sizes, the plan's rows of spans, and what lifted darts carry.
    fn differences_of_maps(&mut self, ended: Ended, plan: &Map, lifted: &Lifted) -> String {
        let size = |map: &Map| Size {
            dimension: map.dim as u8,
            count: map.count(),
        };
        let told = sizes(self.bytes.part(), self.replies.part(), ended);
        let wanted = [size(plan), size(&lifted.map)];
        if [told.plan, told.lifted] != wanted {
            return format!("{told:?}, wanted {wanted:?}\n");
        }
        self.differences_of_rows(plan, told.plan)
            + &self.differences_of_objects(lifted, told.lifted)
    }

    /// The rows of spans of a plan of this size, as the crate tells them.
    fn differences_of_rows(&mut self, plan: &Map, size: Size) -> String {
        let (links, places) = (self.links.part(), self.places.part());
        let (spans, work) = (self.spans.part(), self.work.part_mut());
        let Size { dimension, count } = size;
        let map = Plan::new(links, places, spans, work, dimension, count).map();
        let held = |d: usize| map.row(d).into_iter().map(|s| (s.lo, s.hi, s.object));
        let wanted = |d: usize| plan.row(d).iter().map(|s| (s.lo, s.hi, s.object));
        let other = (0..count).find(|&d| !held(d).eq(wanted(d)));
        other.map_or_else(String::new, |d| format!("the row of dart {d} is another\n"))
    }

    /// The objects that the darts of a lifted map of this size carry, as the crate
    /// tells them.
    fn differences_of_objects(&mut self, lifted: &Lifted, size: Size) -> String {
        let tables = LiftedMut::new(
            self.lifted_links.part_mut(),
            self.lifted_places.part_mut(),
            self.lifted_objects.part_mut(),
            self.lifted_work.part_mut(),
        );
        let Size { dimension, count } = size;
        let map = tables.map(dimension, count);
        let other = (0..count).find(|&d| map.object(d) != lifted.objects[d]);
        other.map_or_else(String::new, |d| {
            format!("dart {d} carries another object\n")
        })
    }
}

/// Where a table first differs from what is wanted, in a line; nothing where it
/// does not. Both have the length that was lent.
fn difference<T: Debug + PartialEq>(name: &str, table: &[T], wanted: &[T]) -> String {
    let at = table
        .iter()
        .zip(wanted)
        .position(|(one, other)| one != other);
    at.map_or_else(String::new, |at| {
        let (found, wanted) = (&table[at], &wanted[at]);
        format!("{name}: at {at} stands {found:?}, wanted {wanted:?}\n")
    })
}

/// One list by the proved run against the reference. What the list meets is
/// counted. The reference's end, or what differs.
pub fn compare(random: &mut Random, list: &List, met: &mut Met) -> Result<After, String> {
    let mut lent = LentRun::new(random, &list.bytes, list.lengths, list.reply);
    let mut watch = met.watch(list);
    let ended = follow(&list.bytes, list.room(), |command, reply, paper| {
        watch.look(command, reply, paper)
    });
    met.add_end(list, &ended);
    let wanted = tables_after(&ended, list.lengths, lent.replies.part());
    let four = lent.call();
    let mut differs = lent.differences(four, &wanted);
    if differs.is_empty() {
        differs = lent.differences_of_maps(four, &ended.plan, &ended.lifted);
    }
    match differs.is_empty() {
        true => Ok(wanted),
        false => Err(differs + &describe(list)),
    }
}

/// A list in words: what was lent to it, and its bytes.
fn describe(list: &List) -> String {
    let mut told = format!("in {:?}, reply memory {}, bytes", list.lengths, list.reply);
    for byte in &list.bytes {
        let _ = write!(told, " {byte:02x}");
    }
    told
}
