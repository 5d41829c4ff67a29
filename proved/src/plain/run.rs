//! The run, frozen at document 01 and its ten commands: the proved code's
//! algorithms in the same lent memory, written tight.
//!
//! Both sides are blanked once, to the ends of their tables. From then on a
//! command writes and clears rows that are or were in use, so that it costs
//! what it touches. Sets of darts stand in work and need no clearing.

use super::check::Sparse;
use super::lift::lift_rows;
use super::*;
use reference::refusal::*;

/// A row of spans.
type Row = [i32; SPAN_NUMBERS];

/// The run: its four numbers. Tables and replies are left as the proved run
/// leaves them.
pub fn run(bytes: &[u8], plan: &mut PlanMut, lifted: &mut LiftedMut, replies: &mut [u8]) -> Ended {
    let mut run = Run::blank(plan, lifted);
    let mut ended = Ended {
        number: ACCEPTED,
        taken: 0,
        accepted: 0,
        refused: 0,
    };
    let mut at = 0;
    let mut slots = replies.as_chunks_mut::<REPLY_BYTES>().0.iter_mut();
    while at < bytes.len() && ended.number == ACCEPTED {
        let Some(slot) = slots.next() else {
            ended.number = REPLIES_FULL;
            break;
        };
        let (outcome, length) = run.carry_out(&bytes[at..]);
        note(outcome, slot, &mut ended);
        if let Err(number @ (UNKNOWN_COMMAND | CUT_SHORT)) = outcome {
            ended.number = number;
        }
        at += length;
    }
    ended
}

/// Writes the reply of an outcome and counts it.
fn note(outcome: Result<usize, u8>, slot: &mut [u8; REPLY_BYTES], ended: &mut Ended) {
    ended.taken += 1;
    *slot = match outcome {
        Ok(value) => {
            ended.accepted += 1;
            let [high, low] = (value as u16).to_be_bytes();
            [ACCEPTED, high, low]
        }
        Err(number) => {
            ended.refused += 1;
            [number, 0, 0]
        }
    };
}

/// Refuses by the number when the condition is met.
#[inline(always)]
fn refuse_if(is_met: bool, number: u8) -> Result<(), u8> {
    match is_met {
        true => Err(number),
        false => Ok(()),
    }
}

/// The fewest whole rows of a side's links, places and work, at most what it may
/// have.
fn capacity(links: usize, places: usize, work: usize) -> usize {
    let rows = [links / LINKS, places / COORDINATES, work / WORK];
    rows.into_iter().fold(DARTS, usize::min)
}

/// One side's links and places, its work, its room and its map's size. Past the
/// last dart all rows but those of work are 0.
struct Side<'a> {
    links: &'a mut [u16],
    places: &'a mut [i32],
    work: &'a mut [u16],
    room: usize,
    dimension: usize,
    count: usize,
}

impl Side<'_> {
    /// Clears rows that are not in use any more: from the count on, up to the
    /// count that was.
    fn clear(&mut self, old: usize) {
        let old = old.max(self.count);
        self.links[LINKS * self.count..LINKS * old].fill(0);
        self.places[COORDINATES * self.count..COORDINATES * old].fill(0);
    }

    fn link(&self, d: u16, axis: usize) -> u16 {
        self.links[LINKS * usize::from(d) + axis]
    }

    fn has(&self, d: u16) -> bool {
        usize::from(d) < self.count
    }
}

/// Both sides, and the plan's rows of spans.
struct Run<'a> {
    plan: Side<'a>,
    spans: &'a mut [i32],
    lifted: Side<'a>,
}

/// The darts that links of these axes reach from a dart, listed in work.
#[inline(always)]
fn reached<'a>(
    links: &[[u16; LINKS]],
    work: &'a mut [u16],
    d: u16,
    dimension: usize,
    is_followed: impl Fn(usize) -> bool,
) -> &'a [u16] {
    let mut set = Sparse::new(work, links.len());
    set.flood(links, d, dimension, is_followed);
    set.members()
}

impl<'a> Run<'a> {
    /// Both sides blank, to the ends of their tables.
    fn blank(plan: &'a mut PlanMut, lifted: &'a mut LiftedMut) -> Run<'a> {
        let (p, l) = (plan, lifted);
        for table in [&mut *p.links, &mut *l.links] {
            table.fill(0);
        }
        for table in [&mut *p.places, &mut *p.spans, &mut *l.places] {
            table.fill(0);
        }
        let (links, places, work) = (p.links.len(), p.places.len(), p.work.len());
        Run {
            plan: Side {
                room: capacity(links, places, work).min(p.spans.len() / SPAN_NUMBERS),
                links: p.links,
                places: p.places,
                work: p.work,
                dimension: 0,
                count: 0,
            },
            spans: p.spans,
            lifted: Side {
                room: capacity(l.links.len(), l.places.len(), l.work.len()),
                links: l.links,
                places: l.places,
                work: l.work,
                dimension: 0,
                count: 0,
            },
        }
    }

    /// Does the command that bytes begin with: its value, or the number that it is
    /// refused by, and how many bytes it takes. One that can't be read takes all.
    fn carry_out(&mut self, bytes: &[u8]) -> (Result<usize, u8>, usize) {
        let dart = |a, b| u16::from_be_bytes([a, b]);
        let height = |a, b, c, d| i32::from_be_bytes([a, b, c, d]);
        match *bytes {
            [0x10, dimension, ..] => (self.begin(dimension.into()), 2),
            [0x11, ..] => (self.dart(), 1),
            [0x12, i, a, b, c, d, ..] => (self.sew(i.into(), dart(a, b), dart(c, d)), 6),
            [0x13, i, a, b, ..] => (self.unsew(i.into(), dart(a, b)), 4),
            [0x14, a, b, i, s, t, u, v, ..] => {
                (self.place(dart(a, b), i.into(), height(s, t, u, v)), 8)
            }
            [0x15, a, b, s, t, u, v, w, x, y, z, ..] => {
                let (lo, hi) = (height(s, t, u, v), height(w, x, y, z));
                (self.span(dart(a, b), lo, hi), 11)
            }
            [0x16, a, b, ..] => (self.clear(dart(a, b)), 3),
            [0x17, ..] => (self.lift(), 1),
            [0x18, ..] => (self.adopt(), 1),
            [0x19, side, i, ..] => (self.count(side, i.into()), 3),
            [0x10..=0x19, ..] => (Err(CUT_SHORT), bytes.len()),
            _ => (Err(UNKNOWN_COMMAND), bytes.len()),
        }
    }

    fn wants_plan(&self) -> Result<(), u8> {
        refuse_if(self.plan.dimension == 0, NO_PLAN)
    }

    fn begin(&mut self, dimension: usize) -> Result<usize, u8> {
        let is_known = (LEAST_DIMENSION..=GREATEST_NEW_DIMENSION).contains(&dimension);
        refuse_if(!is_known, OUT_OF_RANGE)?;
        let old = self.plan.count;
        self.plan.dimension = dimension;
        self.plan.count = 0;
        self.plan.clear(old);
        self.spans[..SPAN_NUMBERS * old].fill(0);
        Ok(0)
    }

    fn dart(&mut self) -> Result<usize, u8> {
        self.wants_plan()?;
        let own = self.plan.count;
        refuse_if(own >= self.plan.room, PLAN_FULL)?;
        self.plan.links[LINKS * own..][..LINKS].fill(own as u16);
        self.plan.count += 1;
        Ok(own)
    }

    fn sew(&mut self, axis: usize, a: u16, b: u16) -> Result<usize, u8> {
        self.wants_plan()?;
        let plan = &mut self.plan;
        refuse_if(axis > plan.dimension, OUT_OF_RANGE)?;
        refuse_if(!plan.has(a) || !plan.has(b), NO_SUCH_DART)?;
        let is_linked = plan.link(a, axis) != a || plan.link(b, axis) != b;
        refuse_if(is_linked, ALREADY_LINKED)?;
        let links = &mut plan.links.as_chunks_mut::<LINKS>().0[..plan.count];
        let mut pairs = Pairs::new(plan.work, plan.count);
        let is_paired = pairs.meet(a, b) && pairs.walk(links, plan.dimension, axis);
        refuse_if(!is_paired, NO_PAIRING)?;
        let places = plan.places.as_chunks::<COORDINATES>().0;
        let rows = self.spans.as_chunks::<SPAN_NUMBERS>().0;
        let is_agreed = pairs.list().all(|(d, e)| {
            (axis == 0 || places[d] == places[e]) && (axis == plan.dimension || rows[d] == rows[e])
        });
        refuse_if(!is_agreed, PAIR_DISAGREES)?;
        for (d, e) in pairs.list() {
            links[d][axis] = e as u16;
            links[e][axis] = d as u16;
        }
        Ok(2 * pairs.length)
    }

    /// A dart is freed once, also where its partner is reached as well: it is
    /// free by then.
    fn unsew(&mut self, axis: usize, a: u16) -> Result<usize, u8> {
        self.wants_plan()?;
        let plan = &mut self.plan;
        refuse_if(axis > plan.dimension, OUT_OF_RANGE)?;
        refuse_if(!plan.has(a), NO_SUCH_DART)?;
        refuse_if(plan.link(a, axis) == a, ALREADY_FREE)?;
        let rows = &mut plan.links.as_chunks_mut::<LINKS>().0[..plan.count];
        let is_distant = |j: usize| j.abs_diff(axis) >= APART;
        let darts = reached(rows, plan.work, a, plan.dimension, is_distant);
        let mut freed = 0;
        for &d in darts {
            let e = rows[usize::from(d)][axis];
            if e != d {
                rows[usize::from(d)][axis] = d;
                rows[usize::from(e)][axis] = e;
                freed += 2;
            }
        }
        Ok(freed)
    }

    fn place(&mut self, dart: u16, axis: usize, coordinate: i32) -> Result<usize, u8> {
        self.wants_plan()?;
        let plan = &mut self.plan;
        refuse_if(axis >= plan.dimension, OUT_OF_RANGE)?;
        refuse_if(!plan.has(dart), NO_SUCH_DART)?;
        let rows = &plan.links.as_chunks().0[..plan.count];
        let corner = reached(rows, plan.work, dart, plan.dimension, |j| j != 0);
        for &d in corner {
            plan.places[COORDINATES * usize::from(d) + axis] = coordinate;
        }
        Ok(corner.len())
    }

    fn span(&mut self, dart: u16, lo: i32, hi: i32) -> Result<usize, u8> {
        self.wants_plan()?;
        refuse_if(!self.plan.has(dart), NO_SUCH_DART)?;
        refuse_if(lo >= hi, EMPTY_SPAN)?;
        let row = &self.spans.as_chunks().0[usize::from(dart)];
        let new = with_span(row, lo, hi)?;
        Ok(self.write_row(dart, &new))
    }

    fn clear(&mut self, dart: u16) -> Result<usize, u8> {
        self.wants_plan()?;
        refuse_if(!self.plan.has(dart), NO_SUCH_DART)?;
        Ok(self.write_row(dart, &[0; SPAN_NUMBERS]))
    }

    /// Writes a row to every dart of a top cell; how many they are.
    fn write_row(&mut self, dart: u16, row: &Row) -> usize {
        let plan = &mut self.plan;
        let top = plan.dimension;
        let links = &plan.links.as_chunks().0[..plan.count];
        let rows = self.spans.as_chunks_mut::<SPAN_NUMBERS>().0;
        let parcel = reached(links, plan.work, dart, top, |j| j != top);
        for &d in parcel {
            rows[usize::from(d)] = *row;
        }
        parcel.len()
    }

    fn lift(&mut self) -> Result<usize, u8> {
        self.wants_plan()?;
        let (plan, lifted) = (&mut self.plan, &mut self.lifted);
        refuse_if(plan.dimension >= GREATEST_DIMENSION, TOP_DIMENSION)?;
        let mut tables = Plan {
            links: plan.links,
            places: plan.places,
            spans: self.spans,
            work: plan.work,
            dimension: plan.dimension as u8,
            count: plan.count,
        };
        let mut side = LiftedMut {
            links: lifted.links,
            places: lifted.places,
            work: lifted.work,
        };
        let darts = lift_rows(&mut tables, &mut side).ok_or(TOO_LARGE)?;
        let old = lifted.count;
        lifted.dimension = plan.dimension + 1;
        lifted.count = darts;
        lifted.clear(old);
        Ok(darts)
    }

    fn adopt(&mut self) -> Result<usize, u8> {
        let (plan, lifted) = (&mut self.plan, &self.lifted);
        refuse_if(lifted.dimension == 0, NOTHING_LIFTED)?;
        let (old, new) = (plan.count, lifted.count);
        refuse_if(new > plan.room, PLAN_FULL)?;
        plan.links[..LINKS * new].copy_from_slice(&lifted.links[..LINKS * new]);
        plan.places[..COORDINATES * new].copy_from_slice(&lifted.places[..COORDINATES * new]);
        plan.dimension = lifted.dimension;
        plan.count = new;
        plan.clear(old);
        self.spans[..SPAN_NUMBERS * old].fill(0);
        Ok(new)
    }

    fn count(&mut self, side: u8, axis: usize) -> Result<usize, u8> {
        let (map, blank) = match side {
            0 => (&mut self.plan, NO_PLAN),
            1 => (&mut self.lifted, NOTHING_LIFTED),
            _ => return Err(OUT_OF_RANGE),
        };
        refuse_if(map.dimension == 0, blank)?;
        refuse_if(axis > map.dimension, OUT_OF_RANGE)?;
        Ok(cells(map.links, map.work, map.count, map.dimension, axis))
    }
}

/// Pairs of darts in work, which need no clearing: a dart is in a pair when the
/// lists have it where its index says. One index serves both darts of a pair, so
/// that a dart on both sides, or with two partners, is seen where it is met
/// again.
struct Pairs<'a> {
    index: &'a mut [u16],
    firsts: &'a mut [u16],
    seconds: &'a mut [u16],
    length: usize,
}

impl<'a> Pairs<'a> {
    /// No pair, in three numbers of work a dart.
    fn new(work: &'a mut [u16], count: usize) -> Self {
        let (index, lists) = work[..3 * count].split_at_mut(count);
        let (firsts, seconds) = lists.split_at_mut(count);
        Pairs {
            index,
            firsts,
            seconds,
            length: 0,
        }
    }

    #[inline(always)]
    fn get(&self, t: usize) -> (u16, u16) {
        (self.firsts[t], self.seconds[t])
    }

    /// The pair that a dart is in, on either side.
    #[inline(always)]
    fn pair_of(&self, d: u16) -> Option<(u16, u16)> {
        let t = usize::from(self.index[usize::from(d)]);
        let pair = (t < self.length).then(|| self.get(t))?;
        (pair.0 == d || pair.1 == d).then_some(pair)
    }

    /// Makes a pair of two darts, unless they are one already. False where they
    /// cannot be.
    #[inline(always)]
    fn meet(&mut self, d: u16, e: u16) -> bool {
        match (self.pair_of(d), self.pair_of(e)) {
            (Some(pair), Some(_)) => pair == (d, e),
            (None, None) if d != e => {
                let t = self.length;
                self.index[usize::from(d)] = t as u16;
                self.index[usize::from(e)] = t as u16;
                (self.firsts[t], self.seconds[t]) = (d, e);
                self.length += 1;
                true
            }
            _ => false,
        }
    }

    /// Walks on from the first pair, on both sides in step along the links at a
    /// distance from an axis, and pairs what it meets. False where there is no
    /// pairing.
    fn walk(&mut self, links: &[[u16; LINKS]], dimension: usize, axis: usize) -> bool {
        let mut head = 0;
        while head < self.length {
            let (d, e) = self.get(head);
            let (ones, others) = (&links[usize::from(d)], &links[usize::from(e)]);
            for j in (0..=dimension).filter(|j| j.abs_diff(axis) >= APART) {
                if !self.meet(ones[j], others[j]) {
                    return false;
                }
            }
            head += 1;
        }
        true
    }

    /// All pairs.
    fn list(&self) -> impl Iterator<Item = (usize, usize)> + '_ {
        (0..self.length).map(|t| (self.firsts[t].into(), self.seconds[t].into()))
    }
}

/// The row with one more span, in its order, or why it can't be had.
fn with_span(row: &Row, lo: i32, hi: i32) -> Result<Row, u8> {
    let held = row[0] as usize;
    let spans = &row[1..].as_chunks::<PER_SPAN>().0[..held];
    let is_overlapped = spans.iter().any(|s| s[0] < hi && lo < s[1]);
    refuse_if(is_overlapped, SPAN_OVERLAPS)?;
    refuse_if(held >= SPANS, ROW_FULL)?;
    let at = 1 + PER_SPAN * spans.iter().filter(|s| s[0] < lo).count();
    let mut new = *row;
    new.copy_within(at..SPAN_NUMBERS - PER_SPAN, at + PER_SPAN);
    new[at..at + PER_SPAN].copy_from_slice(&[lo, hi]);
    new[0] += 1;
    Ok(new)
}
