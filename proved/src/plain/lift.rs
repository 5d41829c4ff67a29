//! The lift, frozen at document 01: in the same lent memory as the proved call,
//! written for speed.
//!
//! The lifted darts of a plan dart at a level come in pairs, the foot and the
//! head of each piece of its cell that its row covers. So all but two columns
//! of a pair's links rise by two from one pair to the next, and a stretch of
//! pairs is written by adding. Rows differ only across the top axis, so the
//! ends of the two upper levels come from one row or two; those of a level
//! below are gathered by a walk through each cell.
//!
//! What is kept where, with P for twice the number of spans over all darts: a
//! walk takes up no row twice, so the ends of all cells of a level are at most
//! P, and with a length before each cell's at most 3P / 2; where the ends of
//! each span begin takes P / 2 more. There are as many levels below the two
//! upper ones as the dimension less one, while each of all levels has at least
//! P lifted darts, and lifted work has room for two ends a dart. So all this
//! fits in it whenever the lift fits in its tables. Plan work has four numbers
//! a dart: where the ends of its cells begin and a link of the walk's stack,
//! and after the numbering its first lifted darts at the levels.

use super::*;
use reference::refusal::*;

/// A height in two numbers of work.
type End = [u16; 2];
/// The numbers of a plan dart in work.
type Slots = [u16; WORK];

/// Where the walk keeps the dart that is below on its stack.
const BELOW: usize = WORK - 1;
/// No dart, and no place of ends: both stay below 32,768.
const NONE: u16 = u16::MAX;
/// The most ends that cut a span into pieces, its own among them.
const CUTS: usize = 2 * SPANS + 2;

#[inline(always)]
fn end(height: i32) -> End {
    [height as u16, (height >> 16) as u16]
}

#[inline(always)]
fn height([low, high]: End) -> i32 {
    (u32::from(low) | u32::from(high) << 16) as i32
}

/// Lift: accepted with the number of lifted darts, or the first refusal met.
pub fn lift(plan: &mut Plan, lifted: &mut LiftedMut) -> Answer {
    let plain = |number| Answer { number, value: 0 };
    if usize::from(plan.dimension) == GREATEST_DIMENSION {
        return plain(TOP_DIMENSION);
    }
    let checked = check(plan);
    if checked.number != ACCEPTED {
        return checked;
    }
    match lift_checked(plan, lifted) {
        Some(total) => Answer {
            number: ACCEPTED,
            value: total as u16,
        },
        None => plain(TOO_LARGE),
    }
}

/// The lift of tables that passed the check, of dimension 1 to 4: the number
/// of lifted darts, or nothing where they do not fit, and then only work is
/// written.
pub fn lift_checked(plan: &mut Plan, lifted: &mut LiftedMut) -> Option<usize> {
    let total = lift_rows(plan, lifted)?;
    lifted.links[LINKS * total..].fill(0);
    lifted.places[COORDINATES * total..].fill(0);
    Some(total)
}

/// The same, with no number written past the last lifted dart: for a run, which
/// knows how many rows were in use before.
pub fn lift_rows(plan: &mut Plan, lifted: &mut LiftedMut) -> Option<usize> {
    match plan.dimension {
        1 => lift_of::<1>(plan, lifted),
        2 => lift_of::<2>(plan, lifted),
        3 => lift_of::<3>(plan, lifted),
        _ => lift_of::<4>(plan, lifted),
    }
}

fn lift_of<const M: usize>(plan: &mut Plan, lifted: &mut LiftedMut) -> Option<usize> {
    let count = plan.count;
    let rows = Rows::<M> {
        links: &plan.links.as_chunks().0[..count],
        places: &plan.places.as_chunks().0[..count],
        spans: &plan.spans.as_chunks().0[..count],
    };
    let slots = &mut plan.work.as_chunks_mut().0[..count];
    let capacity = DARTS
        .min(lifted.links.len() / LINKS)
        .min(lifted.places.len() / COORDINATES)
        .min(lifted.work.len() / WORK);
    if rows.least() > capacity {
        return None;
    }
    let mut ends = Ends {
        memory: &mut lifted.work.as_chunks_mut().0[..WORK / 2 * capacity],
        length: 0,
    };
    for k in 0..M - 1 {
        rows.gather(k, slots, &mut ends)?;
    }
    let kept = ends.length;
    let total = rows.number(slots, &mut ends, capacity)?;
    let mut tables = Lifted::<M> {
        links: &mut lifted.links.as_chunks_mut().0[..total],
        places: &mut lifted.places.as_chunks_mut().0[..total],
    };
    rows.write(slots, ends.memory, kept, &mut tables);
    Some(total)
}

/// The ends of cells, one list behind the other with its length before it.
struct Ends<'a> {
    memory: &'a mut [End],
    length: usize,
}

impl Ends<'_> {
    /// Puts the ends of a row at a place; the place behind them. An empty row
    /// fits anywhere, also where there is no memory at all.
    #[inline(always)]
    fn put(&mut self, at: usize, row: &[i32; SPAN_NUMBERS]) -> Option<usize> {
        let used = 2 * row[0] as usize;
        if used == 0 {
            return Some(at);
        }
        let part = self.memory.get_mut(at..at + used)?;
        for (to, &from) in part.iter_mut().zip(&row[1..]) {
            *to = end(from);
        }
        Some(at + used)
    }

    /// Closes the list that runs from behind its length to a place: ends
    /// ascending, each once. An empty list takes no room, for no dart of its
    /// cell has a span to look up.
    fn close(&mut self, to: usize, is_mixed: bool) {
        let from = self.length + 1;
        if to == from {
            return;
        }
        let list = &mut self.memory[from..to];
        if is_mixed {
            list.sort_unstable_by_key(|&e| height(e));
        }
        let mut kept = 1;
        for at in 1..list.len() {
            let next = list[at];
            list[kept] = next;
            kept += usize::from(next != list[kept - 1]);
        }
        self.memory[self.length] = [kept as u16, 0];
        self.length = from + kept;
    }

    /// How many pieces a row has over the list at a place. Where the ends of
    /// each span begin and how many pieces it has is kept behind the lists.
    #[inline(always)]
    fn count(&mut self, start: u16, row: &[i32; SPAN_NUMBERS]) -> Option<usize> {
        let start = usize::from(start);
        let (lists, kept) = self.memory.split_at_mut(self.length);
        let to = start + 1 + usize::from(lists[start][0]);
        let spans = spans(row);
        let kept = kept.get_mut(..spans.len())?;
        let (mut at, mut found) = (start + 1, 0);
        for (span, kept) in spans.iter().zip(kept) {
            at += seek(&lists[at..to], span[0]);
            let pieces = seek(&lists[at..to], span[1]);
            *kept = [at as u16, pieces as u16];
            at += pieces;
            found += pieces;
        }
        self.length += spans.len();
        Some(found)
    }
}

/// The pairs of ends of the spans in use.
#[inline(always)]
fn spans(row: &[i32; SPAN_NUMBERS]) -> &[[i32; 2]] {
    &row[1..].as_chunks().0[..row[0] as usize]
}

/// How far a height that stands in the list is from its start: a few steps,
/// else by halving.
#[inline(always)]
fn seek(list: &[End], wanted: i32) -> usize {
    const STEPS: usize = 6;
    for (at, &e) in list.iter().take(STEPS).enumerate() {
        if height(e) == wanted {
            return at;
        }
    }
    STEPS + list[STEPS..].partition_point(|&e| height(e) < wanted)
}

/// The ends of a span and those of another row inside it, ascending and each
/// once. Those of the other row up to them are passed.
#[inline(always)]
fn cut<'a>([lo, hi]: [i32; 2], other: &mut &[i32], out: &'a mut [End; CUTS]) -> &'a [End] {
    out[0] = end(lo);
    let mut last = 0;
    while let Some((&next, rest)) = other.split_first() {
        if next >= hi {
            break;
        }
        out[last + 1] = end(next);
        last += usize::from(next > height(out[last]));
        *other = rest;
    }
    out[last + 1] = end(hi);
    &out[..last + 2]
}

/// The rows of a plan of dimension M.
struct Rows<'a, const M: usize> {
    links: &'a [[u16; LINKS]],
    places: &'a [[i32; COORDINATES]],
    spans: &'a [[i32; SPAN_NUMBERS]],
}

impl<const M: usize> Rows<'_, M> {
    /// Whether two darts have the same row.
    #[inline(always)]
    fn is_same_row(&self, d: usize, e: usize) -> bool {
        let (one, two) = (&self.spans[d], &self.spans[e]);
        (0..=2 * one[0] as usize).all(|x| one[x] == two[x])
    }

    /// What the lift has at least: a foot and a head for each span at each
    /// level.
    fn least(&self) -> usize {
        let spans: usize = self.spans.iter().map(|row| row[0] as usize).sum();
        2 * (M + 1) * spans
    }

    /// The dart over the top axis.
    #[inline(always)]
    fn over(&self, d: usize) -> usize {
        self.links[d][M].into()
    }

    /// The ends of all cells of a level, and for each dart where its cell's
    /// begin; nothing where they have no room.
    fn gather(&self, k: usize, slots: &mut [Slots], ends: &mut Ends) -> Option<()> {
        for slot in slots.iter_mut() {
            slot[k] = NONE;
        }
        for d in 0..slots.len() {
            if slots[d][k] == NONE {
                let start = ends.put(ends.length + 1, &self.spans[d])?;
                let (to, is_mixed) = self.walk(k, d, start, slots, ends)?;
                ends.close(to, is_mixed);
            }
        }
        Some(())
    }

    /// Walks through a cell and puts the rows it meets behind a place; the
    /// place behind them, and whether there was another row than the first. A
    /// row is new only across the top axis.
    fn walk(
        &self,
        k: usize,
        d: usize,
        mut to: usize,
        slots: &mut [Slots],
        ends: &mut Ends,
    ) -> Option<(usize, bool)> {
        let own = ends.length as u16;
        let start = to;
        slots[d][k] = own;
        slots[d][BELOW] = NONE;
        let mut top = d as u16;
        while top != NONE {
            let x = usize::from(top);
            top = slots[x][BELOW];
            for (j, &y) in self.links[x][..=M].iter().enumerate() {
                let slot = &mut slots[usize::from(y)];
                if j == k || slot[k] != NONE {
                    continue;
                }
                slot[k] = own;
                slot[BELOW] = top;
                top = y;
                if j == M && !self.is_same_row(x, y.into()) {
                    to = ends.put(to, &self.spans[usize::from(y)])?;
                }
            }
        }
        Some((to, to > start))
    }

    /// Whether the dart over the top axis has another row.
    #[inline(always)]
    fn is_beside_another(&self, d: usize) -> bool {
        let over = self.over(d);
        over != d && !self.is_same_row(d, over)
    }

    /// The ends in the row of the dart over the top axis.
    #[inline(always)]
    fn ends_over(&self, d: usize) -> &[i32] {
        spans(&self.spans[self.over(d)]).as_flattened()
    }

    /// How many pieces a dart has at the level below the top.
    #[inline(always)]
    fn count_upper(&self, d: usize) -> usize {
        let spans = spans(&self.spans[d]);
        if !self.is_beside_another(d) {
            return spans.len();
        }
        let (mut other, mut out) = (self.ends_over(d), [[0; 2]; CUTS]);
        let pieces = |&span| cut(span, &mut other, &mut out).len() - 1;
        spans.iter().map(pieces).sum()
    }

    /// Numbers the lifted darts: each dart's slots become its first ones at
    /// the levels. Nothing where they are more than there is room for.
    fn number(&self, slots: &mut [Slots], ends: &mut Ends, capacity: usize) -> Option<usize> {
        let mut total = 0;
        for (d, slot) in slots.iter_mut().enumerate() {
            let starts = *slot;
            *slot = [total as u16; WORK];
            let row = &self.spans[d];
            if row[0] == 0 {
                continue;
            }
            for k in 1..M {
                total += 2 * ends.count(starts[k - 1], row)?;
                slot[k] = total as u16;
            }
            total += 2 * self.count_upper(d);
            if M < WORK {
                slot[M] = total as u16;
            }
            total += 2 * row[0] as usize;
            if total > capacity {
                return None;
            }
        }
        Some(total)
    }

    /// A dart's first lifted dart at a level. There is no slot for the top
    /// level of dimension 4, but its darts, two a span, stand right before
    /// those of the next dart.
    #[inline(always)]
    fn base(&self, slots: &[Slots], total: usize, d: usize, k: usize, spans: i32) -> u16 {
        if k < WORK {
            return slots[d][k];
        }
        let next = slots.get(d + 1).map_or(total as u16, |slot| slot[0]);
        next - 2 * spans as u16
    }

    /// Writes the lifted rows of all darts. Where the ends of their spans begin
    /// stands in memory from a place on.
    fn write(&self, slots: &[Slots], memory: &[End], kept: usize, tables: &mut Lifted<M>) {
        let mut kept = &memory[kept..];
        for d in 0..slots.len() {
            if self.spans[d][0] > 0 {
                let dart = Dart::new(self, d, slots, tables.links.len());
                dart.write(memory, &mut kept, tables);
            }
        }
    }
}

/// A plan dart with a row, and what its lifted rows are made of.
struct Dart<'a, const M: usize> {
    plan: &'a Rows<'a, M>,
    slots: &'a [Slots],
    total: usize,
    d: usize,
    row: &'a [i32; SPAN_NUMBERS],
    place: [i32; COORDINATES],
    /// Its first lifted darts at the levels, and the first of the next dart.
    own: [u16; LINKS],
    /// Whether the dart over the top axis has another row.
    is_beside_another: bool,
}

impl<'a, const M: usize> Dart<'a, M> {
    #[inline(always)]
    fn new(plan: &'a Rows<'a, M>, d: usize, slots: &'a [Slots], total: usize) -> Self {
        let row = &plan.spans[d];
        let mut own = [0; LINKS];
        for (k, first) in own.iter_mut().enumerate().take(M + 1) {
            *first = plan.base(slots, total, d, k, row[0]);
        }
        own[M + 1] = own[M] + 2 * row[0] as u16;
        let mut place = [0; COORDINATES];
        place[..M].copy_from_slice(&plan.places[d][..M]);
        Dart {
            plan,
            slots,
            total,
            d,
            row,
            place,
            own,
            is_beside_another: plan.is_beside_another(d),
        }
    }

    /// Writes the lifted rows, level by level, and then the links that hang on
    /// heights. The levels are known where this is compiled, so that every
    /// link of a pair is, too.
    #[inline(always)]
    fn write(&self, memory: &[End], kept: &mut &[End], tables: &mut Lifted<M>) {
        self.write_level::<0>(memory, kept, tables);
        self.write_level::<1>(memory, kept, tables);
        if M > 1 {
            self.write_level::<2>(memory, kept, tables);
        }
        if M > 2 {
            self.write_level::<3>(memory, kept, tables);
        }
        if M > 3 {
            self.write_level::<4>(memory, kept, tables);
        }
        self.write_walks(tables);
    }

    /// Writes the rows of a level, span by span.
    #[inline(always)]
    fn write_level<const K: usize>(
        &self,
        memory: &[End],
        kept: &mut &[End],
        tables: &mut Lifted<M>,
    ) {
        let mut pair = self.pair::<K>();
        let mut at = self.own[K].into();
        let mut put = |ends: &[End]| at = tables.put(at, &mut pair, &self.place, ends);
        let spans = spans(self.row);
        if K + 1 < M {
            let (own, rest) = kept.split_at(spans.len());
            *kept = rest;
            for span in own {
                let [from, pieces] = span.map(usize::from);
                put(&memory[from..=from + pieces]);
            }
        } else if K + 1 == M && self.is_beside_another {
            let (mut other, mut out) = (self.plan.ends_over(self.d), [[0; 2]; CUTS]);
            for &span in spans {
                put(cut(span, &mut other, &mut out));
            }
        } else {
            for &[lo, hi] in spans {
                put(&[end(lo), end(hi)]);
            }
        }
    }

    /// The links of the first pair at a level. Those to the level next to it
    /// are right where both have the same pieces; the default above is the
    /// other side of the height, which stays where that level has no end
    /// there.
    #[inline(always)]
    fn pair<const K: usize>(&self) -> Pair {
        let own = &self.own;
        let base = |i: usize| {
            let other = self.plan.links[self.d][i].into();
            self.plan
                .base(self.slots, self.total, other, K, self.row[0])
        };
        let mut up = [own[K]; LINKS];
        for (i, link) in up.iter_mut().enumerate() {
            if i < K {
                *link = base(i);
            } else if i == K && K > 0 {
                *link = own[K - 1];
            } else if i == K + 1 && i <= M {
                *link = own[K + 1];
            } else if i >= K + 2 && (i <= M || (i == M + 1 && !self.is_beside_another)) {
                *link = base(i - 1);
            }
        }
        let mut down = up;
        for link in &mut down {
            *link = link.wrapping_add(1);
        }
        if K == 0 {
            (up[0], down[0]) = (own[0] + 1, own[0]);
        }
        if K < M && !is_alike(own, K) {
            (up[K + 1], down[K + 1]) = (own[K].wrapping_sub(1), own[K] + 2);
        }
        [up, down]
    }

    /// The links that hang on heights: between levels that differ in pieces,
    /// across the top axis to a lower dart with another row, and of spans that
    /// touch.
    #[inline(always)]
    fn write_walks(&self, tables: &mut Lifted<M>) {
        for k in 1..=M {
            if !is_alike(&self.own, k - 1) {
                tables.nest(k, &self.own);
            }
        }
        tables.touch(self.own[M].into(), self.row);
        let over = self.plan.over(self.d);
        let spans = self.plan.spans[over][0];
        if !self.is_beside_another || over > self.d || spans == 0 {
            return;
        }
        for k in 0..M {
            let base = |k| self.plan.base(self.slots, self.total, over, k, spans);
            let own = [self.own[k], self.own[k + 1]];
            let other = [base(k), base(k + 1)];
            tables.cross(own.map(usize::from), other.map(usize::from));
        }
    }
}

/// Whether a dart has the same pieces at a level and the next one: every piece
/// of that is a piece of this or cut into several, so their number tells.
#[inline(always)]
fn is_alike(own: &[u16; LINKS], k: usize) -> bool {
    own[k + 1] - own[k] == own[k + 2] - own[k + 1]
}

/// The lifted rows of a plan of dimension M.
struct Lifted<'a, const M: usize> {
    links: &'a mut [[u16; LINKS]],
    places: &'a mut [[i32; COORDINATES]],
}

/// The links of a piece's foot and head.
type Pair = [[u16; LINKS]; 2];

impl<const M: usize> Lifted<'_, M> {
    /// Writes a pair of rows for each two neighbouring ends from a row on. The
    /// links rise by two from pair to pair. The row behind.
    #[inline(always)]
    fn put(
        &mut self,
        at: usize,
        pair: &mut Pair,
        place: &[i32; COORDINATES],
        ends: &[End],
    ) -> usize {
        let to = at + 2 * (ends.len() - 1);
        let links = self.links[at..to].as_chunks_mut::<2>().0;
        let places = self.places[at..to].as_chunks_mut::<2>().0;
        let mut foot = *place;
        foot[M] = height(ends[0]);
        for ((links, places), &next) in links.iter_mut().zip(places).zip(&ends[1..]) {
            *links = *pair;
            for link in pair.as_flattened_mut() {
                *link = link.wrapping_add(2);
            }
            let mut head = *place;
            head[M] = height(next);
            *places = [foot, head];
            foot = head;
        }
        to
    }

    #[inline(always)]
    fn height(&self, x: usize) -> i32 {
        self.places[x][M]
    }

    /// Links two rows along an axis.
    #[inline(always)]
    fn link(&mut self, axis: usize, x: usize, y: usize) {
        self.links[x][axis] = y as u16;
        self.links[y][axis] = x as u16;
    }

    /// Links the pieces of a dart at a level with those one level below, of
    /// which each is cut into one or more.
    fn nest(&mut self, k: usize, own: &[u16; LINKS]) {
        let [mut y, from, to] = [own[k - 1], own[k], own[k + 1]].map(usize::from);
        for x in (from..to - 2).step_by(2) {
            self.link(k, x, y);
            while self.height(y + 1) != self.height(x + 1) {
                y += 2;
            }
            self.link(k, x + 1, y + 1);
            y += 2;
        }
        self.link(k, to - 2, y);
        self.link(k, to - 1, from - 1);
    }

    /// Links the pieces that two neighbours across the top axis share.
    fn cross(&mut self, [mut x, x_to]: [usize; 2], [mut y, y_to]: [usize; 2]) {
        while x < x_to && y < y_to {
            let (t, u) = (self.height(x), self.height(y));
            if t == u {
                self.link(M + 1, x, y);
                self.link(M + 1, x + 1, y + 1);
            }
            x += 2 * usize::from(t <= u);
            y += 2 * usize::from(u <= t);
        }
    }

    /// Links the spans of a row that touch; the first stands at a row.
    #[inline(always)]
    fn touch(&mut self, at: usize, row: &[i32; SPAN_NUMBERS]) {
        for z in 1..row[0] as usize {
            if row[2 * z] == row[2 * z + 1] {
                self.link(M + 1, at + 2 * z - 1, at + 2 * z);
            }
        }
    }
}
