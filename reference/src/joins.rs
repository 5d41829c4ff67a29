//! Kinds of new spans, by how they lie to the row that they come to: where each
//! border of what is joined, refused and left alone is reached.

use crate::map::Span;
use crate::span::overlap;
use crate::widths::SPANS;

/// What is told of a new span and a row, in words.
pub type Kind = &'static str;

const TOUCHING_OWN_BELOW: Kind = "a span touching its own below";
const TOUCHING_OWN_ABOVE: Kind = "a span touching its own above";
const TOUCHING_OWN_BOTH: Kind = "a span touching its own below and above";
const TOUCHING_ANOTHER: Kind = "a span touching another's";
const FULL_TOUCHING_OWN: Kind = "a span touching its own in a full row";
const FULL_TOUCHING_ANOTHER: Kind = "a span touching another's in a full row";
const FULL_APART: Kind = "a span apart from all in a full row";

const OVER_ANOTHER: Kind = "a span over another's alone";
const OVER_BOTH_BELOW: Kind = "a span over its own and another's below";
const OVER_BOTH_ABOVE: Kind = "a span over its own and another's above";
const OVER_BOTH_BETWEEN: Kind = "a span over its own and another's between";
const FULL_OVER_ANOTHER: Kind = "a span over another's alone in a full row";
const FULL_OVER_BOTH: Kind = "a span over its own and another's in a full row";

const OVER_ONE: Kind = "a span over one of its own";
const OVER_TWO: Kind = "a span over two of its own";
const OVER_THREE: Kind = "a span over three of its own";
const OVER_MORE: Kind = "a span over four or more of its own";
const EQUAL: Kind = "a span equal to one of its own";
const INSIDE: Kind = "a span inside one of its own";
const INSIDE_LOW: Kind = "a span inside one of its own at the low end";
const INSIDE_HIGH: Kind = "a span inside one of its own at the high end";
const BEYOND_LOW: Kind = "a span over its own and beyond their low end";
const BEYOND_HIGH: Kind = "a span over its own and beyond their high end";
const AROUND_ONE: Kind = "a span around one of its own";
const AROUND_MORE: Kind = "a span around several of its own";
const BETWEEN: Kind = "a span over several of its own and within their ends";
const AND_TOUCHING_BELOW: Kind = "a span over its own and touching its own below";
const AND_TOUCHING_ABOVE: Kind = "a span over its own and touching its own above";
const CHAIN_BELOW: Kind = "a span over its own that touches its own below";
const CHAIN_ABOVE: Kind = "a span over its own that touches its own above";
const ANOTHER_BELOW: Kind = "a joined span touching another's below";
const ANOTHER_ABOVE: Kind = "a joined span touching another's above";
const FROM_LOWEST: Kind = "a joined span from the lowest height";
const TO_HIGHEST: Kind = "a joined span to the highest height";
const BELOW_ZERO: Kind = "a joined span of heights below 0";
const ACROSS_ZERO: Kind = "a joined span from below 0 to above";
const FULL_STAYS: Kind = "a span over one of its own in a full row";
const FULL_SHORTER: Kind = "a span over two of its own in a full row";
const FULL_MUCH_SHORTER: Kind = "a span over three or more of its own in a full row";

/// All kinds.
pub const KINDS: [Kind; 39] = [
    TOUCHING_OWN_BELOW,
    TOUCHING_OWN_ABOVE,
    TOUCHING_OWN_BOTH,
    TOUCHING_ANOTHER,
    FULL_TOUCHING_OWN,
    FULL_TOUCHING_ANOTHER,
    FULL_APART,
    OVER_ANOTHER,
    OVER_BOTH_BELOW,
    OVER_BOTH_ABOVE,
    OVER_BOTH_BETWEEN,
    FULL_OVER_ANOTHER,
    FULL_OVER_BOTH,
    OVER_ONE,
    OVER_TWO,
    OVER_THREE,
    OVER_MORE,
    EQUAL,
    INSIDE,
    INSIDE_LOW,
    INSIDE_HIGH,
    BEYOND_LOW,
    BEYOND_HIGH,
    AROUND_ONE,
    AROUND_MORE,
    BETWEEN,
    AND_TOUCHING_BELOW,
    AND_TOUCHING_ABOVE,
    CHAIN_BELOW,
    CHAIN_ABOVE,
    ANOTHER_BELOW,
    ANOTHER_ABOVE,
    FROM_LOWEST,
    TO_HIGHEST,
    BELOW_ZERO,
    ACROSS_ZERO,
    FULL_STAYS,
    FULL_SHORTER,
    FULL_MUCH_SHORTER,
];

/// A new span that is none of the empty ones, the row that it comes to, and what of
/// the row it overlaps, ascending.
struct Meeting<'a> {
    row: &'a [Span],
    added: Span,
    over: Vec<Span>,
}

/// The kinds that a new span has, where it comes to a row.
pub fn kinds(row: &[Span], added: Span) -> Vec<Kind> {
    let over = row.iter().copied().filter(|&held| overlap(held, added));
    let over: Vec<Span> = over.collect();
    let meeting = Meeting { row, added, over };
    let told = match meeting.over[..] {
        [] => meeting.by_itself(),
        [first, .., last] if meeting.is_all_own() => meeting.joined(first, last),
        [one] if meeting.is_all_own() => meeting.joined(one, one),
        _ => meeting.clashing(),
    };
    let met = told.into_iter().filter(|&(is_met, _)| is_met);
    met.map(|(_, kind)| kind).collect()
}

/// What a row covers, object by object: spans of one object that touch are not told
/// apart.
pub fn cover(row: &[Span]) -> Vec<Span> {
    let mut all: Vec<Span> = Vec::new();
    for &span in row {
        match all.last_mut() {
            Some(last) if last.hi == span.lo && last.object == span.object => last.hi = span.hi,
            _ => all.push(span),
        }
    }
    all
}

impl Meeting<'_> {
    fn is_own(&self, held: Span) -> bool {
        held.object == self.added.object
    }

    fn is_all_own(&self) -> bool {
        self.over.iter().all(|&held| self.is_own(held))
    }

    fn is_full(&self) -> bool {
        self.row.len() == SPANS
    }

    /// What ends where a stretch begins, and what begins where it ends.
    fn neighbours(&self, lo: i32, hi: i32) -> [Option<Span>; 2] {
        let below = self.row.iter().find(|held| held.hi == lo);
        let above = self.row.iter().find(|held| held.lo == hi);
        [below.copied(), above.copied()]
    }

    /// Nothing is overlapped: it stays by itself, or finds no room.
    fn by_itself(&self) -> Vec<(bool, Kind)> {
        let neighbours = self.neighbours(self.added.lo, self.added.hi);
        let [below, above] = neighbours.map(|held| held.is_some_and(|held| self.is_own(held)));
        let mut others = neighbours.into_iter().flatten();
        let is_apart = neighbours == [None; 2];
        let another = others.any(|held| !self.is_own(held));
        match self.is_full() {
            false => vec![
                (below && !above, TOUCHING_OWN_BELOW),
                (above && !below, TOUCHING_OWN_ABOVE),
                (below && above, TOUCHING_OWN_BOTH),
                (another, TOUCHING_ANOTHER),
            ],
            true => vec![
                (below || above, FULL_TOUCHING_OWN),
                (another, FULL_TOUCHING_ANOTHER),
                (is_apart, FULL_APART),
            ],
        }
    }

    /// Something of another object is overlapped.
    fn clashing(&self) -> Vec<(bool, Kind)> {
        let own: Vec<bool> = self.over.iter().map(|&held| self.is_own(held)).collect();
        let has_own = own.contains(&true);
        let (first, last) = (own[0], own[own.len() - 1]);
        vec![
            (!has_own, OVER_ANOTHER),
            (has_own && !first, OVER_BOTH_BELOW),
            (has_own && !last, OVER_BOTH_ABOVE),
            (first && last, OVER_BOTH_BETWEEN),
            (!has_own && self.is_full(), FULL_OVER_ANOTHER),
            (has_own && self.is_full(), FULL_OVER_BOTH),
        ]
    }

    /// Only spans of its own object are overlapped, from one to another.
    fn joined(&self, first: Span, last: Span) -> Vec<(bool, Kind)> {
        let many = self.over.len();
        let Span { lo, hi, .. } = self.added;
        let is_low = lo < first.lo;
        let is_high = last.hi < hi;
        let is_one = many == 1;
        let is_inside = is_one && !is_low && !is_high;
        let (at_low, at_high) = (lo == first.lo, hi == last.hi);
        let mut told = vec![
            (is_one, OVER_ONE),
            (many == 2, OVER_TWO),
            (many == 3, OVER_THREE),
            (many >= 4, OVER_MORE),
            (is_inside && at_low && at_high, EQUAL),
            (is_inside && !at_low && !at_high, INSIDE),
            (is_inside && at_low && !at_high, INSIDE_LOW),
            (is_inside && !at_low && at_high, INSIDE_HIGH),
            (is_low && !is_high, BEYOND_LOW),
            (!is_low && is_high, BEYOND_HIGH),
            (is_low && is_high && is_one, AROUND_ONE),
            (is_low && is_high && !is_one, AROUND_MORE),
            (!is_low && !is_high && !is_one, BETWEEN),
            (self.is_full() && is_one, FULL_STAYS),
            (self.is_full() && many == 2, FULL_SHORTER),
            (self.is_full() && many >= 3, FULL_MUCH_SHORTER),
        ];
        told.extend(self.ends(lo.min(first.lo), hi.max(last.hi)));
        told
    }

    /// The ends of what it becomes with those that it overlaps.
    fn ends(&self, lo: i32, hi: i32) -> Vec<(bool, Kind)> {
        let neighbours = self.neighbours(lo, hi);
        let [own_below, own_above] =
            neighbours.map(|held| held.is_some_and(|held| self.is_own(held)));
        let [another_below, another_above] =
            neighbours.map(|held| held.is_some_and(|held| !self.is_own(held)));
        // An end that a span of the row had before has that one's neighbour beside it.
        let is_held_below = self.over.iter().any(|held| held.lo == lo);
        let is_held_above = self.over.iter().any(|held| held.hi == hi);
        vec![
            (own_below && !is_held_below, AND_TOUCHING_BELOW),
            (own_above && !is_held_above, AND_TOUCHING_ABOVE),
            (own_below && is_held_below, CHAIN_BELOW),
            (own_above && is_held_above, CHAIN_ABOVE),
            (another_below, ANOTHER_BELOW),
            (another_above, ANOTHER_ABOVE),
            (lo == i32::MIN, FROM_LOWEST),
            (hi == i32::MAX, TO_HIGHEST),
            (hi <= 0, BELOW_ZERO),
            (lo < 0 && hi > 0, ACROSS_ZERO),
        ]
    }
}
