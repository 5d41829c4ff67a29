//! Kinds of drawn runs about spans that say whose they are: rows and lifted darts
//! that differ in their objects, and command 1A refused.

use crate::command::Command;
use crate::random::Random;
use crate::scenes::*;
use crate::sketch::Sketch;
use crate::widths::*;

/// Two objects that are not the same; in one of the two bytes or in both.
pub fn two_objects(random: &mut Random) -> [u16; 2] {
    let [one, other] = random.pick(&[[7, 9], [0, u16::MAX], [1, 0x101], [256, 0], [255, 256]]);
    match random.below(2) {
        0 => [one, other],
        _ => [other, one],
    }
}

/// An edge, or a dart alone, with two spans of different objects that touch or
/// stand apart; then fewer spans, or none, where the objects were.
pub fn side_by_side(s: &mut Sketch) {
    let dim = s.random.pick(&[1, 1, 1, 2, 2, 3]);
    let darts = if dim == 1 { 2 } else { 1 };
    begin(s, dim, darts);
    sew(s, 0, 0, darts - 1);
    let [one, other] = two_objects(s.random);
    let gap = s.random.pick(&[0, 0, 1]);
    span_of(s, 0, 0, 2, one);
    span_of(s, darts - 1, 2 + gap, 5 + gap, other);
    let _ = s.say(Command::Lift);
    count_some(s, 1);
    let _ = s.say(Command::Clear { dart: 0 });
    if s.random.chance(70) {
        let object = any_object(s.random);
        span_of(s, 0, 0, 1, object);
    }
    let _ = s.say(Command::Lift);
}

/// Rows that differ in an object alone: no sew below the top axis joins them,
/// and one along it does. Then they are made equal and sewn.
pub fn strangers(s: &mut Sketch) {
    let dim = s.random.between(1, 3);
    begin(s, dim, 2);
    let [one, other] = two_objects(s.random);
    let (lo, hi) = stretch(s.random);
    span_of(s, 0, lo, hi, one);
    span_of(s, 1, lo, hi, other);
    let axis = s.random.below(dim);
    sew(s, axis, 0, 1);
    if s.random.chance(50) {
        sew(s, dim, 0, 1);
    } else {
        let _ = s.say(Command::Clear { dart: 1 });
        span_of(s, 1, lo, hi, one);
        sew(s, axis, 1, 0);
    }
    let _ = s.say(Command::Lift);
    count_some(s, 1);
}

/// Edges sewn as wholes whose named darts have equal rows, while across the top
/// axis the rows differ in an object alone.
pub fn far_strangers(s: &mut Sketch) {
    let dim = s.random.between(2, 3);
    begin(s, dim, 4);
    sew(s, dim, 0, 1);
    sew(s, dim, 2, 3);
    let [one, other] = two_objects(s.random);
    span_of(s, 1, 0, 2, one);
    span_of(s, 3, 0, 2, other);
    let inner = s.random.below(dim - 1);
    sew(s, inner, 0, 2);
    let _ = s.say(Command::Clear { dart: 3 });
    span_of(s, 3, 0, 2, one);
    sew(s, inner, 2, 0);
    count_some(s, 0);
}

/// A lift with objects is adopted, gets a span of another object or of none, and
/// is lifted again: of the old objects none is left.
pub fn inherit(s: &mut Sketch) {
    begin(s, 1, 1);
    let [one, other] = two_objects(s.random);
    span_of(s, 0, 0, 2, one.max(other));
    let _ = s.say(Command::Lift);
    let _ = s.say(Command::Adopt);
    if s.random.chance(50) {
        // Only two of the four darts are in the top cell then.
        let _ = s.say(Command::Unsew { axis: 0, a: 0 });
    }
    match s.random.below(2) {
        0 => plain_span(s, 0, 0, 3),
        _ => span_of(s, 0, 0, 3, one.min(other)),
    }
    let _ = s.say(Command::Lift);
    count_some(s, 1);
}

/// A lift with objects, and one that is too large for the room of a drawn run:
/// the objects stay.
pub fn overreach(s: &mut Sketch) {
    begin(s, 1, 2);
    sew(s, 0, 0, 1);
    let [one, other] = two_objects(s.random);
    span_of(s, 0, 0, 1, one.max(other));
    let _ = s.say(Command::Lift);
    for at in 1..SPANS as i32 {
        span(s, 0, 2 * at, 2 * at + 1);
    }
    let _ = s.say(Command::Lift);
    count_some(s, 1);
}

/// 1A refused by each of its numbers, and accepted in between.
pub fn refused_spans(s: &mut Sketch) {
    let [one, other] = two_objects(s.random);
    span_of(s, 0, 3, 3, one);
    let dim = s.random.between(1, 4);
    begin(s, dim, 1);
    let beyond = s.random.pick(&[1, 2, u16::MAX.into()]);
    span_of(s, beyond, 3, 3, one);
    for at in 0..SPANS as i32 {
        let object = any_object(s.random);
        span_of(s, 0, 2 * at, 2 * at + 1, object);
    }
    let hi = s.random.pick(&[30, 29, i32::MIN]);
    span_of(s, 0, 30, hi, one);
    let held = s.random.below(SPANS);
    let row = s.paper.plan.row(0);
    let object = row.get(held).map_or(one, |span| span.object);
    let lo = 2 * held as i32;
    span_of(s, 0, lo, 2 * SPANS as i32, object ^ 1);
    span_of(s, 0, 30, 31, other);
    // It is one with its own, and touches the next.
    span_of(s, 0, lo, lo + 2, object);
}

/// 1A without its last byte.
pub fn cut_object(s: &mut Sketch) {
    begin_shortly(s);
    s.bytes.extend([0x1a, 0, 0]);
    for _ in 3..12 {
        let byte = s.random.below(3) as u8;
        s.bytes.push(byte);
    }
}
