//! Kinds of drawn runs about spans that are joined: a new one over spans of its own
//! object, touching them, and over such as are another's. What lies where is taken
//! in turn, so that a draw has all of it.

use crate::command::Command;
use crate::map::Span;
use crate::object_scenes::two_objects;
use crate::random::Random;
use crate::scenes::*;
use crate::sketch::Sketch;
use crate::widths::*;

/// The object of new spans, and another. Often the first is SPAN's.
fn owners(random: &mut Random) -> [u16; 2] {
    match random.below(3) {
        0 => [SPAN_OBJECT, random.pick(&[1, 256, u16::MAX])],
        _ => two_objects(random),
    }
}

/// Says SPAN or 1A where the object is SPAN's, else 1A.
fn put(s: &mut Sketch, dart: usize, (lo, hi): (i32, i32), object: u16) {
    match object == SPAN_OBJECT && s.random.chance(70) {
        true => plain_span(s, dart, lo, hi),
        false => span_of(s, dart, lo, hi, object),
    }
}

/// Says the spans of a row, from any of them on and around.
fn put_all(s: &mut Sketch, dart: usize, row: &[Span]) {
    let first = s.random.below(row.len());
    for at in 0..row.len() {
        let Span { lo, hi, object } = row[(first + at) % row.len()];
        put(s, dart, (lo, hi), object);
    }
}

/// A plan with one top cell: a dart alone, or two that are linked. Its last dart.
fn one_cell(s: &mut Sketch) -> usize {
    let dim = s.random.pick(&[1, 1, 1, 1, 2, 2, 3, 4]);
    let darts = if dim > 2 {
        1
    } else {
        s.random.pick(&[1, 1, 2])
    };
    begin(s, dim, darts);
    if darts == 2 {
        let axis = s.random.below(dim);
        sew(s, axis, 0, 1);
    }
    darts - 1
}

/// Spans from a height on, each so wide and with such a gap behind it.
fn spaced(from: i32, objects: &[u16], wide: i32, gap: i32) -> Vec<Span> {
    let span = |(at, &object): (usize, &u16)| {
        let lo = from + at as i32 * (wide + gap);
        let hi = lo + wide;
        Span { lo, hi, object }
    };
    objects.iter().enumerate().map(span).collect()
}

/// How far within a span one lies that has both its ends, one of them, or none.
const WITHIN: [(i32, i32); 4] = [(0, 0), (0, 1), (1, 0), (1, 1)];

/// Lifts, and counts cells of the lift.
fn lift_and_count(s: &mut Sketch) {
    let _ = s.say(Command::Lift);
    count_some(s, 1);
}

/// One to five spans of an object with gaps between them, a new one over all of them,
/// and around them what it may touch: its ends lie at the far side of a gap, in the
/// gap, at an end of a span or inside it. Then one inside what they became.
pub fn over_some(s: &mut Sketch) {
    let dart = one_cell(s);
    let [own, other] = owners(s.random);
    let (low, high) = (s.turn % 4, s.turn / 4 % 4);
    let many = 1 + (low + high) % 5;
    let mut objects = vec![own; many];
    objects.insert(0, if high == 1 { other } else { own });
    objects.push(if low == 1 { other } else { own });
    let from = s.random.pick(&[0, 0, -6, -30]);
    let row = spaced(from, &objects, 2, 3);
    put_all(s, dart, &row);
    if s.random.chance(20) {
        let _ = s.say(Command::Lift);
    }
    let lo = row[1].lo + [-3, -1, 0, 1][low];
    let hi = row[many].hi + [3, 1, 0, -1][high];
    put(s, dart, (lo, hi.max(lo + 1)), own);
    lift_and_count(s);
    let (lo, hi) = (lo.min(row[1].lo), hi.max(row[many].hi));
    let (up, down) = WITHIN[(low + high) % WITHIN.len()];
    if lo + up < hi - down {
        put(s, dart, (lo + up, hi - down), own);
    }
}

/// Spans that touch one another, and a new one that lies within one or two in the
/// middle: what those touch stays apart, of the same object or of another.
pub fn chain(s: &mut Sketch) {
    let dart = one_cell(s);
    let [own, other] = owners(s.random);
    let many = s.random.between(1, 2);
    let mut objects = vec![own; many];
    objects.insert(0, [own, other][s.turn % 2]);
    objects.push([own, other][s.turn / 2 % 2]);
    let from = s.random.pick(&[0, 0, -4, -12]);
    let row = spaced(from, &objects, 3, 0);
    put_all(s, dart, &row);
    if s.random.chance(40) {
        let _ = s.say(Command::Lift);
    }
    let (up, down) = WITHIN[(s.turn + s.turn / 4) % WITHIN.len()];
    put(s, dart, (row[1].lo + up, row[many].hi - down), own);
    lift_and_count(s);
}

/// A new span that touches one below, one above or both, of its object or of
/// another, and stays by itself; then one over two that touch.
pub fn touching(s: &mut Sketch) {
    let dart = one_cell(s);
    let [own, other] = owners(s.random);
    let object = [own, other][s.turn / 4 % 2];
    let from = s.random.pick(&[0, 0, -5, i32::MIN]);
    put_all(s, dart, &spaced(from, &[object, object], 2, 4));
    let (low, high) = (from + 2, from + 6);
    match s.turn % 4 {
        0 => put(s, dart, (low, high), own),
        1 => put(s, dart, (low, low + 1), own),
        2 => put(s, dart, (high - 1, high), own),
        _ => {
            put(s, dart, (high - 1, high), own);
            put(s, dart, (low, high - 1), own);
        }
    }
    lift_and_count(s);
    put(s, dart, (low - 1, low + 1), own);
    let _ = s.say(Command::Lift);
}

/// New spans over spans of their object and of another, or of another alone: all stay
/// as they are. Then new ones over their own that touch the others.
pub fn clashes(s: &mut Sketch) {
    let dart = one_cell(s);
    let [own, other] = owners(s.random);
    let shapes: [&[u16]; 8] = [
        &[own, other, own],
        &[own, other, own, own],
        &[other, own],
        &[own, other, other, own],
        &[other, own, own],
        &[own, other],
        &[own, own, other],
        &[other],
    ];
    let objects = shapes[s.turn % shapes.len()];
    let from = s.random.pick(&[0, -7]);
    let gap = s.random.below(2) as i32;
    let row = spaced(from, objects, 3, gap);
    put_all(s, dart, &row);
    let (lo, hi) = (row[0].lo, row[row.len() - 1].hi);
    let (up, down) = s.random.pick(&[(0, 0), (1, 1), (-1, 0), (0, -1), (-2, -2)]);
    put(s, dart, (lo + up, hi - down), own);
    if row.len() > 1 {
        put(s, dart, (lo + up, hi - down), other);
    }
    if s.random.chance(50) {
        let _ = s.say(Command::Lift);
    }
    for (at, held) in row.iter().enumerate() {
        let below = if at == 0 { lo - 1 } else { row[at - 1].hi };
        let above = row.get(at + 1).map_or(hi + 1, |next| next.lo);
        if held.object == own {
            put(s, dart, (below, above), own);
        }
    }
    lift_and_count(s);
}

/// A full row with one span of another object; new ones that touch, that lie apart,
/// and over what it holds. Then two become one, and when it is full again more.
pub fn full_row_joined(s: &mut Sketch) {
    begin(s, 1, 1);
    let [own, other] = owners(s.random);
    let mut objects = [own; SPANS];
    let strange = s.random.between(4, SPANS - 1);
    objects[strange] = other;
    let gap = s.random.pick(&[0, 2, 2]);
    let from = s.random.pick(&[0, -20]);
    let row = spaced(from, &objects, 2, gap);
    put_all(s, 0, &row);
    let (behind, stranger) = (row[SPANS - 1].hi, row[strange]);
    let at = s.random.below(3);
    let trials = [
        // They touch the first and the last, or nothing.
        ((from - 1, from), own),
        ((behind, behind + 1), own),
        ((behind, behind + 1), other),
        ((behind + 1, behind + 2), own),
        // They are over the strange one, over others, and over one that stays one.
        ((stranger.lo, stranger.hi), own),
        ((stranger.lo - gap - 1, stranger.hi), own),
        ((row[at].lo + 1, row[at + 1].lo + 1), other),
        ((row[at].lo, row[at].hi + gap), own),
    ];
    for trial in 0..5 {
        let (heights, object) = trials[(s.turn + trial) % trials.len()];
        put(s, 0, heights, object);
    }
    put(s, 0, (row[at].lo + 1, row[at + 1].hi), own);
    put(s, 0, (behind + 2, behind + 3), other);
    put(s, 0, (row[0].lo, row[0].hi), own);
    put(s, 0, (row[0].lo - 1, row[3].hi - 1), own);
    if s.random.chance(50) {
        lift_and_count(s);
    }
}

/// Six to eight spans of one object, and a new one over all of them.
pub fn swallowed(s: &mut Sketch) {
    begin(s, 1, 1);
    let [own, _] = owners(s.random);
    let objects = &[own; SPANS][s.turn % 3..];
    let (from, gap) = s.random.pick(&[(0, 0), (0, 1), (-9, 2)]);
    let row = spaced(from, objects, 2, gap);
    put_all(s, 0, &row);
    let hi = row[row.len() - 1].hi;
    let (down, up) = s.random.pick(&[(1, 1), (0, 0), (-1, -1), (1, -1), (-1, 2)]);
    put(s, 0, (from - down, hi + up), own);
    lift_and_count(s);
}

/// Heights of new spans over some that reach from below 0 to the outermost heights.
const FAR: [(i32, i32); 9] = [
    (-11, -3),
    (-3, 2),
    (i32::MIN, -10),
    (10, i32::MAX),
    (-5, 10),
    (i32::MIN, 2),
    (3, i32::MAX),
    (i32::MIN, i32::MAX),
    (-9, i32::MAX),
];

/// Spans of one object below and above 0, up to the outermost heights or next to
/// them, and a new one or two.
pub fn far_joins(s: &mut Sketch) {
    let dart = one_cell(s);
    let [object, _] = owners(s.random);
    let lowest = s.random.pick(&[i32::MIN, i32::MIN, i32::MIN + 1]);
    let highest = s.random.pick(&[i32::MAX, i32::MAX, i32::MAX - 1]);
    let row = [(lowest, -10), (-8, -2), (1, 4), (9, highest)];
    put_all(s, dart, &row.map(|(lo, hi)| Span { lo, hi, object }));
    for at in 0..s.random.between(1, 2) {
        put(s, dart, FAR[(s.turn + at) % FAR.len()], object);
        let _ = s.say(Command::Lift);
    }
    count_some(s, 1);
}

/// Two darts whose rows cover the same, in one span and in two that touch: no sew
/// below the top axis joins them. Then the two become one, and the darts are sewn.
pub fn made_equal(s: &mut Sketch) {
    let dim = s.random.between(1, 3);
    begin(s, dim, 2);
    let [own, _] = owners(s.random);
    let axis = s.random.below(dim);
    let whole = s.random.below(2);
    put(s, whole, (0, 5), own);
    put(s, 1 - whole, (0, 3), own);
    put(s, 1 - whole, (3, 5), own);
    sew(s, axis, 0, 1);
    let heights = s.random.pick(&[(2, 4), (2, 5), (0, 5), (1, 4)]);
    put(s, 1 - whole, heights, own);
    sew(s, axis, 1, 0);
    put(s, whole, (4, 7), own);
    lift_and_count(s);
}

/// A new span over one that a top cell has, and perhaps beyond it.
pub fn extend_some(s: &mut Sketch) {
    let dart = s.random.below(s.count());
    let row = s.paper.plan.row(dart);
    if !row.is_empty() {
        let Span { lo, hi, object } = s.random.pick(row);
        let (down, up) = s.random.pick(&[(0, 1), (2, 0), (1, 2), (0, 0)]);
        // An end may be the lowest or the highest height.
        let heights = (lo.saturating_sub(down), hi.saturating_add(up));
        put(s, dart, heights, object);
    }
}

/// Parcels side by side, some of which get a span over one that they have: rows of
/// several darts are altered, and those of the neighbours are not.
pub fn rebuilt(s: &mut Sketch) {
    let dim = s.random.pick(&[1, 1, 2, 2, 3]);
    parcels(s, dim);
    let _ = s.say(Command::Lift);
    for _ in 0..s.random.between(1, 3) {
        extend_some(s);
    }
    lift_and_count(s);
}
