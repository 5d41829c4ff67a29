//! Kinds of drawn runs. Each scene aims at one part of the product; small
//! numbers are preferred so that ends meet, touch and interleave often.

use crate::command::Command;
use crate::random::Random;
use crate::refusal::*;
use crate::sketch::Sketch;
use crate::step::Paper;

/// A dart number: mostly one of the plan, sometimes the first beyond, rarely
/// the greatest there is.
fn any_dart(random: &mut Random, paper: &Paper) -> u16 {
    match random.below(20) {
        0 => paper.plan.count() as u16,
        1 => u16::MAX,
        _ => random.below(paper.plan.count().max(1)) as u16,
    }
}

/// An axis: mostly one of the plan, sometimes beyond it.
fn any_axis(random: &mut Random, paper: &Paper) -> u8 {
    match random.below(16) {
        0 => paper.plan.dim as u8 + 1,
        1 => 255,
        _ => random.below(paper.plan.dim + 1) as u8,
    }
}

/// A height: mostly a small one, now and then an extreme one.
fn height(random: &mut Random) -> i32 {
    match random.below(30) {
        0 => i32::MIN,
        1 => i32::MAX,
        2 => i32::MIN + 1,
        3 => i32::MAX - 1,
        4..=7 => random.below(10) as i32 - 5,
        _ => random.below(5) as i32,
    }
}

/// Two heights with the first below the second.
pub fn stretch(random: &mut Random) -> (i32, i32) {
    loop {
        let (lo, hi) = (height(random), height(random));
        if lo < hi {
            return (lo, hi);
        }
    }
}

/// Any SEW.
pub fn any_sew(random: &mut Random, paper: &Paper) -> Command {
    Command::Sew {
        axis: any_axis(random, paper),
        a: any_dart(random, paper),
        b: any_dart(random, paper),
    }
}

/// Any UNSEW.
pub fn any_unsew(random: &mut Random, paper: &Paper) -> Command {
    Command::Unsew {
        axis: any_axis(random, paper),
        a: any_dart(random, paper),
    }
}

/// Any PLACE.
pub fn any_place(random: &mut Random, paper: &Paper) -> Command {
    Command::Place {
        dart: any_dart(random, paper),
        axis: any_axis(random, paper),
        coordinate: random.pick(&[0, 1, 2, -1, i32::MIN, i32::MAX]),
    }
}

/// An object: one of few, so that two are often the same, and now and then one
/// that two bytes are needed for.
pub fn any_object(random: &mut Random) -> u16 {
    random.pick(&[0, 0, 1, 1, 2, 7, 9, 255, 256, 0x1234, u16::MAX])
}

/// SPAN, or 1A with some object.
fn some_span(random: &mut Random, dart: u16, (lo, hi): (i32, i32)) -> Command {
    match random.chance(40) {
        true => Command::Span { dart, lo, hi },
        false => Command::SpanOf {
            dart,
            lo,
            hi,
            object: any_object(random),
        },
    }
}

/// Any SPAN or 1A, also one that is no span.
pub fn any_span(random: &mut Random, paper: &Paper) -> Command {
    let heights = match random.below(12) {
        0 => (3, 3),
        1 => (2, -1),
        _ => stretch(random),
    };
    let dart = any_dart(random, paper);
    some_span(random, dart, heights)
}

/// Any COUNT.
fn any_count(random: &mut Random, paper: &Paper) -> Command {
    let side = random.pick(&[0, 0, 0, 1, 1, 1, 1, 2, 255]);
    let dim = if side == 1 {
        paper.lifted.map.dim
    } else {
        paper.plan.dim
    };
    Command::Count {
        side,
        axis: random.below(dim + 2) as u8,
    }
}

/// Any command at all, readable.
pub fn any_command(random: &mut Random, paper: &Paper) -> Command {
    match random.below(18) {
        0 => Command::New {
            dimension: random.pick(&[0, 5, 6, 255, 1, 2]),
        },
        1 | 2 => Command::Dart,
        3..=5 => any_sew(random, paper),
        6 | 7 => any_unsew(random, paper),
        8 | 9 => any_place(random, paper),
        10 | 11 => any_span(random, paper),
        12 => Command::Clear {
            dart: any_dart(random, paper),
        },
        13 | 14 => Command::Lift,
        15 => Command::Adopt,
        _ => any_count(random, paper),
    }
}

/// Says a command that may meet anything, in so many of a hundred cases.
fn maybe_noise(s: &mut Sketch, percent: usize) {
    if s.random.chance(percent) {
        let command = any_command(s.random, &s.paper);
        // A new plan or an adopted one would throw the scene away.
        if !matches!(command, Command::New { .. } | Command::Adopt) {
            let _ = s.say(command);
        }
    }
}

/// Starts a plan with so many darts.
pub fn begin(s: &mut Sketch, dimension: usize, darts: usize) {
    let _ = s.say(Command::New {
        dimension: dimension as u8,
    });
    for _ in 0..darts {
        let _ = s.say(Command::Dart);
    }
}

/// Says a SEW.
pub fn sew(s: &mut Sketch, axis: usize, a: usize, b: usize) -> bool {
    let command = Command::Sew {
        axis: axis as u8,
        a: a as u16,
        b: b as u16,
    };
    s.say(command).is_ok()
}

/// Says a SPAN, or 1A with some object.
pub fn span(s: &mut Sketch, dart: usize, lo: i32, hi: i32) {
    let command = some_span(s.random, dart as u16, (lo, hi));
    let _ = s.say(command);
}

/// Says a SPAN.
pub fn plain_span(s: &mut Sketch, dart: usize, lo: i32, hi: i32) {
    let dart = dart as u16;
    let _ = s.say(Command::Span { dart, lo, hi });
}

/// Says 1A.
pub fn span_of(s: &mut Sketch, dart: usize, lo: i32, hi: i32, object: u16) {
    let dart = dart as u16;
    let _ = s.say(Command::SpanOf {
        dart,
        lo,
        hi,
        object,
    });
}

/// Counts one or two kinds of cells on a side.
pub fn count_some(s: &mut Sketch, side: u8) {
    let dim = if side == 1 {
        s.paper.lifted.map.dim
    } else {
        s.paper.plan.dim
    };
    for _ in 0..s.random.between(1, 2) {
        let axis = s.random.below(dim + 1) as u8;
        let _ = s.say(Command::Count { side, axis });
    }
}

/// Parcels of one or two darts side by side along the top axis, each with its
/// own spans. Two darts of a parcel are sewn along an axis below the top; where
/// that axis is the one next to it the parcels stand around one corner.
pub fn parcels(s: &mut Sketch, dim: usize) {
    let most = if dim >= 3 { 2 } else { 3 };
    let parcels = s.random.between(2, most);
    let pairs = s.random.chance(if dim >= 4 { 10 } else { 60 });
    let width = if pairs { 2 } else { 1 };
    begin(s, dim, width * parcels);
    let inner = s.random.below(dim);
    if pairs && inner == 0 && s.random.chance(35) {
        part_ends(s, parcels);
    }
    if pairs {
        for p in 0..parcels {
            sew(s, inner, 2 * p, 2 * p + 1);
        }
        if dim == 2 && s.random.chance(30) {
            sew(s, 1 - inner, 0, 1);
        }
    }
    let spans_first = s.random.chance(50);
    if spans_first {
        span_parcels(s, parcels, width);
    }
    maybe_noise(s, 15);
    link_parcels(s, parcels, width, inner);
    if !spans_first {
        span_parcels(s, parcels, width);
    }
}

/// Moves ends of edges that are to be sewn along axis 0, where places need not
/// agree. On a line the neighbour shares the other end, so only the first end
/// is moved; elsewhere edges are sewn whole, so all second ends move alike.
fn part_ends(s: &mut Sketch, parcels: usize) {
    let line = s.paper.plan.dim == 1;
    let coordinate = s.random.pick(&[7, -7, i32::MIN]);
    for p in 0..if line { 1 } else { parcels } {
        let dart = if line { 0 } else { 2 * p as u16 + 1 };
        let _ = s.say(Command::Place {
            dart,
            axis: 0,
            coordinate,
        });
    }
}

/// Links each parcel with the next along the top axis, and now and then the
/// last with the first.
fn link_parcels(s: &mut Sketch, parcels: usize, width: usize, inner: usize) {
    let top = s.paper.plan.dim;
    let around = inner + 1 == top;
    for p in 1..parcels {
        let from = if around {
            width * p - 1
        } else {
            width * (p - 1)
        };
        sew(s, top, from, width * p);
    }
    if around && width == 2 && s.random.chance(50) {
        sew(s, top, width * parcels - 1, 0);
    }
}

/// Gives each parcel one or two spans; those after the first parcel's are
/// drawn so that they mostly interleave with the span before.
fn span_parcels(s: &mut Sketch, parcels: usize, width: usize) {
    let mut before = None;
    for p in 0..parcels {
        let spans = s.random.pick(&[1, 1, 1, 1, 2]);
        for _ in 0..spans {
            let (lo, hi) = near(s.random, before);
            span(s, width * p, lo, hi);
            before = Some((lo, hi));
        }
    }
}

/// A stretch with an end inside the one before, or an end of the one before
/// inside it, unless luck has it otherwise.
fn near(random: &mut Random, before: Option<(i32, i32)>) -> (i32, i32) {
    let Some((l, h)) = before else {
        return stretch(random);
    };
    let inside = |x: i32, lo: i32, hi: i32| lo < x && x < hi;
    for _ in 0..6 {
        let (lo, hi) = stretch(random);
        let cuts = inside(lo, l, h) || inside(hi, l, h);
        if cuts || inside(l, lo, hi) || inside(h, lo, hi) {
            return (lo, hi);
        }
    }
    stretch(random)
}

/// Neighbours of a dimension, lifted, counted, changed, lifted again.
fn neighbours(s: &mut Sketch, dim: usize) {
    parcels(s, dim);
    if s.random.chance(40) {
        let command = any_place(s.random, &s.paper);
        let _ = s.say(command);
    }
    let _ = s.say(Command::Lift);
    count_some(s, 1);
    maybe_noise(s, 20);
    if s.random.chance(40) {
        let command = match s.random.below(3) {
            0 => any_unsew(s.random, &s.paper),
            1 => any_span(s.random, &s.paper),
            _ => Command::Clear { dart: 0 },
        };
        let _ = s.say(command);
        let _ = s.say(Command::Lift);
        count_some(s, 1);
    }
}

/// Neighbours on a line.
pub fn on_a_line(s: &mut Sketch) {
    neighbours(s, 1);
}

/// Neighbours on a sheet.
pub fn on_a_sheet(s: &mut Sketch) {
    neighbours(s, 2);
}

/// Neighbours in space.
pub fn in_space(s: &mut Sketch) {
    neighbours(s, 3);
}

/// Neighbours in dimension 4.
pub fn in_time(s: &mut Sketch) {
    neighbours(s, 4);
}

/// Two or three parcels of a sheet around one corner, or two solids around one
/// edge, with few heights, so that ends of all of them meet there.
pub fn around(s: &mut Sketch) {
    let dim = s.random.pick(&[2, 2, 2, 3]);
    let parcels = if dim == 2 {
        s.random.pick(&[2, 3, 3])
    } else {
        2
    };
    begin(s, dim, 2 * parcels);
    for p in 0..parcels {
        sew(s, dim - 1, 2 * p, 2 * p + 1);
        let (lo, hi) = s.random.pick(&[(0, 1), (0, 2), (0, 2), (1, 2), (-1, 1)]);
        span(s, 2 * p, lo, hi);
        if s.random.chance(15) {
            span(s, 2 * p + 1, hi, hi + 1);
        }
    }
    for p in 1..parcels {
        sew(s, dim, 2 * p - 1, 2 * p);
    }
    if s.random.chance(60) {
        sew(s, dim, 2 * parcels - 1, 0);
    }
    let _ = s.say(Command::Lift);
    count_some(s, 1);
    maybe_noise(s, 20);
}

/// The examples' shapes: two edges that share a corner, with drawn spans that
/// interleave, touch, nest or stand apart.
pub fn edges(s: &mut Sketch) {
    begin(s, 1, 4);
    if s.random.chance(40) {
        let (dart, coordinate) = s.random.pick(&[(0, 7), (3, -7)]);
        let _ = s.say(Command::Place {
            dart,
            axis: 0,
            coordinate,
        });
    }
    sew(s, 0, 0, 1);
    sew(s, 0, 2, 3);
    let shapes = [
        [(0, 3), (1, 5)],
        [(0, 1), (1, 2)],
        [(0, 4), (1, 2)],
        [(0, 2), (0, 3)],
        [(0, 1), (2, 3)],
        [(i32::MIN, 0), (-1, i32::MAX)],
        [(i32::MIN, i32::MAX), (0, 1)],
        [(-2, 2), (-2, 2)],
    ];
    let [one, other] = s.random.pick(&shapes);
    span(s, 0, one.0, one.1);
    span(s, 3, other.0, other.1);
    sew(s, 1, 1, 2);
    if s.random.chance(30) {
        sew(s, 1, 3, 0);
    }
    let _ = s.say(Command::Lift);
    count_some(s, 1);
    maybe_noise(s, 30);
}

/// Sews and unsews of all kinds, accepted and refused, with places and spans
/// in between that make pairs disagree.
pub fn sews(s: &mut Sketch) {
    let (dim, darts) = (s.random.between(1, 4), s.random.between(3, 6));
    begin(s, dim, darts);
    for _ in 0..s.random.between(5, 10) {
        match s.random.below(12) {
            0..=2 => s.seek(any_sew, |o| o.is_ok_and(|v| v >= 4)),
            3 => s.seek(any_sew, |o| o.is_ok()),
            4 => s.seek(any_sew, |o| o == Err(ALREADY_LINKED)),
            5 => s.seek(any_sew, |o| o == Err(NO_PAIRING)),
            6 => s.seek(any_sew, |o| o == Err(PAIR_DISAGREES)),
            7 => s.seek(any_unsew, |o| o.is_ok()),
            8 => s.seek(any_unsew, |o| o == Err(ALREADY_FREE)),
            9 => s.seek(any_place, |o| o.is_ok()),
            10 => s.seek(any_span, |o| o.is_ok()),
            _ => {
                maybe_noise(s, 100);
                true
            }
        };
    }
    count_some(s, 0);
    let _ = s.say(Command::Lift);
}

/// Sews that need partners: edges or faces sewn as wholes.
pub fn wide_sews(s: &mut Sketch) {
    let dim = s.random.between(2, 4);
    begin(s, dim, 4);
    let inner = s.random.below(dim - 1);
    sew(s, inner, 0, 1);
    sew(s, inner, 2, 3);
    if s.random.chance(25) {
        s.seek(any_place, |o| o.is_ok());
    }
    if s.random.chance(25) {
        s.seek(any_span, |o| o.is_ok());
    }
    let outer = s.random.between(inner + 2, dim);
    let (a, b) = (s.random.below(2), s.random.between(2, 3));
    if !sew(s, outer, a, b) {
        s.seek(any_sew, |o| o.is_ok_and(|v| v >= 4));
    }
    s.seek(any_sew, |o| o.is_ok_and(|v| v >= 4));
    s.seek(any_sew, |o| o.is_err_and(|n| n >= ALREADY_LINKED));
    if s.random.chance(50) {
        s.seek(any_unsew, |o| o.is_ok_and(|v| v >= 4));
        s.seek(any_sew, |o| o.is_ok_and(|v| v >= 4));
    }
    s.seek(any_span, |o| o.is_ok());
    let _ = s.say(Command::Lift);
    count_some(s, 1);
}

/// Pairings that fail, for each reason: a shared dart, sides of different
/// size (both ways round), and sides alike in size with other links.
pub fn unpairable(s: &mut Sketch) {
    let dim = s.random.between(3, 4);
    begin(s, dim, 5);
    sew(s, 0, 0, 1);
    let middle = s.random.between(1, dim - 2);
    sew(s, middle, 2, 3);
    let top = dim;
    match s.random.below(3) {
        0 => sew(s, top, 0, 1),
        1 => sew(s, top, 0, 4),
        _ => sew(s, top, 4, 0),
    };
    sew(s, top, 0, 2);
    sew(s, top, 4, 4);
    s.seek(any_sew, |o| o == Err(NO_PAIRING));
    s.seek(any_sew, |o| o.is_ok());
    s.seek(any_sew, |o| o == Err(NO_PAIRING));
    count_some(s, 0);
}

/// Sides of one size whose darts correspond, but with one link more on one
/// side; then the same sides made alike.
pub fn unlike(s: &mut Sketch) {
    let dim = s.random.between(3, 4);
    begin(s, dim, 4);
    sew(s, 0, 0, 1);
    sew(s, 0, 2, 3);
    let (plain, rich) = s.random.pick(&[(0, 2), (2, 0), (1, 3), (3, 0)]);
    let middle = s.random.between(1, dim - 2);
    sew(s, middle, rich, rich ^ 1);
    sew(s, dim, plain, rich);
    sew(s, dim, rich, plain);
    sew(s, middle, plain ^ 1, plain);
    sew(s, dim, rich ^ 1, plain);
    span(s, plain, 0, 1);
    count_some(s, 0);
    s.seek(any_unsew, |o| o.is_ok());
}

/// Wide sews whose named darts agree while darts further along do not: places
/// at the far ends of two edges, or rows across the top axis.
pub fn far_ends(s: &mut Sketch) {
    let dim = s.random.between(2, 4);
    begin(s, dim, 4);
    let lone = s.random.pick(&[1, 3]);
    if s.random.chance(50) {
        sew(s, 0, 0, 1);
        sew(s, 0, 2, 3);
        let (axis, coordinate) = (s.random.below(dim) as u8, 5);
        let place = |dart| Command::Place {
            dart,
            axis,
            coordinate,
        };
        let outer = s.random.between(2, dim);
        let _ = s.say(place(lone));
        sew(s, outer, 0, 2);
        let _ = s.say(place(4 - lone));
        sew(s, outer, 2, 0);
    } else {
        sew(s, dim, 0, 1);
        sew(s, dim, 2, 3);
        let inner = s.random.below(dim - 1);
        let object = any_object(s.random);
        span_of(s, lone.into(), 0, 2, object);
        sew(s, inner, 0, 2);
        span_of(s, (4 - lone).into(), 0, 2, object);
        sew(s, inner, 2, 0);
        let _ = s.say(Command::Lift);
    }
    count_some(s, 0);
}

/// Commands with two faults at once, where the order decides. The plan has an
/// edge 0-1 and fewer darts than `beyond`; `high` is no axis of it.
fn two_faults(dim: u8, beyond: u16, high: u8) -> [Command; 9] {
    let sew = |axis, a, b| Command::Sew { axis, a, b };
    let count = |side| Command::Count { side, axis: high };
    [
        Command::Place {
            dart: beyond,
            axis: dim,
            coordinate: 1,
        },
        Command::Unsew {
            axis: high,
            a: beyond,
        },
        Command::Span {
            dart: beyond,
            lo: 2,
            hi: 2,
        },
        Command::SpanOf {
            dart: beyond,
            lo: 2,
            hi: 2,
            object: u16::MAX,
        },
        sew(high, 0, beyond),
        sew(0, 0, beyond),
        sew(0, 1, 1),
        count(2),
        count(1),
    ]
}

/// Some of these, first without a plan, then with one; at last a sew that
/// finds neither a pairing nor agreeing places.
pub fn orders(s: &mut Sketch) {
    if s.random.chance(40) {
        sew(s, 9, 9, 9);
        span(s, 9, 3, 3);
    }
    let dim = s.random.between(2, 4);
    begin(s, dim, 3);
    sew(s, 0, 0, 1);
    s.seek(any_place, |o| o.is_ok());
    let beyond = s.random.pick(&[3, 4, u16::MAX]);
    let high = s.random.pick(&[dim as u8 + 1, 255]);
    for _ in 0..s.random.between(4, 7) {
        let command = s.random.pick(&two_faults(dim as u8, beyond, high));
        let _ = s.say(command);
    }
    s.seek(any_place, |o| o.is_ok());
    sew(s, dim, 0, 2);
    sew(s, dim, 2, 2);
}

/// A twisted map, where the partners of a dart hold its neighbour as well, so
/// that UNSEW frees each of them once.
pub fn twist(s: &mut Sketch) {
    let dim = s.random.between(3, 4);
    begin(s, dim, 4);
    sew(s, 0, 0, 1);
    sew(s, 0, 2, 3);
    let second = if dim == 4 { s.random.between(2, 3) } else { 2 };
    sew(s, second, 0, 2);
    sew(s, second + 1, 0, 3);
    if s.random.chance(40) {
        span(s, 0, 0, 2);
        let _ = s.say(Command::Lift);
        count_some(s, 1);
    }
    let a = s.random.below(4) as u16;
    let _ = s.say(Command::Unsew { axis: 0, a });
    s.seek(any_unsew, |o| o.is_ok());
    count_some(s, 0);
}

/// Maps that grow and then shrink on both sides, so that rows fall out of use
/// and have to be blank again.
pub fn shrink(s: &mut Sketch) {
    let darts = s.random.between(1, 2);
    begin(s, 1, darts);
    for dart in 0..darts {
        let (lo, hi) = stretch(s.random);
        span(s, dart, lo, hi);
    }
    let _ = s.say(Command::Lift);
    match s.random.below(4) {
        0 => {
            let _ = s.say(Command::Clear { dart: 0 });
        }
        1 => {
            let _ = s.say(Command::Adopt);
            s.seek(any_place, |o| o.is_ok());
        }
        2 => begin(s, 3, 1),
        _ => {
            let _ = s.say(Command::Clear { dart: 0 });
            span(s, 0, 0, 1);
        }
    }
    if s.random.chance(70) {
        let _ = s.say(Command::Lift);
    }
    if s.random.chance(50) {
        let _ = s.say(Command::Adopt);
    }
    count_some(s, 0);
}

/// Lift, adopt, span, lift: the way up from one dimension to the next.
pub fn climb(s: &mut Sketch) {
    let dim = s.random.pick(&[1, 1, 1, 2]);
    let darts = if dim == 1 { s.random.between(1, 2) } else { 1 };
    begin(s, dim, darts);
    if darts == 2 {
        let axis = s.random.below(2);
        sew(s, axis, 0, 1);
    }
    let (lo, hi) = stretch(s.random);
    span(s, 0, lo, hi);
    if darts == 2 && s.random.chance(40) {
        s.seek(any_span, |o| o.is_ok());
    }
    let _ = s.say(Command::Lift);
    maybe_noise(s, 10);
    let _ = s.say(Command::Adopt);
    count_some(s, 0);
    if s.random.chance(40) {
        s.seek(any_unsew, |o| o.is_ok());
    }
    s.seek(any_span, |o| o.is_ok());
    let _ = s.say(Command::Lift);
    count_some(s, 1);
    maybe_noise(s, 30);
}

/// Up to dimension 5, where spans are still taken and lifts are not.
pub fn summit(s: &mut Sketch) {
    begin(s, 4, 0);
    if s.random.chance(50) {
        let _ = s.say(Command::Dart);
        let (lo, hi) = stretch(s.random);
        span(s, 0, lo, hi);
    }
    let _ = s.say(Command::Lift);
    let _ = s.say(Command::Adopt);
    let last = s.count().saturating_sub(1);
    if s.random.chance(70) {
        span(s, last, 0, 4);
    }
    let _ = s.say(Command::Lift);
    let side = s.random.below(2) as u8;
    let axis = s.random.between(4, 6) as u8;
    let _ = s.say(Command::Count { side, axis });
    s.seek(any_unsew, |o| o.is_ok());
    s.seek(any_sew, |o| o.is_ok());
    count_some(s, 0);
}

/// One row filled up to eight spans and beyond, in no particular order.
pub fn full_row(s: &mut Sketch) {
    let dim = s.random.between(1, 2);
    begin(s, dim, 1);
    let first = s.random.below(3) as i32 - 1;
    let turn = s.random.below(8);
    let gap = s.random.between(1, 2) as i32;
    for at in 0..8 {
        let lo = first + gap * ((5 * at + turn) % 8) as i32;
        span(s, 0, lo, lo + 1);
    }
    let behind = first + 8 * gap;
    let overlapping = (first, first + 1);
    for (lo, hi) in [overlapping, (behind, behind + 3), (4, 4)] {
        span(s, 0, lo, hi);
    }
    let _ = s.say(Command::Lift);
    count_some(s, 1);
    let _ = s.say(Command::Clear { dart: 0 });
    span(s, 0, first, behind);
    let _ = s.say(Command::Lift);
}

/// Spans that touch, overlap, are empty or extreme.
pub fn spans(s: &mut Sketch) {
    let dim = s.random.between(1, 3);
    begin(s, dim, 2);
    if s.random.chance(60) {
        let axis = s.random.below(dim + 1);
        sew(s, axis, 0, 1);
    }
    for _ in 0..s.random.between(3, 6) {
        match s.random.below(5) {
            0 => s.seek(any_span, |o| o == Err(EMPTY_SPAN)),
            1 => s.seek(any_span, |o| o == Err(SPAN_OVERLAPS)),
            _ => s.seek(any_span, |o| o.is_ok()),
        };
    }
    let _ = s.say(Command::Lift);
    count_some(s, 1);
    maybe_noise(s, 50);
}

/// Commands before there is a plan or a lift, and operands out of range.
pub fn too_early(s: &mut Sketch) {
    for _ in 0..s.random.between(2, 5) {
        let command = any_command(s.random, &s.paper);
        if !matches!(command, Command::New { .. }) {
            let _ = s.say(command);
        }
    }
    let (dim, darts) = (s.random.between(1, 4), s.random.between(0, 3));
    begin(s, dim, darts);
    for _ in 0..s.random.between(3, 7) {
        let command = any_command(s.random, &s.paper);
        let _ = s.say(command);
    }
}

/// Anything, as it comes.
pub fn anything(s: &mut Sketch) {
    let (dim, darts) = (s.random.between(1, 3), s.random.between(1, 5));
    begin(s, dim, darts);
    for _ in 0..s.random.between(6, 14) {
        let command = any_command(s.random, &s.paper);
        let _ = s.say(command);
    }
}

/// A short start for runs that break off.
pub fn begin_shortly(s: &mut Sketch) {
    if s.random.chance(70) {
        let darts = s.random.between(0, 2);
        begin(s, 2, darts);
        maybe_noise(s, 70);
    }
    s.over = true;
}

/// A byte that no command has, sometimes with more behind it.
pub fn unknown(s: &mut Sketch) {
    begin_shortly(s);
    let byte = s.random.pick(&[0x00, 0x0f, 0x1b, 0x91, 0xff]);
    s.bytes.push(byte);
    if s.random.chance(40) {
        s.bytes.extend([0x11, 0x17]);
    }
}

/// A command whose operands break off.
pub fn cut(s: &mut Sketch) {
    begin_shortly(s);
    let (byte, wanted) = s.random.pick(&[
        (0x10, 1),
        (0x12, 5),
        (0x13, 3),
        (0x14, 7),
        (0x15, 10),
        (0x16, 2),
        (0x19, 2),
        (0x1a, 12),
    ]);
    s.bytes.push(byte);
    for _ in 0..s.random.below(wanted) {
        s.bytes.push(0);
    }
}

/// Command bytes and small numbers in any order.
pub fn jumble(s: &mut Sketch) {
    begin_shortly(s);
    for _ in 0..s.random.between(4, 18) {
        let byte = s
            .random
            .pick(&[0x11, 0x17, 0x19, 0, 1, 2, 0x10, 0x16, 0x18, 0x1a]);
        s.bytes.push(byte);
    }
}
