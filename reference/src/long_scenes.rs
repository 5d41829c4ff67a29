//! Kinds of drawn runs for those that follow quickly: longer lists, larger
//! plans, and maps adopted up to the greatest dimension.

use crate::command::Command;
use crate::draw::SHARES;
use crate::join_scenes::extend_some;
use crate::map::Map;
use crate::random::Random;
use crate::refusal::*;
use crate::scenes::*;
use crate::sketch::Sketch;
use crate::step::Paper;
use crate::widths::*;

/// A dart of a map; 0 where there is none.
fn some_dart(random: &mut Random, map: &Map) -> u16 {
    random.below(map.count()) as u16
}

/// Any scene of a draw, by its share, and any of its turns.
fn any_scene(s: &mut Sketch) {
    let (scene, times) = SHARES[s.random.share(&SHARES.map(|(_, times)| times))];
    s.turn = s.random.below(times);
    scene(s);
}

/// A small scene, alone.
pub fn one_scene(s: &mut Sketch) {
    any_scene(s);
}

/// Scenes one behind the other: each finds the maps that the one before left.
pub fn scene_by_scene(s: &mut Sketch) {
    for _ in 0..s.random.between(2, 7) {
        any_scene(s);
        if s.random.chance(30) {
            let _ = s.say(Command::Adopt);
        }
        if s.over {
            return;
        }
    }
}

/// Commands before there is a plan, the last of which may be one that makes it.
pub fn before_a_plan(s: &mut Sketch) {
    for _ in 0..s.random.between(3, 12) {
        let command = any_command(s.random, &s.paper);
        if !matches!(command, Command::New { dimension: 1..=4 }) {
            let _ = s.say(command);
        }
    }
    if s.random.chance(40) {
        any_scene(s);
    }
}

/// Any readable commands, most of them such as are accepted.
pub fn storm(s: &mut Sketch) {
    let (dim, darts) = (s.random.between(1, 4), s.random.between(1, 8));
    begin(s, dim, darts);
    for _ in 0..s.random.between(20, 90) {
        let wanted = s.random.chance(65);
        s.seek(any_command, |o| o.is_ok() || !wanted);
    }
}

/// A polygon of a sheet, or an edge where it has one side: its first dart, and
/// its sides joined to each other.
fn polygon(s: &mut Sketch, first: usize, sides: usize) {
    let ends = 2 * sides;
    for side in 0..sides {
        sew(s, 0, first + 2 * side, first + 2 * side + 1);
    }
    for side in 0..sides {
        let next = first + (2 * side + 2) % ends;
        if sides > 1 {
            sew(s, 1, first + 2 * side + 1, next);
        }
    }
}

/// Copies of one shape, all at one place and with the same spans of one object: so
/// darts of one can be sewn to those of another. How many darts each has.
fn copies(s: &mut Sketch, many: usize) -> usize {
    let dim = s.random.pick(&[1, 1, 2, 2, 2, 3, 3, 4]);
    let sides = match dim {
        1 => 1,
        2 => s.random.between(1, 4),
        _ => s.random.between(0, 2),
    };
    let darts = (2 * sides).max(1);
    begin(s, dim, many * darts);
    for copy in 0..many {
        polygon(s, copy * darts, sides);
    }
    let (lo, hi) = stretch(s.random);
    let object = any_object(s.random);
    for copy in 0..many {
        span_of(s, copy * darts, lo, hi, object);
    }
    darts
}

/// Gives all top cells one span of one object, or some cells spans of their own.
fn span_cells(s: &mut Sketch) {
    let (lo, hi) = stretch(s.random);
    let object = any_object(s.random);
    let is_alike = s.random.chance(60);
    for dart in 0..s.count() {
        if s.paper.plan.row(dart).is_empty() {
            match is_alike {
                true => span_of(s, dart, lo, hi, object),
                false => {
                    let (lo, hi) = stretch(s.random);
                    span(s, dart, lo, hi);
                }
            }
        }
    }
}

/// Lifts, adopts what was lifted, and counts its cells. False where there is no
/// way further up.
fn rise(s: &mut Sketch) -> bool {
    let is_lifted = s.say(Command::Lift).is_ok();
    let is_adopted = is_lifted && s.say(Command::Adopt).is_ok();
    count_some(s, 0);
    is_adopted && s.count() > 0
}

/// A SEW of a dart with one of equal place, along any axis; mostly of darts at
/// the same place of two halves, as copies have them.
fn near_sew(random: &mut Random, paper: &Paper) -> Command {
    let plan = &paper.plan;
    let axis = match random.below(3) {
        0 => plan.dim,
        _ => random.below(plan.dim + 1),
    };
    let a = some_dart(random, plan);
    let half = plan.count() as u16 / 2;
    let b = match random.below(4) {
        0 => some_dart(random, plan),
        _ if a < half => a + half,
        _ => a.saturating_sub(half),
    };
    let axis = axis as u8;
    Command::Sew { axis, a, b }
}

/// Unsews something, and mostly sews it again as it was.
fn undo_and_redo(s: &mut Sketch) {
    let plan = &s.paper.plan;
    let axis = s.random.below(plan.dim + 1);
    let a = some_dart(s.random, plan);
    let b = plan.link(a.into(), axis) as u16;
    let axis = axis as u8;
    let _ = s.say(Command::Unsew { axis, a });
    if s.random.chance(70) {
        let _ = s.say(Command::Sew { axis, a, b });
    }
}

/// Something done to a plan that was adopted.
fn edit(s: &mut Sketch) {
    match s.random.below(10) {
        0..=3 => {
            s.seek(near_sew, |o| o.is_ok_and(|v| v >= 4));
        }
        4 => {
            s.seek(near_sew, |o| {
                o == Err(NO_PAIRING) || o == Err(PAIR_DISAGREES)
            });
        }
        5 | 6 => undo_and_redo(s),
        7 => {
            s.seek(any_place, |o| o.is_ok());
        }
        8 => {
            s.seek(any_span, |o| o.is_ok());
        }
        _ => {
            let dart = some_dart(s.random, &s.paper.plan);
            let _ = s.say(Command::Clear { dart });
        }
    }
}

/// Two copies of a shape, lifted and adopted as far up as they go, with edits on
/// every level: sews of whole faces, of whole solids, and so on.
pub fn twins(s: &mut Sketch) {
    let many = s.random.pick(&[1, 2, 2, 2, 3]);
    copies(s, many);
    let most = s.random.between(1, 4);
    for _ in 0..most {
        if !rise(s) {
            break;
        }
        for _ in 0..s.random.between(1, 6) {
            edit(s);
        }
        span_cells(s);
        if s.random.chance(30) {
            extend_some(s);
        }
    }
    let _ = s.say(Command::Lift);
    count_some(s, 1);
}

/// A few darts lifted and adopted up to the greatest dimension, where sews,
/// spans and counts go on and lifts do not.
pub fn to_the_top(s: &mut Sketch) {
    let dim = s.random.pick(&[2, 3, 3, 4, 4]);
    let darts = s.random.between(1, if dim == 4 { 3 } else { 2 });
    begin(s, dim, darts);
    if s.random.chance(50) {
        let axis = s.random.below(dim + 1);
        sew(s, axis, 0, 1);
    }
    for _ in dim..GREATEST_DIMENSION {
        span_cells(s);
        if !rise(s) {
            return;
        }
    }
    for _ in 0..s.random.between(2, 8) {
        edit(s);
    }
    span_cells(s);
    extend_some(s);
    let _ = s.say(Command::Lift);
    for side in [0, 1] {
        count_some(s, side);
    }
}

/// The twisted map of four darts, lifted, adopted and unsewn on each level.
pub fn twists(s: &mut Sketch) {
    twist(s);
    let _ = s.say(Command::New { dimension: 3 });
    begin(s, 3, 4);
    for (axis, a, b) in [(0, 0, 1), (0, 2, 3), (2, 0, 2), (3, 0, 3)] {
        sew(s, axis, a, b);
    }
    span(s, 0, 0, 2);
    if rise(s) {
        span_cells(s);
    }
    for _ in 0..s.random.between(1, 4) {
        undo_and_redo(s);
    }
    let _ = s.say(Command::Lift);
}

/// A lift, then smaller ones and none at all, and plans that take each other's
/// place, so that rows fall out of use on both sides.
pub fn ebb(s: &mut Sketch) {
    let dim = s.random.between(1, 3);
    let darts = s.random.between(2, 6);
    begin(s, dim, darts);
    span_cells(s);
    for _ in 0..s.random.between(2, 6) {
        let _ = s.say(Command::Lift);
        match s.random.below(6) {
            0 | 1 => {
                let dart = some_dart(s.random, &s.paper.plan);
                let _ = s.say(Command::Clear { dart });
            }
            2 => {
                let (dim, darts) = (s.random.between(1, 4), s.random.below(3));
                begin(s, dim, darts);
            }
            3 => {
                let _ = s.say(Command::Adopt);
                let last = s.count().saturating_sub(1);
                span(s, last, 0, 3);
            }
            _ => {
                s.seek(any_span, |o| o.is_ok());
            }
        }
    }
    count_some(s, 0);
    count_some(s, 1);
}

/// A command at a dart that two bytes are needed for.
fn at_high_dart(s: &mut Sketch) -> Command {
    let dart = s.random.between(256, s.count().max(257) - 1) as u16;
    let (lo, hi) = stretch(s.random);
    let axis = s.random.below(3) as u8;
    match s.random.below(5) {
        0 => Command::Unsew { axis, a: dart },
        1 => Command::Place {
            dart,
            axis: axis % 2,
            coordinate: lo,
        },
        2 => Command::Span { dart, lo, hi },
        3 => Command::SpanOf {
            dart,
            lo,
            hi,
            object: any_object(s.random),
        },
        _ => Command::Clear { dart },
    }
}

/// More darts than one byte counts: polygons in a row, some of them joined, some
/// with spans; then edits at darts with high numbers.
pub fn many_darts(s: &mut Sketch) {
    let sides = s.random.between(1, 5);
    let many = s.random.between(270, 330) / (2 * sides) + 1;
    begin(s, 2, 2 * sides * many);
    let (lo, hi) = stretch(s.random);
    let last = 2 * sides * (many - 1);
    for first in (0..=last).step_by(2 * sides) {
        polygon(s, first, sides);
        if s.random.chance(60) {
            span(s, first, lo, hi);
        }
        if first > 0 && s.random.chance(60) {
            sew(s, 2, first, first - 2 * sides);
        }
    }
    let _ = s.say(Command::Lift);
    for _ in 0..s.random.between(4, 12) {
        let command = at_high_dart(s);
        let _ = s.say(command);
    }
    let _ = s.say(Command::Lift);
    for axis in 0..=2 {
        let _ = s.say(Command::Count { side: 0, axis });
        let _ = s.say(Command::Count { side: 1, axis });
    }
    let _ = s.say(Command::Adopt);
}

/// More commands than a program's reply memory has room for, most of them short.
pub fn long_list(s: &mut Sketch) {
    let dim = s.random.between(1, 4);
    begin(s, dim, 4);
    for _ in 0..s.random.between(200, 1_200) {
        let command = any_command(s.random, &s.paper);
        if !matches!(command, Command::Adopt) || s.paper.lifted.map.count() < 9 {
            let _ = s.say(command);
        }
    }
}

/// Bytes that mean nothing, or such as begin with a command's byte.
pub fn any_bytes(s: &mut Sketch) {
    let many = s.random.below(40);
    let is_near = s.random.chance(70);
    for _ in 0..many {
        let byte = s.random.bits() as u8;
        if is_near {
            let command = s.random.between(0x10, 0x1a) as u8;
            let small = s.random.below(4) as u8;
            let near = [command, command, 0, 0, small, small, byte];
            s.bytes.push(s.random.pick(&near));
        } else {
            s.bytes.push(byte);
        }
    }
    s.over = true;
}

/// Readable commands with a byte or two of them changed, left out or doubled.
pub fn garbled(s: &mut Sketch) {
    scene_by_scene(s);
    for _ in 0..s.random.between(1, 3) {
        let at = s.random.below(s.bytes.len());
        let byte = s.random.bits() as u8;
        match s.random.below(3) {
            _ if s.bytes.is_empty() => {}
            0 => s.bytes[at] = byte,
            1 => {
                s.bytes.remove(at);
            }
            _ => s.bytes.insert(at, s.bytes[at]),
        }
    }
    s.over = true;
}
