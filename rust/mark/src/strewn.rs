//! Commands as they come, most of them for darts and axes that are there.

use crate::draw::Draw;
use laremban::Command;

/// A span, now and then an empty one, and half of them of an object.
pub(crate) fn span(draw: &mut Draw, darts: usize) -> Command {
    let lo = draw.below(9) as i32 - 3;
    let hi = match draw.below(40) {
        0 => i32::MAX,
        _ => lo + draw.below(4) as i32,
    };
    let lo = if draw.chance(1, 40) { i32::MIN } else { lo };
    let dart = dart(draw, darts);
    match draw.below(2) {
        0 => Command::Span { dart, lo, hi },
        _ => Command::SpanOf {
            dart,
            lo,
            hi,
            object: [0, 1, 256, u16::MAX][draw.below(4)],
        },
    }
}

/// A dart, most often one that is there.
fn dart(draw: &mut Draw, darts: usize) -> u16 {
    match draw.below(40) {
        0 => u16::MAX,
        1 => darts as u16,
        2 => 256,
        _ => draw.below(darts) as u16,
    }
}

/// Any command.
pub(crate) fn command(draw: &mut Draw, dimension: usize, darts: usize) -> Command {
    let axis = match draw.below(16) {
        0 => [5, 6, 255][draw.below(3)],
        _ => draw.below(dimension + 2) as u8,
    };
    let (a, b) = (dart(draw, darts), dart(draw, darts));
    match draw.below(24) {
        0 if draw.chance(1, 4) => Command::New {
            dimension: [0, 1, 2, 4, 5, 255][draw.below(6)],
        },
        0 | 1 => Command::Dart,
        2..8 => Command::Sew { axis, a, b },
        8 => Command::Sew { axis, a, b: a },
        9..11 => Command::Unsew { axis, a },
        11..14 => Command::Place {
            dart: a,
            axis,
            coordinate: draw.below(3) as i32 - 1,
        },
        14..18 => span(draw, darts),
        18 => Command::Clear { dart: a },
        19 | 20 => Command::Lift,
        21 => Command::Adopt,
        _ => Command::Count {
            side: [0, 1, 0, 1, 2][draw.below(5)],
            axis,
        },
    }
}
