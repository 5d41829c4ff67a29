//! Why a command was refused, as exactly as its number and the maps before it
//! allow. The number is the run's; nothing here decides it.

use crate::history::{History, Maps};
use crate::joining::brought;
use crate::prose::{many, span};
use crate::run::Room;
use crate::sewing::{disagreement, linked, no_pairing};
use laremban::{
    Command, DARTS, GREATEST_NEW_DIMENSION, LiftedTables, Refusal, SPANS, Side, Size, Sizes, Span,
    lift,
};

/// Why the run refused a command, in words: general ones where patience is at
/// its end.
pub(crate) fn reason(
    command: Command,
    refusal: Refusal,
    history: &mut History,
    room: Room,
) -> String {
    let told = match refusal {
        Refusal::OutOfRange => out_of_range(command, history.sizes()),
        Refusal::NoSuchDart => missing(command, history.sizes().plan),
        Refusal::TooLarge => Some(too_large(history, room)),
        Refusal::SpanOverlaps => overlap(command, history),
        Refusal::AlreadyLinked | Refusal::NoPairing | Refusal::PairDisagrees => {
            let maps = history.patient_maps(history.sizes().plan.count);
            maps.and_then(|maps| by_maps(command, refusal, maps))
        }
        _ => by_sizes(command, refusal, history.sizes(), room),
    };
    told.unwrap_or_else(|| refusal.to_string())
}

/// A reason that the operands and the sizes of the maps tell.
fn by_sizes(command: Command, refusal: Refusal, sizes: Sizes, room: Room) -> Option<String> {
    let told = match (refusal, command) {
        (Refusal::EmptySpan, Command::Span { lo, hi, .. } | Command::SpanOf { lo, hi, .. }) => {
            format!("lo is {lo}, which is not below hi, {hi}")
        }
        (Refusal::NoPlan, _) => no_plan(),
        (Refusal::PlanFull, Command::Adopt) => format!(
            "the lifted map has {}, and the plan has room for {}",
            many(sizes.lifted.count, "dart"),
            room.plan
        ),
        (Refusal::PlanFull, _) => {
            let darts = many(sizes.plan.count, "dart");
            format!("the plan has {darts}, and room for no more")
        }
        (Refusal::AlreadyFree, Command::Unsew { axis, a }) => {
            format!("dart {a} is free along axis {axis} already")
        }
        (
            Refusal::RowFull,
            Command::Span { dart, lo, hi } | Command::SpanOf { dart, lo, hi, .. },
        ) => {
            let cell = top_cell(dart);
            format!(
                "{cell} has {SPANS} spans already, {lo}..{hi} overlaps none of them, and a row holds no more"
            )
        }
        (Refusal::NothingLifted, _) => nothing_lifted(),
        (Refusal::TopDimension, _) => {
            let dimension = sizes.plan.dimension;
            format!("the plan has dimension {dimension}, and can't be lifted")
        }
        _ => return None,
    };
    Some(told)
}

/// A reason that only the tables tell.
fn by_maps(command: Command, refusal: Refusal, maps: &Maps) -> Option<String> {
    match command {
        Command::Sew { axis, a, b } => {
            let (a, b, axis) = (a.into(), b.into(), axis.into());
            match refusal {
                Refusal::AlreadyLinked => Some(linked(maps, a, b, axis)),
                Refusal::NoPairing => no_pairing(maps, a, b, axis),
                _ => disagreement(maps, a, b, axis),
            }
        }
        _ => None,
    }
}

/// 18: the first span of another object in the row that a new one overlaps.
fn overlap(command: Command, history: &mut History) -> Option<String> {
    let (dart, new) = brought(command)?;
    let clashes = |old: &&Span| old.overlaps(new) && old.object != new.object;
    let old = *history.row(dart)?.iter().find(clashes)?;
    let (new, old, cell) = (span(new), span(old), top_cell(dart));
    Some(format!("{new} overlaps {old}, a span of {cell}"))
}

fn top_cell(dart: u16) -> String {
    format!("the top cell of dart {dart}")
}

/// 4: the first dart of a command that the plan does not have.
fn missing(command: Command, plan: Size) -> Option<String> {
    let named = operands(command).into_iter().flatten();
    let mut missing = named.filter(|&dart| usize::from(dart) >= plan.count);
    missing.next().map(|dart| no_dart(dart, plan, "plan"))
}

/// The darts that a command names.
fn operands(command: Command) -> [Option<u16>; 2] {
    match command {
        Command::Sew { a, b, .. } => [Some(a), Some(b)],
        Command::Unsew { a: dart, .. }
        | Command::Place { dart, .. }
        | Command::Span { dart, .. }
        | Command::SpanOf { dart, .. }
        | Command::Clear { dart } => [Some(dart), None],
        _ => [None, None],
    }
}

/// 3: the operand that is out of range, and the range.
fn out_of_range(command: Command, sizes: Sizes) -> Option<String> {
    let plan = sizes.plan;
    match command {
        Command::New { dimension } => Some(format!(
            "dimension {dimension} is out of range: a new plan has dimension 1 to {GREATEST_NEW_DIMENSION}"
        )),
        Command::Sew { axis, .. } | Command::Unsew { axis, .. } => {
            Some(no_axis(axis, plan, "plan"))
        }
        Command::Place { axis, .. } => Some(format!(
            "axis {axis} is out of range: in dimension {} a place has {}",
            plan.dimension,
            coordinates(plan.dimension)
        )),
        Command::Count { side, axis } => Some(match Side::from_number(side) {
            Some(Side::Plan) => no_axis(axis, plan, "plan"),
            Some(Side::Lifted) => no_axis(axis, sizes.lifted, "lifted map"),
            None => no_side(side),
        }),
        _ => None,
    }
}

fn no_side(side: u8) -> String {
    let (plan, lifted) = (Side::Plan.number(), Side::Lifted.number());
    format!("side {side} is out of range: {plan} is the plan, {lifted} the lifted side")
}

fn coordinates(dimension: u8) -> String {
    match dimension {
        1 => "coordinate 0 alone".to_string(),
        _ => format!("coordinates 0 to {}", dimension - 1),
    }
}

/// An axis that a map does not have.
pub(crate) fn no_axis(axis: u8, size: Size, map: &str) -> String {
    let dimension = size.dimension;
    format!(
        "axis {axis} is out of range: the {map} has dimension {dimension}, and axes 0 to {dimension}"
    )
}

/// A dart that a map does not have.
pub(crate) fn no_dart(dart: u16, size: Size, map: &str) -> String {
    match size.count.checked_sub(1) {
        None => format!("there is no dart {dart}: the {map} has no darts"),
        Some(0) => format!("there is no dart {dart}: the {map} has 1 dart, dart 0"),
        Some(last) => {
            let count = size.count;
            format!("there is no dart {dart}: the {map} has {count} darts, 0 to {last}")
        }
    }
}

/// The plan is blank.
pub(crate) fn no_plan() -> String {
    "there is no plan yet: NEW makes one".to_string()
}

/// The lifted side is blank.
pub(crate) fn nothing_lifted() -> String {
    "nothing is lifted yet: LIFT comes first".to_string()
}

/// 20: the room, and how many darts the lift has where a lift with all the room
/// that there can be tells it.
fn too_large(history: &mut History, room: Room) -> String {
    let short = format!("the lifted side has room for {}", many(room.lifted, "dart"));
    let look = history.sizes().plan.count + DARTS;
    let lifted = history.patient_maps(look).and_then(|maps| {
        let mut most = LiftedTables::new(DARTS);
        lift(&mut maps.lend(), &mut most.lend()).ok()
    });
    match lifted {
        Some(needed) => format!("{short}, and the lift has {needed}"),
        None => format!("{short}, and the lift has more"),
    }
}

#[cfg(test)]
mod tests {
    use super::*;

    /// The reason of a SEW of dart 0 to itself with so much patience.
    fn told(patience: usize) -> String {
        let mut history = History::new(patience);
        history.accept(Command::New { dimension: 1 }, 0);
        history.accept(Command::Dart, 0);
        let sew = Command::Sew {
            axis: 0,
            a: 0,
            b: 0,
        };
        reason(sew, Refusal::NoPairing, &mut history, Room::default())
    }

    #[test]
    fn without_patience_the_reason_is_plain() {
        // Two edits, a row, and a dart that is looked at.
        assert_eq!(told(4), "no pairing: dart 0 cannot be sewn to itself");
        assert_eq!(told(3), Refusal::NoPairing.to_string());
    }
}
