//! Replies in words.

use crate::joining::Became;
use crate::prose::{cells, darts, many};
use laremban::{Command, Ended, Refusal, Span};

/// What an accepted command did, by the value of its reply, and what became of its
/// span, if it brought one.
pub(crate) fn accepted(command: Command, value: u16, became: Became) -> String {
    let value = usize::from(value);
    let number = many(value, "dart");
    match command {
        Command::New { dimension } => format!("an empty plan of dimension {dimension}"),
        Command::Dart => darts(value, value),
        Command::Sew { .. } => format!("{number} linked"),
        Command::Unsew { .. } => format!("{number} freed"),
        Command::Place {
            axis, coordinate, ..
        } => format!("coordinate {axis} is {coordinate} for {number} of the corner"),
        Command::Span { lo, hi, .. } => {
            let stands = stands((lo, hi), "", became);
            format!("{stands} for {number} of the top cell")
        }
        Command::SpanOf { lo, hi, object, .. } => {
            let stands = stands((lo, hi), &format!(" of object {object}"), became);
            format!("{stands} for {number} of the top cell")
        }
        Command::Clear { .. } => format!("no spans for {number} of the top cell"),
        Command::Lift | Command::Adopt => number,
        Command::Count { axis, .. } => cells(value, axis),
        // What the value of a command that comes later is, it has to be told here.
        _ => format!("value {value}"),
    }
}

/// Where a new span stands, by its ends, and whose it is: alone, or in what it was
/// joined to.
fn stands((lo, hi): (i32, i32), of: &str, became: Became) -> String {
    match became {
        Became::Alone => format!("{lo}..{hi}{of}"),
        Became::Joined(Span { lo, hi, .. }) => format!("joined to {lo}..{hi}{of}"),
        Became::Unknown => format!("{lo}..{hi}{of}, or what it was joined to,"),
    }
}

/// A refusal with its reason, as every line tells it.
pub(crate) fn refused(refusal: Refusal, why: &str) -> String {
    format!("refused by {}: {why}", refusal.number())
}

/// How a run ended. A script's commands are whole and there is room for all
/// replies, so that nothing ends it before the list does.
pub(crate) fn end(ended: Ended) -> String {
    let at = match ended.refusal() {
        None => "at the end of the list".to_string(),
        Some(refusal) => format!("by {}: {refusal}", refusal.number()),
    };
    format!(
        "The run ended {at}: {} taken, {} accepted, {} refused.",
        many(ended.taken, "command"),
        ended.accepted,
        ended.refused
    )
}
