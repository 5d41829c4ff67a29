//! The heights of a parcel's line: what is wrong with them, and which become one.

use crate::line;
use laremban::{SPANS, Span};

/// The most heights that a line may have, however few they become: the run takes
/// each of them.
pub const HEIGHTS: usize = 256;

/// Heights between which a parcel stands, and those of its line that they come
/// from.
#[derive(Clone, Debug, PartialEq, Eq)]
pub struct Standing {
    /// From the lowest of them to the highest, with their object.
    pub span: Span,
    /// Those of the line, ascending: several where they overlap.
    pub from: Vec<Span>,
}

impl Standing {
    /// Those of the line, where they were joined.
    pub(crate) fn joined(&self) -> Option<String> {
        (self.from.len() > 1).then(|| list(&self.from))
    }

    /// That they were joined, for those who meant something else.
    pub(crate) fn note(&self) -> Option<String> {
        let Span { lo, hi, object, .. } = self.span;
        let of = match (object, self.from.len()) {
            (0, _) => String::new(),
            (object, 2) => format!(", both of {object},"),
            (object, _) => format!(", all of {object},"),
        };
        let joined = self.joined()?;
        Some(format!(
            "the heights {joined}{of} overlap, and are joined to {lo}..{hi}"
        ))
    }
}

/// Heights that ascend, those of one object that overlap joined. Each begins no
/// lower than those before it, so that it can overlap the last of them alone.
pub(crate) fn standing(heights: &[Span]) -> Vec<Standing> {
    let mut all: Vec<Standing> = Vec::new();
    for &span in heights {
        match all.last_mut() {
            Some(last) if last.span.overlaps(span) && last.span.object == span.object => {
                last.span.hi = last.span.hi.max(span.hi);
                last.from.push(span);
            }
            _ => all.push(Standing {
                span,
                from: vec![span],
            }),
        }
    }
    all
}

/// So many heights are told in a list, and then how many more.
const TOLD: usize = 8;

/// Several heights without their objects: `0..3, 2..6 and 5..9`.
fn list(heights: &[Span]) -> String {
    let told = |span: &Span| format!("{}..{}", span.lo, span.hi);
    let mut all: Vec<String> = heights.iter().take(TOLD).map(told).collect();
    if heights.len() > TOLD {
        all.push(format!("{} more", heights.len() - TOLD));
    }
    let last = all.pop().unwrap_or_default();
    format!("{} and {last}", all.join(", "))
}

/// What is wrong with heights that ascend: the first that is found.
pub(crate) fn fault(heights: &[Span]) -> Option<String> {
    if heights.len() > HEIGHTS {
        let many = heights.len();
        return Some(format!("{many} heights, and a line has {HEIGHTS} at most"));
    }
    let ordered = |span: &Span| line::ordered((span.lo, span.hi));
    let empty = heights.iter().find_map(|span| ordered(span).err());
    empty
        .or_else(|| clash(heights))
        .or_else(|| too_many(heights))
}

/// Two heights that overlap, and are of two objects.
fn clash(heights: &[Span]) -> Option<String> {
    heights.iter().enumerate().find_map(|(at, &own)| {
        let clashes = |old: &&Span| old.overlaps(own) && old.object != own.object;
        let old = heights[..at].iter().find(clashes)?;
        let hint = match (old.object, own.object) {
            (0, _) | (_, 0) => " (heights without an object have object 0)",
            _ => "",
        };
        let [old, own] =
            [*old, own].map(|Span { lo, hi, object, .. }| format!("{lo}..{hi} of {object}"));
        Some(format!(
            "the heights {old} and {own} overlap, and are of two objects{hint}"
        ))
    })
}

/// More than a row holds, also where those that overlap are joined.
fn too_many(heights: &[Span]) -> Option<String> {
    let (written, many) = (heights.len(), standing(heights).len());
    let told = match written - many {
        0 => format!("{many} heights"),
        _ => format!("{written} heights, joined to {many}"),
    };
    (many > SPANS).then(|| format!("{told}, and {SPANS} are the most"))
}
