//! A new span, and what it was joined to.

use crate::history::History;
use laremban::{Command, Span};

/// The dart and the span that a command brings.
pub(crate) fn brought(command: Command) -> Option<(u16, Span)> {
    match command {
        Command::Span { dart, lo, hi } => Some((dart, Span::new(lo, hi))),
        Command::SpanOf {
            dart,
            lo,
            hi,
            object,
        } => Some((dart, Span::new(lo, hi).of(object))),
        _ => None,
    }
}

/// What became of a new span.
#[derive(Clone, Copy, Debug, PartialEq, Eq)]
pub(crate) enum Became {
    /// It overlapped none, and stands by itself.
    Alone,
    /// It was joined, to this one.
    Joined(Span),
    /// The row is not known: patience is at its end.
    Unknown,
}

/// Takes a command that was accepted, and tells what became of the span that it
/// brought.
pub(crate) fn accept(command: Command, value: u16, history: &mut History) -> Became {
    let Some((dart, new)) = brought(command) else {
        history.accept(command, value);
        return Became::Alone;
    };
    let before = history.row(dart).map(<[Span]>::len);
    history.accept(command, value);
    let (Some(before), Some(row)) = (before, history.row(dart)) else {
        return Became::Unknown;
    };
    let has_new = |one: &&Span| one.lo <= new.lo && new.hi <= one.hi;
    match row.iter().find(has_new) {
        // A row grows where nothing is joined, and only there.
        Some(_) if row.len() > before => Became::Alone,
        Some(&one) => Became::Joined(one),
        None => Became::Unknown,
    }
}

#[cfg(test)]
mod tests {
    use super::*;

    /// What SPAN 0 2 5 is joined to behind SPAN 0 0 3, with so much patience: on an
    /// edge, or on what is left of it where its darts were parted.
    fn told(patience: usize, parted: bool) -> Became {
        let mut history = History::new(patience);
        let span = |lo, hi| Command::Span { dart: 0, lo, hi };
        let (axis, a, b) = (0, 0, 1);
        history.accept(Command::New { dimension: 1 }, 0);
        history.accept(Command::Dart, 0);
        history.accept(Command::Dart, 1);
        history.accept(Command::Sew { axis, a, b }, 2);
        history.accept(span(0, 3), 2);
        if parted {
            history.accept(Command::Unsew { axis, a }, 2);
        }
        accept(span(2, 5), if parted { 1 } else { 2 }, &mut history)
    }

    #[test]
    fn without_patience_what_only_the_maps_tell_is_not_told() {
        // Six edits, of which three write two rows, the rows, and a look at them.
        let joined = Became::Joined(Span::new(0, 5));
        assert_eq!(told(16, true), joined);
        assert_eq!(told(15, true), Became::Unknown);
        assert_eq!(told(0, false), joined);
    }
}
