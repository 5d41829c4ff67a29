//! Commands: the twelve kinds, reading them from bytes, writing them to bytes.

use crate::map::Span;
use crate::refusal::{CUT_SHORT, UNKNOWN_COMMAND};
use crate::widths::SPAN_OBJECT;

/// One of the eleven commands with its operands, or an unreadable one with its
/// refusal number.
#[derive(Clone, Copy, Debug, PartialEq, Eq)]
pub enum Command {
    New {
        dimension: u8,
    },
    Dart,
    Sew {
        axis: u8,
        a: u16,
        b: u16,
    },
    Unsew {
        axis: u8,
        a: u16,
    },
    Place {
        dart: u16,
        axis: u8,
        coordinate: i32,
    },
    Span {
        dart: u16,
        lo: i32,
        hi: i32,
    },
    Clear {
        dart: u16,
    },
    Lift,
    Adopt,
    Count {
        side: u8,
        axis: u8,
    },
    /// SPAN with an object.
    SpanOf {
        dart: u16,
        lo: i32,
        hi: i32,
        object: u16,
    },
    Unreadable {
        number: u8,
    },
}

impl Command {
    /// The dart and the span that a command adds, where it is one of the two that
    /// add spans.
    pub fn span(self) -> Option<(u16, Span)> {
        let of = |dart, lo, hi, object| Some((dart, Span { lo, hi, object }));
        match self {
            Command::Span { dart, lo, hi } => of(dart, lo, hi, SPAN_OBJECT),
            Command::SpanOf {
                dart,
                lo,
                hi,
                object,
            } => of(dart, lo, hi, object),
            _ => None,
        }
    }
}

/// A command beside the place of the byte after it.
#[derive(Clone, Copy, Debug, PartialEq, Eq)]
pub struct Read {
    pub command: Command,
    pub next: usize,
}

/// How many operand bytes follow a command byte; nothing for an unknown byte.
fn operand_bytes(byte: u8) -> Option<usize> {
    match byte {
        0x10 => Some(1),
        0x11 | 0x17 | 0x18 => Some(0),
        0x12 => Some(5),
        0x13 => Some(3),
        0x14 => Some(7),
        0x15 => Some(10),
        0x16 | 0x19 => Some(2),
        0x1a => Some(12),
        _ => None,
    }
}

/// Two bytes, the higher first.
fn two(bytes: &[u8], at: usize) -> u16 {
    u16::from_be_bytes([bytes[at], bytes[at + 1]])
}

/// Four bytes in two's complement, the highest first.
fn four(bytes: &[u8], at: usize) -> i32 {
    i32::from_be_bytes([bytes[at], bytes[at + 1], bytes[at + 2], bytes[at + 3]])
}

/// Reads the command at a place. An unreadable one sends the reader to the end
/// of the bytes, whichever of the two reasons it has; no byte left counts as
/// operands cut short.
pub fn read(bytes: &[u8], at: usize) -> Read {
    let end = bytes.len();
    let unreadable = |number| Read {
        command: Command::Unreadable { number },
        next: end,
    };
    let Some(&byte) = bytes.get(at) else {
        return unreadable(CUT_SHORT);
    };
    let Some(wanted) = operand_bytes(byte) else {
        return unreadable(UNKNOWN_COMMAND);
    };
    let start = at + 1;
    if end - start < wanted {
        return unreadable(CUT_SHORT);
    }
    let next = start + wanted;
    Read {
        command: with_operands(byte, &bytes[start..next]),
        next,
    }
}

/// The command of a known byte, given exactly its operand bytes.
fn with_operands(byte: u8, o: &[u8]) -> Command {
    match byte {
        0x10 => Command::New { dimension: o[0] },
        0x11 => Command::Dart,
        0x12 => {
            let (axis, a, b) = (o[0], two(o, 1), two(o, 3));
            Command::Sew { axis, a, b }
        }
        0x13 => Command::Unsew {
            axis: o[0],
            a: two(o, 1),
        },
        0x14 => Command::Place {
            dart: two(o, 0),
            axis: o[2],
            coordinate: four(o, 3),
        },
        0x15 => {
            let (dart, lo, hi) = (two(o, 0), four(o, 2), four(o, 6));
            Command::Span { dart, lo, hi }
        }
        0x16 => Command::Clear { dart: two(o, 0) },
        0x17 => Command::Lift,
        0x18 => Command::Adopt,
        0x19 => Command::Count {
            side: o[0],
            axis: o[1],
        },
        0x1a => Command::SpanOf {
            dart: two(o, 0),
            lo: four(o, 2),
            hi: four(o, 6),
            object: two(o, 10),
        },
        _ => Command::Unreadable {
            number: UNKNOWN_COMMAND,
        },
    }
}

/// The bytes of a command, for drawing test cases. An unreadable one is
/// written as a byte that no command has, or as a command byte cut short.
pub fn write(command: Command) -> Vec<u8> {
    match command {
        Command::New { dimension } => vec![0x10, dimension],
        Command::Dart => vec![0x11],
        Command::Sew { axis, a, b } => {
            [&[0x12, axis][..], &a.to_be_bytes(), &b.to_be_bytes()].concat()
        }
        Command::Unsew { axis, a } => [&[0x13, axis][..], &a.to_be_bytes()].concat(),
        Command::Place {
            dart,
            axis,
            coordinate,
        } => {
            let (d, c) = (dart.to_be_bytes(), coordinate.to_be_bytes());
            [&[0x14][..], &d, &[axis], &c].concat()
        }
        Command::Span { dart, lo, hi } => {
            let (d, l, h) = (dart.to_be_bytes(), lo.to_be_bytes(), hi.to_be_bytes());
            [&[0x15][..], &d, &l, &h].concat()
        }
        Command::Clear { dart } => [&[0x16][..], &dart.to_be_bytes()].concat(),
        Command::Lift => vec![0x17],
        Command::Adopt => vec![0x18],
        Command::Count { side, axis } => vec![0x19, side, axis],
        Command::SpanOf {
            dart,
            lo,
            hi,
            object,
        } => {
            let (d, l, h) = (dart.to_be_bytes(), lo.to_be_bytes(), hi.to_be_bytes());
            [&[0x1a][..], &d, &l, &h, &object.to_be_bytes()].concat()
        }
        Command::Unreadable { number: CUT_SHORT } => vec![0x10],
        Command::Unreadable { .. } => vec![0xff],
    }
}
