//! Commands: written to bytes by a builder, read from bytes by a call.

use crate::linked;
use crate::refusal::Refused;
use crate::side::Side;
use crate::widths::{COMMAND_NUMBERS, REPLY_BYTES};

/// A command with its operands. Each may be any number: a run refuses what it
/// cannot use.
///
/// More may come with later versions.
#[derive(Clone, Copy, Debug, PartialEq, Eq, Hash)]
#[non_exhaustive]
pub enum Command {
    /// An empty plan of a dimension from 1 to 4. Value: 0.
    New {
        /// The plan's dimension.
        dimension: u8,
    },
    /// Adds a dart, free along all axes, at place 0, without spans. Value: its number.
    Dart,
    /// Links a and b along an axis, and with them the darts around them. Value:
    /// how many darts were linked.
    Sew {
        /// The axis that they are linked along.
        axis: u8,
        /// The one dart.
        a: u16,
        /// The other dart.
        b: u16,
    },
    /// Frees a dart along an axis, with the darts around it. Value: how many
    /// darts were freed.
    Unsew {
        /// The axis that it is freed along.
        axis: u8,
        /// The dart.
        a: u16,
    },
    /// Sets a coordinate of a dart's corner. Value: how many darts the corner has.
    Place {
        /// A dart of the corner.
        dart: u16,
        /// Which coordinate.
        axis: u8,
        /// What it is set to.
        coordinate: i32,
    },
    /// Adds a span of object 0 to the row of a dart's top cell. It and those of
    /// its own object that it overlaps become one, from the lowest end to the
    /// highest; one that only touches stays by itself. Refused where it overlaps
    /// one of another object, then where the row would have more than eight
    /// spans. Value: how many darts the cell has.
    Span {
        /// A dart of the cell.
        dart: u16,
        /// The low end.
        lo: i32,
        /// The high end.
        hi: i32,
    },
    /// Adds a span of an object to the row of a dart's top cell, and is
    /// [`Command::Span`] in all else: object 0 is an object like others. Value: how
    /// many darts the cell has.
    SpanOf {
        /// A dart of the cell.
        dart: u16,
        /// The low end.
        lo: i32,
        /// The high end.
        hi: i32,
        /// The number of the span's object.
        object: u16,
    },
    /// Empties the row of a dart's top cell. Value: how many darts the cell has.
    Clear {
        /// A dart of the cell.
        dart: u16,
    },
    /// The lifted side becomes the lift of the plan. Value: how many darts it has.
    Lift,
    /// The plan becomes a copy of the lifted map, without spans. Value: how many
    /// darts it has.
    Adopt,
    /// Counts the cells of an axis. Value: how many there are.
    Count {
        /// The number of a [`Side`].
        side: u8,
        /// The axis of the cells.
        axis: u8,
    },
}

/// What a command is there for, if it is accepted. There are no more kinds, so
/// that a program that tells them apart knows what to do with a command that
/// comes later.
#[derive(Clone, Copy, Debug, PartialEq, Eq, Hash)]
pub enum Kind {
    /// It writes the plan, and the lifted side stays.
    WritesPlan,
    /// It writes the lifted side, and the plan stays.
    WritesLifted,
    /// It looks at a map, and both stay.
    Looks,
    /// It can't be read, and ends the run.
    EndsRun,
}

impl Command {
    /// What the command is there for.
    ///
    /// ```
    /// use laremban::{Command, Kind};
    ///
    /// assert_eq!(Command::Adopt.kind(), Kind::WritesPlan);
    /// assert_eq!(Command::Lift.kind(), Kind::WritesLifted);
    /// ```
    pub const fn kind(self) -> Kind {
        match self {
            Command::New { .. }
            | Command::Dart
            | Command::Sew { .. }
            | Command::Unsew { .. }
            | Command::Place { .. }
            | Command::Span { .. }
            | Command::SpanOf { .. }
            | Command::Clear { .. }
            | Command::Adopt => Kind::WritesPlan,
            Command::Lift => Kind::WritesLifted,
            Command::Count { .. } => Kind::Looks,
        }
    }
}

/// The command at a place, beside the place of the byte after it.
#[derive(Clone, Copy, Debug, PartialEq, Eq, Hash)]
#[non_exhaustive]
pub struct Read {
    /// The command, or why there is none: its byte is unknown, or it is cut short.
    pub command: Result<Command, Refused>,
    /// The place of the byte after it; the end of the bytes where there is none.
    pub next: usize,
}

impl Read {
    /// What the command is there for. One that can't be read ends the run.
    ///
    /// ```
    /// use laremban::{Kind, decode};
    ///
    /// assert_eq!(decode(&[0x17, 0xff], 0).kind(), Kind::WritesLifted);
    /// assert_eq!(decode(&[0x17, 0xff], 1).kind(), Kind::EndsRun);
    /// ```
    pub fn kind(self) -> Kind {
        self.command.map_or(Kind::EndsRun, Command::kind)
    }
}

/// Reads the command at a place of some bytes.
///
/// ```
/// use laremban::{Command, Refusal, decode};
///
/// let bytes = [0x11, 0x12, 0, 0, 0, 0, 1, 0x15, 0];
/// let read = decode(&bytes, 1);
/// assert_eq!(read.command, Ok(Command::Sew { axis: 0, a: 0, b: 1 }));
/// assert_eq!(read.next, 7);
/// assert_eq!(decode(&bytes, 7).command, Err(Refusal::CutShort.into()));
/// assert_eq!(decode(&bytes, 8).command, Err(Refusal::UnknownCommand.into()));
/// ```
pub fn decode(bytes: &[u8], at: usize) -> Read {
    let mut numbers = [0; COMMAND_NUMBERS];
    let next = linked::decode(bytes, at, &mut numbers);
    let command = command_of(numbers);
    Read { command, next }
}

/// The command that five numbers tell. The call tells each operand within its
/// width, so that none is cut here.
fn command_of([first, a, b, c, d]: [i32; COMMAND_NUMBERS]) -> Result<Command, Refused> {
    let byte = |number: i32| number as u8;
    let word = |number: i32| number as u16;
    let command = match first {
        0x10 => Command::New { dimension: byte(a) },
        0x11 => Command::Dart,
        0x12 => Command::Sew {
            axis: byte(a),
            a: word(b),
            b: word(c),
        },
        0x13 => Command::Unsew {
            axis: byte(a),
            a: word(b),
        },
        0x14 => Command::Place {
            dart: word(a),
            axis: byte(b),
            coordinate: c,
        },
        0x15 => Command::Span {
            dart: word(a),
            lo: b,
            hi: c,
        },
        0x16 => Command::Clear { dart: word(a) },
        0x17 => Command::Lift,
        0x18 => Command::Adopt,
        0x19 => Command::Count {
            side: byte(a),
            axis: byte(b),
        },
        0x1a => Command::SpanOf {
            dart: word(a),
            lo: b,
            hi: c,
            object: word(d),
        },
        // An unreadable command is told by 0 and its refusal.
        0 => return Err(Refused::without_dart(byte(a)).expect("a refusal")),
        _ => unreachable!("a command by {first:#x}, which this crate does not know"),
    };
    Ok(command)
}

/// A list of commands, built one after the other, as the bytes that a run takes.
///
/// ```
/// use laremban::{Command, Commands, Side};
///
/// let mut list = Commands::new();
/// list.new_plan(2).dart().dart().sew(0, 0, 1);
/// assert_eq!(list.bytes(), [0x10, 2, 0x11, 0x11, 0x12, 0, 0, 0, 0, 1]);
/// assert_eq!(list.count_commands(), 4);
/// let same: Commands = [
///     Command::New { dimension: 2 },
///     Command::Dart,
///     Command::Dart,
///     Command::Sew { axis: 0, a: 0, b: 1 },
/// ]
/// .into_iter()
/// .collect();
/// assert_eq!(list, same);
///
/// // All that is there to say:
/// list.unsew(0, 1).place(0, 1, -6).span(0, 0, 25).span_of(0, 25, 30, 101).clear(1);
/// list.lift().adopt().count(Side::Plan, 2);
/// assert_eq!(list.count_commands(), 12);
/// ```
#[derive(Clone, Debug, Default, PartialEq, Eq, Hash)]
pub struct Commands {
    bytes: Vec<u8>,
    count: usize,
}

impl Commands {
    /// The empty list.
    pub fn new() -> Commands {
        Commands::default()
    }

    /// The bytes of the list.
    pub fn bytes(&self) -> &[u8] {
        &self.bytes
    }

    /// How many commands the list has.
    pub fn count_commands(&self) -> usize {
        self.count
    }

    /// Memory for the replies to all of them.
    ///
    /// ```
    /// let mut list = laremban::Commands::new();
    /// assert_eq!(list.new_plan(1).dart().reply_memory(), [0; 6]);
    /// ```
    pub fn reply_memory(&self) -> Vec<u8> {
        vec![0; REPLY_BYTES * self.count]
    }

    /// Adds a command.
    ///
    /// ```
    /// use laremban::{Command, Commands, decode};
    ///
    /// let command = Command::Place { dart: 3, axis: 1, coordinate: -7 };
    /// let mut list = Commands::new();
    /// assert_eq!(decode(list.push(command).bytes(), 0).command, Ok(command));
    /// ```
    pub fn push(&mut self, command: Command) -> &mut Commands {
        self.count += 1;
        match command {
            Command::New { dimension } => self.put(&[0x10, dimension]),
            Command::Dart => self.put(&[0x11]),
            Command::Sew { axis, a, b } => self.put(&[0x12, axis]).put_word(a).put_word(b),
            Command::Unsew { axis, a } => self.put(&[0x13, axis]).put_word(a),
            Command::Place {
                dart,
                axis,
                coordinate,
            } => self
                .put(&[0x14])
                .put_word(dart)
                .put(&[axis])
                .put_height(coordinate),
            Command::Span { dart, lo, hi } => self
                .put(&[0x15])
                .put_word(dart)
                .put_height(lo)
                .put_height(hi),
            Command::SpanOf {
                dart,
                lo,
                hi,
                object,
            } => self
                .put(&[0x1a])
                .put_word(dart)
                .put_height(lo)
                .put_height(hi)
                .put_word(object),
            Command::Clear { dart } => self.put(&[0x16]).put_word(dart),
            Command::Lift => self.put(&[0x17]),
            Command::Adopt => self.put(&[0x18]),
            Command::Count { side, axis } => self.put(&[0x19, side, axis]),
        }
    }

    fn put(&mut self, bytes: &[u8]) -> &mut Commands {
        self.bytes.extend(bytes);
        self
    }

    /// Two bytes, the higher first.
    fn put_word(&mut self, word: u16) -> &mut Commands {
        self.put(&word.to_be_bytes())
    }

    /// Four bytes in two's complement, the highest first.
    fn put_height(&mut self, height: i32) -> &mut Commands {
        self.put(&height.to_be_bytes())
    }

    /// Adds [`Command::New`].
    pub fn new_plan(&mut self, dimension: u8) -> &mut Commands {
        self.push(Command::New { dimension })
    }

    /// Adds [`Command::Dart`].
    pub fn dart(&mut self) -> &mut Commands {
        self.push(Command::Dart)
    }

    /// Adds [`Command::Dart`] so many times.
    pub fn darts(&mut self, many: usize) -> &mut Commands {
        self.extend(std::iter::repeat_n(Command::Dart, many));
        self
    }

    /// Adds [`Command::Sew`].
    pub fn sew(&mut self, axis: u8, a: u16, b: u16) -> &mut Commands {
        self.push(Command::Sew { axis, a, b })
    }

    /// Adds [`Command::Unsew`].
    pub fn unsew(&mut self, axis: u8, a: u16) -> &mut Commands {
        self.push(Command::Unsew { axis, a })
    }

    /// Adds [`Command::Place`].
    pub fn place(&mut self, dart: u16, axis: u8, coordinate: i32) -> &mut Commands {
        self.push(Command::Place {
            dart,
            axis,
            coordinate,
        })
    }

    /// Adds [`Command::Span`].
    pub fn span(&mut self, dart: u16, lo: i32, hi: i32) -> &mut Commands {
        self.push(Command::Span { dart, lo, hi })
    }

    /// Adds [`Command::SpanOf`].
    ///
    /// ```
    /// let mut list = laremban::Commands::new();
    /// let bytes = [0x1a, 0, 2, 0xff, 0xff, 0xff, 0xff, 0, 0, 0, 3, 1, 7];
    /// assert_eq!(list.span_of(2, -1, 3, 263).bytes(), bytes);
    /// ```
    pub fn span_of(&mut self, dart: u16, lo: i32, hi: i32, object: u16) -> &mut Commands {
        self.push(Command::SpanOf {
            dart,
            lo,
            hi,
            object,
        })
    }

    /// Adds [`Command::Clear`].
    pub fn clear(&mut self, dart: u16) -> &mut Commands {
        self.push(Command::Clear { dart })
    }

    /// Adds [`Command::Lift`].
    pub fn lift(&mut self) -> &mut Commands {
        self.push(Command::Lift)
    }

    /// Adds [`Command::Adopt`].
    pub fn adopt(&mut self) -> &mut Commands {
        self.push(Command::Adopt)
    }

    /// Adds [`Command::Count`].
    pub fn count(&mut self, side: Side, axis: u8) -> &mut Commands {
        let side = side.number();
        self.push(Command::Count { side, axis })
    }
}

impl Extend<Command> for Commands {
    fn extend<I: IntoIterator<Item = Command>>(&mut self, commands: I) {
        for command in commands {
            self.push(command);
        }
    }
}

impl FromIterator<Command> for Commands {
    fn from_iter<I: IntoIterator<Item = Command>>(commands: I) -> Commands {
        let mut list = Commands::new();
        list.extend(commands);
        list
    }
}
