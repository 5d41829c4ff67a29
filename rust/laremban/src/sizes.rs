//! The sizes of both maps after a run, which its commands and replies tell.

use crate::command::{Command, decode};
use crate::linked::Ended;
use crate::run::replies;

/// The size of a map. A blank one has dimension 0.
#[derive(Clone, Copy, Debug, Default, PartialEq, Eq, Hash)]
pub struct Size {
    /// The map's dimension.
    pub dimension: u8,
    /// How many darts it has.
    pub count: usize,
}

/// The sizes of both maps; before the first command both are blank.
#[derive(Clone, Copy, Debug, Default, PartialEq, Eq, Hash)]
pub struct Sizes {
    /// The plan's.
    pub plan: Size,
    /// The lifted map's.
    pub lifted: Size,
}

impl Sizes {
    /// What a command leaves that was accepted with a value. A refused one leaves
    /// them as they are.
    ///
    /// ```
    /// use laremban::{Command, Sizes};
    ///
    /// let plan = Sizes::default().after(Command::New { dimension: 2 }, 0);
    /// assert_eq!(plan.after(Command::Dart, 0).plan.count, 1);
    /// ```
    #[must_use]
    pub fn after(self, command: Command, value: u16) -> Sizes {
        let Sizes { plan, lifted } = self;
        let count = usize::from(value);
        match command {
            Command::New { dimension } => {
                let plan = Size {
                    dimension,
                    count: 0,
                };
                Sizes { plan, lifted }
            }
            Command::Dart => {
                let count = count + 1;
                let plan = Size { count, ..plan };
                Sizes { plan, lifted }
            }
            Command::Lift => {
                let dimension = plan.dimension.saturating_add(1);
                let lifted = Size { dimension, count };
                Sizes { plan, lifted }
            }
            Command::Adopt => Sizes {
                plan: lifted,
                lifted,
            },
            Command::Sew { .. }
            | Command::Unsew { .. }
            | Command::Place { .. }
            | Command::Span { .. }
            | Command::SpanOf { .. }
            | Command::Clear { .. }
            | Command::Count { .. } => self,
        }
    }
}

/// The sizes of both maps after a run of these bytes that left these replies and
/// ended so.
///
/// ```
/// use laremban::{Commands, LiftedTables, PlanTables, run, sizes};
///
/// let mut list = Commands::new();
/// list.new_plan(1).darts(2).sew(0, 0, 1).span(0, 0, 3).lift();
/// let (mut plan, mut lifted) = (PlanTables::new(2), LiftedTables::new(8));
/// let mut memory = list.reply_memory();
/// let ended = run(list.bytes(), &mut plan.lend(), &mut lifted.lend(), &mut memory);
/// let sizes = sizes(list.bytes(), &memory, ended);
/// assert_eq!((sizes.lifted.dimension, sizes.lifted.count), (2, 8));
/// ```
///
/// # Panics
///
/// Where the memory holds a number that is no refusal's: it is not what a run left.
pub fn sizes(bytes: &[u8], memory: &[u8], ended: Ended) -> Sizes {
    let (mut sizes, mut at) = (Sizes::default(), 0);
    for reply in replies(memory, ended) {
        let read = decode(bytes, at);
        if let (Ok(command), Ok(value)) = (read.command, reply) {
            sizes = sizes.after(command, value);
        }
        at = read.next;
    }
    sizes
}
