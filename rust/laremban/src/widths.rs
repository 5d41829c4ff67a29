//! Every width of the tables and every limit, named once, and the version that
//! they are of.

/// The version of the library that this crate is for: widths, arguments and
/// meanings are those that it has. A library of another one is refused, at a
/// program's first call.
pub const VERSION: u32 = 3;

/// The greatest dimension at all: that of a lift of a plan of dimension 4.
pub const GREATEST_DIMENSION: usize = 5;
/// The greatest dimension that [`Command::New`](crate::Command::New) takes: one lift is left to it.
pub const GREATEST_NEW_DIMENSION: usize = GREATEST_DIMENSION - 1;
/// Numbers in one row of a link table: one for each axis.
pub const LINKS: usize = GREATEST_DIMENSION + 1;
/// Numbers in one row of a place table: the most coordinates that a map can have.
pub const COORDINATES: usize = GREATEST_DIMENSION;
/// The most spans that one row may hold.
pub const SPANS: usize = 8;
/// Numbers that a span takes in its row: its two ends and its object.
pub(crate) const PER_SPAN: usize = 3;
/// Numbers in one row of a span table: how many, then those of each span.
pub const SPAN_NUMBERS: usize = 1 + PER_SPAN * SPANS;
/// Numbers in one row of an object table.
pub const OBJECTS: usize = 1;
/// Numbers in one row of a work table.
pub const WORK: usize = 4;
/// No side ever has more darts than this, however long its tables are.
pub const DARTS: usize = 16_384;
/// Bytes in one reply: the number, then the value in two bytes.
pub const REPLY_BYTES: usize = 3;
/// Numbers that a command is told by: its byte and four operands.
pub const COMMAND_NUMBERS: usize = 5;
/// The plan's capacity in the program `liftrun`.
pub const PROGRAM_PLAN: usize = 192;
/// The lifted side's capacity in the program `liftrun`.
pub const PROGRAM_LIFTED: usize = 512;
/// The reply memory of the program `liftrun`, in bytes.
pub const PROGRAM_REPLY: usize = 3_072;
/// The longest input that the program `liftrun` runs, in bytes.
pub const PROGRAM_BYTES: usize = 2_048;
/// The longest text that the program `liftrun` prints, in bytes.
pub const TEXT_BYTES: usize = PROGRAM_REPLY / REPLY_BYTES * REPLY_LINE + END_LINE;

/// The most bytes in the line of a reply: three digits, a blank, five digits, a newline.
const REPLY_LINE: usize = 3 + 1 + 5 + 1;
/// The most bytes in the last line: `end`, and four numbers behind a blank each.
const END_LINE: usize = 3 + (1 + 3) + 3 * (1 + 20) + 1;
