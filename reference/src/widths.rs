//! Every width of the product, named once.

/// The greatest dimension at all: that of a lift of a plan of dimension 4.
pub const GREATEST_DIMENSION: usize = 5;
/// The greatest dimension NEW takes: one lift is left to it.
pub const GREATEST_NEW_DIMENSION: usize = GREATEST_DIMENSION - 1;
/// Numbers in one row of a link table: one for each axis.
pub const LINKS: usize = GREATEST_DIMENSION + 1;
/// Numbers in one row of a place table: the most coordinates a map can have.
pub const COORDINATES: usize = GREATEST_DIMENSION;
/// The most spans one row may hold.
pub const SPANS: usize = 8;
/// Numbers that a span takes in its row: its low end, its high end, its object.
pub const PER_SPAN: usize = 3;
/// Numbers in one row of a span table: how many, then those of each span.
pub const SPAN_NUMBERS: usize = 1 + PER_SPAN * SPANS;
/// Numbers in one row of a table of objects.
pub const OBJECTS: usize = 1;
/// How many values an object's number has: it is one of 16 bits, from 0 on.
pub const OBJECT_LIMIT: i32 = 1 << u16::BITS;
/// The object of a span that SPAN sets.
pub const SPAN_OBJECT: u16 = 0;
/// Numbers in a pair of ends, as the pieces call writes it.
pub const PAIR: usize = 2;
/// Numbers in one row of a work table.
pub const WORK: usize = 4;
/// No side ever has more darts than this, however long its tables are.
pub const DARTS: usize = 16_384;
/// The least dimension a plan or a raw table may have; 0 stands for blank.
pub const LEAST_DIMENSION: usize = 1;
/// Links two axes commute when the axes are at least this far apart.
pub const APART: usize = 2;
/// Bytes in one reply: the number, then the value in two bytes.
pub const REPLY_BYTES: usize = 3;
/// The program's plan capacity.
pub const PROGRAM_PLAN: usize = 192;
/// The program's lifted capacity.
pub const PROGRAM_LIFTED: usize = 512;
/// The program's reply memory in bytes.
pub const PROGRAM_REPLY: usize = 3_072;
/// The longest input the program runs.
pub const PROGRAM_BYTES: usize = 2_048;
