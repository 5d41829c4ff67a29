//! A second implementation of the lifter of generalised maps.
//!
//! It is written from the product documents alone and shares nothing with the
//! proved implementation, so that the two can be compared on many inputs.
//! Being plainly right matters more here than being quick: cells are sets of
//! darts, the lift is a list of names, and every clause is tested as it stands.
//!
//! Reading order: `widths`, `refusal`, `map`, `orbit`, `span`, `lift` (what
//! things are); `command`, `step`, `run`, `print` (what a run does); `table`,
//! `calls` (how it looks in lent tables); `cases`, `draw`, `tally` (the test
//! cases that others compare themselves with); `lists` (lists of commands of any
//! size, for those that are quick).

pub mod antt;
pub mod calls;
pub mod cases;
pub mod command;
pub mod draw;
pub mod join_scenes;
pub mod join_tally;
pub mod joins;
pub mod lift;
pub mod lists;
pub mod long_scenes;
pub mod map;
pub mod object_scenes;
pub mod object_tally;
pub mod orbit;
pub mod print;
pub mod random;
pub mod raws;
pub mod refusal;
pub mod run;
pub mod scenes;
pub mod sew;
pub mod sketch;
pub mod span;
pub mod step;
pub mod table;
pub mod tally;
pub mod text;
pub mod widths;
