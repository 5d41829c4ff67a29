//! What the tests and the benchmarks of the proved code share: maps and lists
//! of commands to try it on, comparisons with the reference, and for the
//! benchmarks the calls of document 01 in plain Rust.
//!
//! The calls themselves are in the crate `laremban`. Here they are taken as the
//! static library answers them, number by number, so that nothing of an answer
//! is left out of a comparison.

pub mod builds;
pub mod joined;
pub mod lent;
pub mod maps;
pub mod met;
pub mod plain;
pub mod runs;
pub mod timing;

/// The reference has plans too: cases, which own their tables.
pub use laremban::Plan as Tables;
pub use laremban::linked::{
    Answer, Ended, Looseness, Pairs, cells, check, counts, decode, lift, liftrun, looseness,
    pieces, row, run,
};
pub use laremban::{LiftedMut, PlanMut};
