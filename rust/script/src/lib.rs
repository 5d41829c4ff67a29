//! Lists of commands in words, for those who learn what a map is.
//!
//! A script has a line a command. It becomes the bytes of document 01, the
//! proved run takes them, and each reply is told in words. A number is always
//! the run's own; the words beside it are found here, from maps that the proved
//! run left.
//!
//! ```
//! use laremban_script::{Room, Run, Script};
//!
//! let script = Script::read(b"NEW 1\nDART x 2\nSEW 0 0 1\nSEW 0 1 1").unwrap();
//! let mut told = Vec::new();
//! Run::new(&script, Room::default()).tell(&mut told).unwrap();
//! assert_eq!(
//!     String::from_utf8(told).unwrap(),
//!     "NEW 1: an empty plan of dimension 1\n\
//!      DART x 2: darts 0 to 1\n\
//!      SEW 0 0 1: 2 darts linked\n\
//!      SEW 0 1 1: refused by 14: dart 1 is linked to dart 0 along axis 0 already\n\
//!      The run ended at the end of the list: 5 commands taken, 4 accepted, 1 refused.\n"
//! );
//! ```
#![deny(missing_docs)]
#![forbid(unsafe_code)]

mod back;
#[cfg(test)]
#[path = "../tests/drawn/draw.rs"]
mod draw;
mod history;
mod joining;
mod line;
mod names;
mod pairing;
mod prose;
mod reader;
mod reason;
mod reply;
mod rows;
mod run;
mod script;
mod sewing;
mod show;
mod table;
mod words;

pub use back::words_of_bytes;
pub use line::{Line, Show};
pub use run::{Room, Run};
pub use script::{Fault, Faults, Script};
