//! Lifts generalised maps by proved code.
//!
//! A flat sheet of parcels, each with the heights between which it stands, is
//! lifted to solids that share their walls; the same lift takes solids through
//! time and through map scale, up to dimension 5. The code is written in Rattle
//! and comes as a static library, `liblaremban.a`. Each call has a proved
//! contract that fixes its answer and all that it writes, refusals too, for
//! whatever is handed in. So none of them stops the program, reads or writes
//! outside what it is lent, or fails to end.
//!
//! A map is made of darts, numbered from 0. A dart has a link along each axis
//! up to the dimension, a place, and a row of spans, each with the number of the
//! object that it belongs to; a lifted dart has no spans, and carries the object
//! of the span that it stands on. They stand in tables, one row a dart, and a
//! call is lent tables: it allocates nothing.
//!
//! # Example
//!
//! A square parcel is built by a list of commands, lifted to a solid, and the
//! solid's corners, edges, faces and solids are counted.
//!
//! ```
//! use laremban::{Commands, LiftedTables, PlanTables, lift, run};
//!
//! # fn main() -> Result<(), laremban::Refused> {
//! // Two darts for each side: one at either end.
//! let mut list = Commands::new();
//! list.new_plan(2).darts(8);
//! for side in 0..4 {
//!     list.sew(0, 2 * side, 2 * side + 1);
//! }
//! for side in 0..4 {
//!     list.sew(1, 2 * side + 1, (2 * side + 2) % 8);
//! }
//! for (dart, x, y) in [(0, 0, 0), (2, 8, 0), (4, 8, 6), (6, 0, 6)] {
//!     list.place(dart, 0, x).place(dart, 1, y);
//! }
//! list.span(0, 0, 3);
//!
//! let (mut plan, mut lifted) = (PlanTables::new(8), LiftedTables::new(48));
//! let mut replies = list.reply_memory();
//! let ended = run(list.bytes(), &mut plan.lend(), &mut lifted.lend(), &mut replies);
//! assert_eq!((ended.refusal(), ended.refused), (None, 0));
//!
//! // The list could have lifted the plan itself, by `list.lift()`.
//! let darts = lift(&mut plan.plan(2, 8), &mut lifted.lend())?;
//! assert_eq!(darts, 48);
//!
//! assert_eq!(lifted.map(3, darts.into()).counts()?, [8, 12, 6, 1]);
//! # Ok(())
//! # }
//! ```
//!
//! # Threads
//!
//! The calls hold no state: all that one remembers stands in what it is lent.
//! They may run on any threads at once, with no lock. What a thread needs is
//! tables and reply memory of its own for a run, and a lifted side of its own
//! for a lift; full tables for both sides take 3 MB. A [`Plan`] is read but
//! for its work, so that many calls can share its other tables.
//!
//! # Where the library is
//!
//! The build links `liblaremban.a` from `target/staticlib` at the top of the
//! repository, where any of its tools puts it, or from the folder whose full
//! path is in the environment variable `LAREMBAN_LIB`. Crate and library
//! are made for each other: where the library is of another [`VERSION`] than the
//! crate, the first call panics and says so.
//!
//! # What may come
//!
//! Commands, refusals and tables will come with later versions. So types that
//! will get more are marked: they are built by functions (`PlanTables::new`,
//! [`Plan::new`], [`Span::new`], ..), and a `match` on them has an arm for the
//! rest. Commands that a program does not know can be told apart by
//! [`Command::kind`], and [`sizes`] knows what each makes of the maps' sizes.
#![deny(missing_docs)]
#![deny(unsafe_op_in_unsafe_fn)]
#![deny(unsafe_code)]

mod calls;
mod command;
pub mod hex;
#[allow(unsafe_code)]
pub mod linked;
mod map;
pub mod naming;
mod refusal;
mod run;
mod side;
mod sizes;
mod span;
mod tables;
pub mod text;
mod widths;

pub use calls::{FreeAxes, cells, check, counts, lift, looseness, pieces, row};
pub use command::{Command, Commands, Kind, Read, decode};
pub use linked::Ended;
pub use map::Map;
pub use refusal::{Refusal, Refused};
pub use run::{liftrun, replies, run};
pub use side::Side;
pub use sizes::{Size, Sizes, sizes};
pub use span::Span;
pub use tables::{LiftedMut, LiftedTables, Plan, PlanMut, PlanTables};
pub use widths::*;
