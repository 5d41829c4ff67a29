//! Sheets of parcels from files, lifted to solids by proved code.
//!
//! A sheet has a parcel a line, with its corners and the heights between which
//! it stands, each with the object that it belongs to ([`Sheet`]). It becomes a
//! list of document 01's commands, which a run takes ([`lifting`]); heights of one
//! object that overlap are joined there ([`Standing`]). What is told of the solids
//! is read off the lifted map's links, places and objects ([`Solids`]), and
//! compared with the file ([`compare`]) before it is printed ([`Report`]), written
//! to a [`Table`] or put beside the map as text ([`owners`]).
//!
//! ```
//! use laremban_parcels::{Sheet, Solids, lifting::lift};
//!
//! let sheet = Sheet::read(b"house (0 0) (8 0) (8 6) (0 6): 0..3 3..6 of 101")?;
//! let lifted = lift(&sheet)?;
//! let solids = Solids::read(lifted.map()).unwrap();
//! assert_eq!(solids.solids.len(), 2);
//! assert_eq!(solids.solids[0].doubled_volume, 2 * 8 * 6 * 3);
//! assert_eq!(solids.solids[1].object, 101);
//! # Ok::<(), laremban_parcels::Findings>(())
//! ```
#![forbid(unsafe_code)]
#![deny(missing_docs)]

mod agree;
mod finding;
mod heights;
pub mod job;
pub mod lifting;
pub mod line;
pub mod many;
pub mod measure;
pub mod options;
pub mod outline;
mod owners;
mod report;
mod sheet;
pub mod sides;
mod solids;
mod sources;
mod store;
mod table;

pub use agree::compare;
pub use finding::{Finding, Findings};
pub use heights::{HEIGHTS, Standing};
pub use owners::owners;
pub use report::Report;
pub use sheet::{Parcel, SHEET_BYTES, SIDES, Sheet};
pub use solids::{Face, NoSolids, Shape, Solid, Solids};
pub use sources::{Source, sources};
pub use store::Store;
pub use table::{COLUMNS, Table};

/// Where a corner of a parcel lies in the sheet.
pub type Point = (i32, i32);
/// The heights lo..hi between which something stands. A parcel's are spans, which
/// have objects too ([`laremban::Span`]).
pub type Heights = (i32, i32);
