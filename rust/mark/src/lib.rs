//! Marks programs that lift plans, for the exercise of the course.
//!
//! A program, in whatever language, is run on drawn sheets, and what it writes
//! is held against the proved lift, dart for dart. Of the first sheet that it
//! gets wrong the smallest one is told that it still gets wrong, as a script,
//! with what differs and by which case of the lift.
#![deny(missing_docs)]
#![forbid(unsafe_code)]

pub mod apart;
mod build;
mod clean;
pub mod differ;
pub mod draw;
pub mod exercise;
pub mod lifting;
pub mod lists;
pub mod marking;
pub mod options;
mod polygons;
pub mod program;
pub mod replying;
pub mod report;
mod scenes;
mod shapes;
pub mod sheet;
pub mod sheets;
mod smallest;
pub mod starting;
mod strewn;
mod turns;
mod watch;
pub mod written;
