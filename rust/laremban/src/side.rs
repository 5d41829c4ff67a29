//! The two sides of a run.

use std::fmt;

/// A side of a run: the plan that commands edit, or the map that it is lifted to.
///
/// ```
/// use laremban::Side;
///
/// assert_eq!(Side::from_number(1), Some(Side::Lifted));
/// assert_eq!(Side::from_number(2), None);
/// assert_eq!(Side::Plan.to_string(), "plan");
/// ```
#[derive(Clone, Copy, Debug, PartialEq, Eq, Hash, PartialOrd, Ord)]
#[repr(u8)]
pub enum Side {
    /// The plan.
    Plan = 0,
    /// The lifted side.
    Lifted = 1,
}

impl Side {
    /// Its number, as commands and calls of the library have it.
    pub const fn number(self) -> u8 {
        self as u8
    }

    /// The side with a number.
    pub fn from_number(number: u8) -> Option<Side> {
        let sides = [Side::Plan, Side::Lifted];
        sides.into_iter().find(|side| side.number() == number)
    }
}

impl fmt::Display for Side {
    fn fmt(&self, f: &mut fmt::Formatter) -> fmt::Result {
        f.write_str(match self {
            Side::Plan => "plan",
            Side::Lifted => "lifted",
        })
    }
}
