//! The name of a lifted dart.

use std::fmt;

/// A side of a height: down or up.
#[derive(Clone, Copy, Debug, PartialEq, Eq, Hash, PartialOrd, Ord)]
pub enum Toward {
    /// What lies below the height.
    Down,
    /// What lies above the height.
    Up,
}

impl Toward {
    /// The other side.
    pub const fn opposite(self) -> Toward {
        match self {
            Toward::Down => Toward::Up,
            Toward::Up => Toward::Down,
        }
    }
}

impl fmt::Display for Toward {
    fn fmt(&self, f: &mut fmt::Formatter) -> fmt::Result {
        f.write_str(match self {
            Toward::Down => "down",
            Toward::Up => "up",
        })
    }
}

/// The name of a lifted dart. Names are ordered as lifted darts are numbered.
///
/// ```
/// use laremban::naming::{Name, Toward};
///
/// let name = Name { dart: 1, level: 0, height: -2, side: Toward::Up };
/// assert_eq!(name.to_string(), "(1, 0, -2, up)");
/// ```
#[derive(Clone, Copy, Debug, PartialEq, Eq, Hash, PartialOrd, Ord)]
pub struct Name {
    /// d, the plan dart.
    pub dart: usize,
    /// k, the level.
    pub level: usize,
    /// t, the height: an end of the plan dart's cell of axis k.
    pub height: i32,
    /// s, the side of the height.
    pub side: Toward,
}

impl fmt::Display for Name {
    fn fmt(&self, f: &mut fmt::Formatter) -> fmt::Result {
        let Name {
            dart,
            level,
            height,
            side,
        } = self;
        write!(f, "({dart}, {level}, {height}, {side})")
    }
}
