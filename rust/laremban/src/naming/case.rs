//! The six cases of the lift's definition, along which a lifted dart's links go.

use super::{Name, Names, Toward};
use std::fmt;

/// Which case makes the link along axis i of a lifted dart at level k, and what
/// decides within it. m is the plan's dimension, and n = m + 1 that of the lift.
#[derive(Clone, Copy, Debug, PartialEq, Eq, Hash)]
pub enum Case {
    /// i < k: along the plan dart's own link.
    Along,
    /// i = k ≥ 1: to the level below.
    LevelBelow,
    /// i = k = 0: to the other end of a piece of the corner.
    Piece,
    /// i = k + 1 ≤ m: to the level above where the height is an end there too,
    /// otherwise to the other side of the height.
    LevelAbove {
        /// Whether it is one.
        is_end: bool,
    },
    /// i = k + 1 = n: to the other side of the height where that is covered,
    /// otherwise nowhere.
    Through {
        /// Whether it is.
        is_covered: bool,
    },
    /// i ≥ k + 2: along the plan dart's link of the axis below.
    Across(Neighbour),
}

/// What is known of the dart that a lifted dart's plan dart is linked to, in the
/// case i ≥ k + 2.
#[derive(Clone, Copy, Debug, PartialEq, Eq, Hash)]
pub enum Neighbour {
    /// i < n: it is of the same top cell, and has the same row.
    SameRow,
    /// i = n: its row covers that side of the height.
    Covers,
    /// i = n: its row does not cover that side of the height.
    Stops,
    /// i = n: the plan dart is free, and its own neighbour.
    Missing,
}

impl fmt::Display for Case {
    fn fmt(&self, f: &mut fmt::Formatter) -> fmt::Result {
        f.write_str(match self {
            Case::Along => "case i < k: the plan dart's link along i, at the same level",
            Case::LevelBelow => "case i = k ≥ 1: the same dart one level below",
            Case::Piece => "case i = k = 0: the next end of the corner on that side",
            Case::LevelAbove { is_end: true } => {
                "case i = k + 1 ≤ m: the height is an end one level above too"
            }
            Case::LevelAbove { is_end: false } => {
                "case i = k + 1 ≤ m: the height is no end one level above, so the other side of it"
            }
            Case::Through { is_covered: true } => {
                "case i = k + 1 = n: the other side of the height is covered"
            }
            Case::Through { is_covered: false } => {
                "case i = k + 1 = n: the other side of the height is not covered, so itself"
            }
            Case::Across(Neighbour::SameRow) => {
                "case i ≥ k + 2: the plan dart's link along i - 1, at the same level"
            }
            Case::Across(Neighbour::Covers) => {
                "case i = n ≥ k + 2: the neighbour's row covers that side"
            }
            Case::Across(Neighbour::Stops) => {
                "case i = n ≥ k + 2: the neighbour's row does not cover that side, so itself"
            }
            Case::Across(Neighbour::Missing) => {
                "case i = n ≥ k + 2: the plan dart has no neighbour along m, so itself"
            }
        })
    }
}

/// The case of a dart that the lift has; nothing where there is no such axis.
pub(super) fn of(names: &Names, name: Name, axis: usize) -> Option<Case> {
    let (k, top) = (name.level, names.dimension + 1);
    let opposite = name.side.opposite();
    let case = match axis {
        i if i > top => return None,
        i if i < k => Case::Along,
        0 if k == 0 => Case::Piece,
        i if i == k => Case::LevelBelow,
        i if i == k + 1 && i == top => Case::Through {
            is_covered: names.is_covered(name.dart, name.height, opposite),
        },
        i if i == k + 1 => Case::LevelAbove {
            is_end: names
                .ends(name.dart, k + 1)
                .binary_search(&name.height)
                .is_ok(),
        },
        i => Case::Across(neighbour(names, name, i)),
    };
    Some(case)
}

/// What is known of the dart across the axis below this one.
fn neighbour(names: &Names, name: Name, axis: usize) -> Neighbour {
    let other = names.links[name.dart][axis - 1];
    if axis <= names.dimension {
        Neighbour::SameRow
    } else if other == name.dart {
        Neighbour::Missing
    } else if names.is_covered(other, name.height, name.side) {
        Neighbour::Covers
    } else {
        Neighbour::Stops
    }
}

/// Where the case leads to from a dart that it is the case of.
pub(super) fn target(names: &Names, name: Name, axis: usize, case: Case) -> Name {
    let opposite = name.side.opposite();
    match case {
        Case::Along => Name {
            dart: names.links[name.dart][axis],
            ..name
        },
        Case::LevelBelow => Name {
            level: name.level - 1,
            ..name
        },
        Case::Piece => Name {
            height: next_end(names.ends(name.dart, 0), name.height, name.side),
            side: opposite,
            ..name
        },
        Case::LevelAbove { is_end: true } => Name {
            level: name.level + 1,
            ..name
        },
        Case::LevelAbove { is_end: false } | Case::Through { is_covered: true } => Name {
            side: opposite,
            ..name
        },
        Case::Across(Neighbour::SameRow | Neighbour::Covers) => Name {
            dart: names.links[name.dart][axis - 1],
            ..name
        },
        Case::Through { is_covered: false }
        | Case::Across(Neighbour::Stops | Neighbour::Missing) => name,
    }
}

/// The next of these ends on a side of a height that is one of them. A covered
/// side has one, that of the covering span at the latest.
fn next_end(ends: &[i32], height: i32, side: Toward) -> i32 {
    let next = match side {
        Toward::Up => Some(ends.partition_point(|&end| end <= height)),
        Toward::Down => ends.partition_point(|&end| end < height).checked_sub(1),
    };
    let next = next.and_then(|at| ends.get(at));
    next.copied().unwrap_or(height)
}
