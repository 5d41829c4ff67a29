//! Small words that several tell alike.

use laremban::Span;

/// A number of things: `1 dart`, `2 darts`.
pub(crate) fn many(number: usize, one: &str) -> String {
    let end = if number == 1 { "" } else { "s" };
    format!("{number} {one}{end}")
}

/// The name of one cell of an axis.
pub(crate) fn cell(axis: u8) -> String {
    match axis {
        0 => "corner".to_string(),
        1 => "edge".to_string(),
        2 => "face".to_string(),
        3 => "solid".to_string(),
        axis => format!("cell of axis {axis}"),
    }
}

/// A number of cells of an axis: `16 faces`, `1 solid`, `2 cells of axis 4`.
pub(crate) fn cells(number: usize, axis: u8) -> String {
    match cell(axis).split_once(' ') {
        None => many(number, &cell(axis)),
        Some((one, rest)) => format!("{} {rest}", many(number, one)),
    }
}

/// Darts from one to another: `dart 3`, `darts 0 to 7`.
pub(crate) fn darts(first: usize, last: usize) -> String {
    match first == last {
        true => format!("dart {first}"),
        false => format!("darts {first} to {last}"),
    }
}

/// Axes by their numbers: `axis 0`, `axes 0 and 1`, `axes 0, 1 and 2`.
pub(crate) fn axes(axes: &[usize]) -> String {
    let all: Vec<String> = axes.iter().map(usize::to_string).collect();
    match all.as_slice() {
        [] => "no axis".to_string(),
        [one] => format!("axis {one}"),
        [rest @ .., last] => format!("axes {} and {last}", rest.join(", ")),
    }
}

/// A place: `(8, -6)`.
pub(crate) fn place(coordinates: &[i32]) -> String {
    let all: Vec<String> = coordinates.iter().map(i32::to_string).collect();
    format!("({})", all.join(", "))
}

/// A span in a sentence: `0..3 of object 7`.
pub(crate) fn span(Span { lo, hi, object, .. }: Span) -> String {
    format!("{lo}..{hi} of object {object}")
}

/// The spans of a row: `0..3 3..6`, or `0..3 of 7 3..6` where the first is of
/// object 7.
pub(crate) fn spans(row: &[Span]) -> String {
    let told = |&Span { lo, hi, object, .. }: &Span| match object {
        0 => format!("{lo}..{hi}"),
        object => format!("{lo}..{hi} of {object}"),
    };
    let all: Vec<String> = row.iter().map(told).collect();
    all.join(" ")
}

/// The spans of a row, each with its object: `0..3 of 7 3..6 of 0`.
pub(crate) fn owned_spans(row: &[Span]) -> String {
    let told = |&Span { lo, hi, object, .. }: &Span| format!("{lo}..{hi} of {object}");
    let all: Vec<String> = row.iter().map(told).collect();
    all.join(" ")
}

/// Pieces by their ends: `0..3 3..6`.
pub(crate) fn pieces(ends: &[[i32; 2]]) -> String {
    let all: Vec<String> = ends.iter().map(|[lo, hi]| format!("{lo}..{hi}")).collect();
    all.join(" ")
}
