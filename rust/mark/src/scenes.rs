//! The first sheets of a dimension, which are not drawn: the smallest ones in
//! which something is to be seen.

use crate::sheet::Sheet;
use laremban::Commands;

/// The sheet with a number, where it is one of these.
pub fn scene(dimension: usize, number: usize) -> Option<Sheet> {
    let list = match (dimension, number) {
        (1, 0) => edges(&[&[(0, 3)]]),
        (1, 1) => edges(&[&[(0, 3)], &[(1, 5)]]),
        (1, 2) => edges(&[&[(0, 2), (2, 5)]]),
        (1, 3) => edges(&[&[(0, 1)], &[(1, 2)]]),
        (2, 0) => squares(&[&[(0, 3)]], &[]),
        (2, 1) => squares(&[&[(0, 2), (2, 5)]], &[]),
        (2, 2) => squares(&[&[(0, 3)], &[(1, 5)]], &[(2, 15)]),
        (2, 3) => squares(&[&[(0, 4)], &[(1, 5)], &[(2, 7)], &[(3, 6)]], &AROUND),
        // Two that share a corner but no wall, with lawns between them.
        (2, 4) => squares(&[&[(0, 3)], &[], &[], &[(1, 2), (2, 5)]], &AROUND),
        (1..=4, 5) => empty(dimension, 0),
        (1..=4, 6) => empty(dimension, 1),
        _ => return None,
    };
    Some(Sheet::of_commands(&list))
}

/// The walls of four squares, two by two.
const AROUND: [(u16, u16); 4] = [(2, 15), (18, 31), (4, 17), (12, 25)];

/// Darts without spans.
fn empty(dimension: usize, darts: usize) -> Commands {
    let mut list = Commands::new();
    list.new_plan(dimension as u8).darts(darts);
    list
}

/// Edges of length 4, one after the other, with these spans.
fn edges(rows: &[&[(i32, i32)]]) -> Commands {
    let mut list = empty(1, 2 * rows.len());
    for edge in 0..rows.len() as u16 {
        list.sew(0, 2 * edge, 2 * edge + 1);
    }
    for edge in 1..rows.len() as u16 {
        list.sew(1, 2 * edge - 1, 2 * edge);
    }
    for (edge, row) in (0..).zip(rows) {
        list.place(2 * edge + 1, 0, 4 * i32::from(edge) + 4);
        for &(lo, hi) in *row {
            list.span(2 * edge, lo, hi);
        }
    }
    list
}

/// Squares of length 4, two in a row, with these spans and walls.
fn squares(rows: &[&[(i32, i32)]], walls: &[(u16, u16)]) -> Commands {
    let mut list = empty(2, 8 * rows.len());
    for side in 0..4 * rows.len() as u16 {
        list.sew(0, 2 * side, 2 * side + 1);
    }
    for side in 0..4 * rows.len() as u16 {
        let next = if side % 4 == 3 { side - 3 } else { side + 1 };
        list.sew(1, 2 * side + 1, 2 * next);
    }
    for &(a, b) in walls {
        list.sew(2, a, b);
    }
    for (square, row) in (0..).zip(rows) {
        let (x, y) = (4 * i32::from(square % 2), 4 * i32::from(square / 2));
        let corners = [(x, y), (x + 4, y), (x + 4, y + 4), (x, y + 4)];
        for (corner, (x, y)) in (0..).zip(corners) {
            let dart = 8 * square + 2 * corner;
            list.place(dart, 0, x).place(dart, 1, y);
        }
        for &(lo, hi) in *row {
            list.span(8 * square, lo, hi);
        }
    }
    list
}
