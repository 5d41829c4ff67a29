//! The outline of a parcel, tested exactly: differences of coordinates fit 33
//! bits, so that products and their sums fit an `i128` with room to spare.

use crate::Point;
use std::collections::HashSet;

/// From one point to another.
fn step(from: Point, to: Point) -> (i128, i128) {
    let part = |from: i32, to: i32| i128::from(to) - i128::from(from);
    (part(from.0, to.0), part(from.1, to.1))
}

/// Twice the area of the triangle a, b, c: above 0 where c lies to the left of
/// the way from a to b, 0 where the three lie on a line.
fn turn(a: Point, b: Point, c: Point) -> i128 {
    let (u, v) = (step(a, b), step(a, c));
    u.0 * v.1 - u.1 * v.0
}

/// Twice the area of an outline: above 0 where its corners go round with their
/// parcel on the left.
///
/// ```
/// use laremban_parcels::outline::doubled_area;
///
/// assert_eq!(doubled_area(&[(0, 0), (4, 0), (0, 3)]), 12);
/// assert_eq!(doubled_area(&[(0, 0), (0, 3), (4, 0)]), -12);
/// ```
pub fn doubled_area(corners: &[Point]) -> i128 {
    let Some(&first) = corners.first() else {
        return 0;
    };
    let pairs = corners.windows(2);
    pairs.map(|pair| turn(first, pair[0], pair[1])).sum()
}

/// The sides of an outline, each from one corner to the next.
pub fn sides(corners: &[Point]) -> impl Iterator<Item = (Point, Point)> + Clone + '_ {
    let next = corners.iter().cycle().skip(1);
    corners.iter().copied().zip(next.copied())
}

/// An outline that begins at its least corner and goes the way of its lesser
/// neighbour: the same for all ways to write it.
///
/// ```
/// use laremban_parcels::outline::canonical;
///
/// let square = [(0, 0), (0, 2), (2, 2), (2, 0)];
/// assert_eq!(canonical(&[(2, 2), (0, 2), (0, 0), (2, 0)]), square);
/// assert_eq!(canonical(&[(2, 0), (0, 0), (0, 2), (2, 2)]), square);
/// ```
pub fn canonical(corners: &[Point]) -> Vec<Point> {
    let mut corners = corners.to_vec();
    let least = (0..corners.len()).min_by_key(|&i| corners[i]);
    corners.rotate_left(least.unwrap_or(0));
    if corners.len() > 2 && corners[corners.len() - 1] < corners[1] {
        corners[1..].reverse();
    }
    corners
}

/// What is wrong with an outline: the first that is found.
///
/// ```
/// use laremban_parcels::outline::fault;
///
/// assert_eq!(fault(&[(0, 0), (4, 0), (0, 3)]), None);
/// assert!(fault(&[(0, 0), (4, 4), (4, 0), (0, 5)]).is_some());
/// ```
pub fn fault(corners: &[Point]) -> Option<String> {
    if corners.len() < 3 {
        return Some(format!(
            "{} corners, and three are the fewest",
            corners.len()
        ));
    }
    let mut seen = HashSet::new();
    if let Some((x, y)) = corners.iter().find(|&&corner| !seen.insert(corner)) {
        return Some(format!("the corner ({x} {y}) is there twice"));
    }
    if let Some((one, other)) = touching(corners) {
        return Some(format!("the sides {} and {} meet", told(one), told(other)));
    }
    (doubled_area(corners) == 0).then(|| "its area is 0".to_string())
}

/// A side in words.
pub(crate) fn told(((x, y), (z, w)): (Point, Point)) -> String {
    format!("({x} {y}) ({z} {w})")
}

/// Two sides that share no corner and touch or cross. Sides that fold back on
/// each other at a corner are found too: one of them touches the side beyond
/// the other. Where there are only three sides, they leave no area.
fn touching(corners: &[Point]) -> Option<((Point, Point), (Point, Point))> {
    let sides: Vec<(Point, Point)> = sides(corners).collect();
    let last = sides.len() - 1;
    (0..sides.len()).find_map(|i| {
        let far = i + 2..if i == 0 { last } else { sides.len() };
        let other = far.map(|j| sides[j]).find(|&other| meet(sides[i], other));
        other.map(|other| (sides[i], other))
    })
}

/// Whether two segments have a point in common.
fn meet((a, b): (Point, Point), (c, d): (Point, Point)) -> bool {
    let apart = |a: i32, b: i32, c: i32, d: i32| a.max(b) < c.min(d) || c.max(d) < a.min(b);
    if apart(a.0, b.0, c.0, d.0) || apart(a.1, b.1, c.1, d.1) {
        return false;
    }
    let split = |a, b, c, d| turn(a, b, c).signum() * turn(a, b, d).signum() <= 0;
    split(a, b, c, d) && split(c, d, a, b)
}

#[cfg(test)]
mod tests {
    use super::*;

    #[test]
    fn outlines_that_touch_themselves() {
        for (corners, wanted) in [
            (&[][..], "0 corners"),
            (&[(0, 0), (1, 0)], "2 corners"),
            (&[(0, 0), (4, 0), (0, 0)], "the corner (0 0) is there twice"),
            (&[(0, 0), (4, 4), (4, 0), (0, 5)], "sides (0 0) (4 4) and"),
            (&[(0, 0), (4, 0), (8, 0)], "its area is 0"),
            // A corner on a side far from it.
            (&[(0, 0), (8, 0), (8, 4), (4, 0), (0, 4)], "meet"),
            // The last side meets the second, which shares no corner with it.
            (&[(0, 0), (4, 0), (4, 4), (8, 0)], "meet"),
            // Sides that fold back, with the corner before and behind on them.
            (&[(0, 0), (8, 0), (4, 0), (4, 4)], "meet"),
            (&[(4, 4), (4, 0), (8, 0), (0, 0)], "meet"),
        ] {
            let told = fault(corners).expect("a fault");
            assert!(told.contains(wanted), "{corners:?}: {told}");
        }
    }

    #[test]
    fn outlines_that_do_not() {
        for corners in [
            &[(0, 0), (4, 0), (8, 0), (8, 4)][..],
            &[(0, 0), (8, 0), (8, 4), (4, 1), (0, 4)],
        ] {
            assert_eq!(fault(corners), None, "{corners:?}");
        }
    }

    #[test]
    fn the_greatest_coordinates() {
        let (lo, hi) = (i32::MIN, i32::MAX);
        let square = [(lo, lo), (hi, lo), (hi, hi), (lo, hi)];
        let side = i128::from(u32::MAX);
        assert_eq!(fault(&square), None);
        assert_eq!(doubled_area(&square), 2 * side * side);
        // One unit beside a diagonal as long as can be.
        assert_eq!(fault(&[(lo, lo), (hi, hi), (hi - 1, hi)]), None);
        assert_eq!(doubled_area(&[(lo, lo), (hi, hi), (hi - 1, hi)]), side);
    }
}
