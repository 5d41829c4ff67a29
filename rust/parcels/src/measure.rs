//! Areas, volumes and lengths as they are printed.

use crate::{Heights, Point};
use std::fmt;

/// A number of halves, printed exactly.
///
/// ```
/// use laremban_parcels::measure::Halves;
///
/// assert_eq!(Halves(48).to_string(), "24");
/// assert_eq!(Halves(49).to_string(), "24.5");
/// ```
#[derive(Clone, Copy, Debug, PartialEq, Eq)]
pub struct Halves(pub i128);

impl fmt::Display for Halves {
    fn fmt(&self, f: &mut fmt::Formatter) -> fmt::Result {
        let half = if self.0 % 2 == 0 { "" } else { ".5" };
        write!(f, "{}{half}", self.0 / 2)
    }
}

/// How large a wall is: its length, squared, and its height.
#[derive(Clone, Copy, Debug, PartialEq, Eq)]
pub struct Wall {
    squared: u128,
    height: u128,
}

impl Wall {
    /// Of a wall from corner to corner between two heights.
    pub fn new((from, to): (Point, Point), (lo, hi): Heights) -> Wall {
        let far = |a: i32, b: i32| u128::from(a.abs_diff(b));
        let (x, y) = (far(from.0, to.0), far(from.1, to.1));
        Wall {
            squared: x * x + y * y,
            height: far(lo, hi),
        }
    }

    /// Its length, where that is a whole number.
    fn length(self) -> Option<u128> {
        let root = self.squared.isqrt();
        (root * root == self.squared).then_some(root)
    }

    /// Its area.
    pub fn area(self) -> Area {
        let (root, rest) = root(self.squared);
        let of_rest = rest * self.height;
        Area {
            whole: root * self.height + (of_rest >> BITS),
            rest: of_rest & (ONE - 1),
            unsure: self.length().map_or(self.height, |_| 0),
        }
    }
}

/// So many bits behind the point are kept of a root. With a height of 32 bits
/// its rest fits 128 bits.
const BITS: u32 = 90;
/// One, in units of the last of these bits.
const ONE: u128 = 1 << BITS;

/// The root of a number of at most 66 bits: its whole part, and the rest in
/// units of the last bit, rounded down. One bit comes after the other, as in
/// the root by hand; what is left is at most twice the root.
fn root(square: u128) -> (u128, u128) {
    let (mut root, mut left) = (0, 0);
    let pairs = (0..33).rev().map(|pair| square >> (2 * pair) & 3);
    for pair in pairs.chain((0..BITS).map(|_| 0)) {
        left = left << 2 | pair;
        let next = root << 2 | 1;
        root <<= 1;
        if left >= next {
            left -= next;
            root |= 1;
        }
    }
    (root >> BITS, root & (ONE - 1))
}

/// ```
/// use laremban_parcels::measure::Wall;
///
/// assert_eq!(Wall::new(((0, 0), (3, 4)), (0, 3)).to_string(), "5 x 3 = 15");
/// let slant = Wall::new(((0, 0), (4, 6)), (0, 3));
/// assert_eq!(slant.to_string(), "sqrt(52) x 3 = about 21.63");
/// ```
impl fmt::Display for Wall {
    fn fmt(&self, f: &mut fmt::Formatter) -> fmt::Result {
        match self.length() {
            Some(length) => write!(f, "{length}")?,
            None => write!(f, "sqrt({})", self.squared)?,
        }
        write!(f, " x {} = {}", self.height, self.area())
    }
}

/// A sum of areas: exact, but for those with a root in them. Of these only
/// digits are told that are right: the last one is rounded, and all are those
/// of the true sum.
///
/// ```
/// use laremban_parcels::measure::{Area, Wall};
///
/// let mut sum = Area::default();
/// sum.add(Wall::new(((0, 0), (3, 4)), (0, 3)).area());
/// assert_eq!(sum.to_string(), "15");
/// sum.add(Wall::new(((0, 0), (4, 6)), (0, 3)).area());
/// assert_eq!(sum.to_string(), "about 36.63");
/// ```
#[derive(Clone, Copy, Debug, Default, PartialEq, Eq)]
pub struct Area {
    whole: u128,
    /// Below one, in its units.
    rest: u128,
    /// The true sum is greater, but by less than so many of these units; none
    /// where there is no root in it.
    unsure: u128,
}

impl Area {
    /// Adds another.
    pub fn add(&mut self, other: Area) {
        let rest = self.rest + other.rest;
        self.whole += other.whole + (rest >> BITS);
        self.rest = rest & (ONE - 1);
        self.unsure += other.unsure;
    }

    /// Its digits alone, whether they are all of it or not.
    pub fn digits(self) -> String {
        if self.unsure == 0 {
            return self.whole.to_string();
        }
        // Where hundredths are as good as halfway between two, tenths are not.
        match self.rounded(100) {
            Some(parts) => format!("{}.{:02}", parts / 100, parts % 100),
            None => {
                let parts = self.rounded(10).unwrap_or(10 * self.whole);
                format!("{}.{}", parts / 10, parts % 10)
            }
        }
    }

    /// The sum in so small parts as there are in one, rounded; none where what
    /// is not known of it decides.
    fn rounded(self, parts: u128) -> Option<u128> {
        let round = |rest: u128| (rest * parts + ONE / 2) >> BITS;
        let (least, most) = (round(self.rest), round(self.rest + self.unsure));
        (least == most).then_some(self.whole * parts + least)
    }
}

impl fmt::Display for Area {
    fn fmt(&self, f: &mut fmt::Formatter) -> fmt::Result {
        let about = if self.unsure == 0 { "" } else { "about " };
        write!(f, "{about}{}", self.digits())
    }
}

#[cfg(test)]
mod tests {
    use super::*;

    /// A product of two numbers, whole: its upper and its lower 128 bits.
    fn product(a: u128, b: u128) -> (u128, u128) {
        let parts = |n: u128| (n >> 64, n & u128::from(u64::MAX));
        let ((a, b), (c, d)) = (parts(a), parts(b));
        let (low, one, other) = (b * d, a * d, b * c);
        let middle = (low >> 64) + parts(one).1 + parts(other).1;
        let high = a * c + parts(one).0 + parts(other).0 + (middle >> 64);
        (high, middle << 64 | parts(low).1)
    }

    /// The hundredths that are told.
    fn hundredths(told: &str) -> u128 {
        let digits = told.strip_prefix("about ").expect(told).split_once('.');
        let (whole, rest) = digits.filter(|(_, rest)| rest.len() == 2).expect(told);
        format!("{whole}{rest}").parse().expect(told)
    }

    /// Whether hundredths are those of a root times a height, rounded: by
    /// squares of whole numbers, (2h - 1)^2 < 200^2 height^2 squared < (2h + 1)^2.
    fn is_right(hundredths: u128, squared: u128, height: u128) -> bool {
        let square = |n: u128| product(n, n);
        let scaled = 200 * height;
        // The square is below 2^66, and that of the scaled height below 2^110.
        let (high, low) = product(scaled * scaled, squared);
        square(2 * hundredths - 1) < (high, low) && (high, low) < square(2 * hundredths + 1)
    }

    /// Walls of all lengths and heights that have a root in them.
    fn drawn(many: usize) -> impl Iterator<Item = Wall> {
        let mut state: u64 = 7;
        let mut next = move || {
            state = state
                .wrapping_mul(6_364_136_223_846_793_005)
                .wrapping_add(1_442_695_040_888_963_407);
            let bits = 1 + state % 32;
            ((state >> 32) >> (32 - bits)) as u32
        };
        let wall = move || {
            let (x, y, height) = (next(), next(), next());
            let far = |by: u32| i32::MIN.wrapping_add_unsigned(by);
            let low = i32::MIN;
            Wall::new(((low, low), (far(x), far(y))), (low, far(height)))
        };
        let rooted = |wall: &Wall| wall.length().is_none() && wall.height > 0;
        std::iter::repeat_with(wall).filter(rooted).take(many)
    }

    #[test]
    fn every_digit_of_a_wall_is_right() {
        for wall in drawn(20_000) {
            let told = wall.area().to_string();
            let right = is_right(hundredths(&told), wall.squared, wall.height);
            assert!(right, "{wall}");
            let next = is_right(hundredths(&told) + 1, wall.squared, wall.height);
            assert!(!next, "{wall}");
        }
    }

    /// Walls of one length are as large together as one of all their heights.
    #[test]
    fn every_digit_of_a_sum_is_right() {
        for one in drawn(200) {
            let (mut sum, mut heights) = (Area::default(), 0);
            for other in drawn(200) {
                let wall = Wall {
                    squared: one.squared,
                    height: other.height,
                };
                sum.add(wall.area());
                heights += wall.height;
            }
            let told = hundredths(&sum.to_string());
            assert!(is_right(told, one.squared, heights), "{one}");
        }
    }

    /// Half as high and twice as long is as large, though the digits of the root
    /// are cut off elsewhere: neither may be surer of itself than it is.
    #[test]
    fn the_true_sum_is_not_beyond_what_is_unsure() {
        for wall in drawn(2_000).filter(|wall| wall.squared < 1 << 62) {
            let [long, high] = [(4, 1), (1, 2)].map(|(squares, heights)| {
                let area = Wall {
                    squared: squares * wall.squared,
                    height: heights * wall.height,
                };
                area.area()
            });
            let gap = Area {
                rest: ONE - high.rest,
                ..Area::default()
            };
            let mut apart = long;
            apart.add(gap);
            assert!(apart.whole - high.whole <= 1, "{wall}");
            let units = ((apart.whole - high.whole) << BITS) + apart.rest;
            assert!(units < ONE + high.unsure, "{wall}");
            assert!(units + long.unsure > ONE, "{wall}");
        }
    }

    /// Sums of other roots, by a computation with a hundred digits.
    #[test]
    fn sums_of_other_roots() {
        let sum = |walls: &[(u128, u128)]| {
            let mut sum = Area::default();
            for &(squared, height) in walls {
                sum.add(Wall { squared, height }.area());
            }
            sum.to_string()
        };
        assert_eq!(sum(&[(2, 1), (3, 1), (5, 1)]), "about 5.38");
        assert_eq!(
            sum(&[(36893488130239234050, 4294967295)]),
            "about 26087635638517562426.21"
        );
        assert_eq!(
            sum(&[(36893488130239234050, 4294967295), (2, 1), (25, 3)]),
            "about 26087635638517562442.62"
        );
        assert_eq!(
            sum(&[
                (18446744065119617026, 4294967295),
                (18446744065119617029, 4294967295),
                (10000000000000000009, 4294967291),
                (7, 3)
            ]),
            "about 50475367245722436849.96"
        );
        assert_eq!(
            sum(&[(36893488113059364869, 4294967291), (3, 1), (3, 2), (3, 5)]),
            "about 26087635608147557451.97"
        );
    }

    #[test]
    fn a_sum_that_is_as_good_as_halfway_is_told_in_tenths() {
        let close = |rest: u128| Area {
            whole: 7,
            rest,
            unsure: 2,
        };
        let half = 5 * ONE / 1_000;
        assert_eq!(close(half).to_string(), "about 7.0");
        assert_eq!(close(half - 9).to_string(), "about 7.00");
        assert_eq!(close(half + 9).to_string(), "about 7.01");
        assert_eq!(close(ONE - half - 1).to_string(), "about 8.0");
    }
}
