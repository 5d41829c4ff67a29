//! Lists of commands that build maps of any size, for the tests and the
//! benchmark.

use reference::command::{Command, write};

/// A list of commands.
#[derive(Clone, Debug, Default)]
pub struct Build {
    pub bytes: Vec<u8>,
    pub commands: usize,
}

impl Build {
    /// A plan of so many darts.
    pub fn new(dimension: u8, darts: usize) -> Build {
        let mut build = Build::default();
        build.say(Command::New { dimension });
        for _ in 0..darts {
            build.say(Command::Dart);
        }
        build
    }

    pub fn say(&mut self, command: Command) -> &mut Build {
        self.bytes.extend(write(command));
        self.commands += 1;
        self
    }

    pub fn sew(&mut self, axis: u8, a: usize, b: usize) -> &mut Build {
        let (a, b) = (a as u16, b as u16);
        self.say(Command::Sew { axis, a, b })
    }

    pub fn place(&mut self, dart: usize, axis: u8, coordinate: usize) -> &mut Build {
        self.say(Command::Place {
            dart: dart as u16,
            axis,
            coordinate: coordinate as i32,
        })
    }

    pub fn span(&mut self, dart: usize, lo: i32, hi: i32) -> &mut Build {
        let dart = dart as u16;
        self.say(Command::Span { dart, lo, hi })
    }

    pub fn span_of(&mut self, dart: usize, lo: i32, hi: i32, object: u16) -> &mut Build {
        let dart = dart as u16;
        self.say(Command::SpanOf {
            dart,
            lo,
            hi,
            object,
        })
    }

    pub fn lift(&mut self) -> &mut Build {
        self.say(Command::Lift)
    }

    /// Counts the cells of all axes up to the dimension of a side.
    pub fn count(&mut self, side: u8, dimension: u8) -> &mut Build {
        for axis in 0..=dimension {
            self.say(Command::Count { side, axis });
        }
        self
    }

    /// Sews the sides of a polygon whose darts stand from the first on: 2e and
    /// 2e + 1 are the ends of side e, which begins at corner e.
    fn polygon(&mut self, first: usize, sides: usize) -> &mut Build {
        for e in 0..sides {
            self.sew(0, first + 2 * e, first + 2 * e + 1);
        }
        for e in 0..sides {
            self.sew(1, first + 2 * e + 1, first + (2 * e + 2) % (2 * sides));
        }
        self
    }
}

/// A face with so many sides.
pub fn face(sides: usize) -> Build {
    let mut build = Build::new(2, 2 * sides);
    build.polygon(0, sides);
    build
}

/// The face with 14 sides of documents 000 and 001, lifted so many times:
/// through height, years and level of detail.
pub fn fourteen_sides(times: usize) -> Build {
    let mut build = face(14);
    for (at, (lo, hi)) in [(0, 25), (1960, 2060), (1, 5)].into_iter().enumerate() {
        if at < times {
            build.span(0, lo, hi).lift();
        }
        if at + 1 < times {
            build.say(Command::Adopt);
        }
    }
    build
}

/// The corners of a square parcel, in the order of its sides.
const CORNERS: [(usize, usize); 4] = [(0, 0), (1, 0), (1, 1), (0, 1)];

/// A sheet of square parcels: each is sewn, placed and given a span, and then
/// joined to its neighbours on the left and below.
pub fn sheet(wide: usize, high: usize) -> Build {
    let mut build = Build::new(2, 8 * wide * high);
    for parcel in 0..wide * high {
        let (x, y) = (parcel % wide, parcel / wide);
        let first = 8 * parcel;
        build.polygon(first, CORNERS.len());
        for (e, (right, up)) in CORNERS.into_iter().enumerate() {
            build.place(first + 2 * e, 0, x + right);
            build.place(first + 2 * e, 1, y + up);
        }
        let lo = 2 * (x % 2 + 2 * (y % 2)) as i32;
        build.span(first, lo, lo + 20);
        if x > 0 {
            build.sew(2, first + 7, first - 8 + 2);
        }
        if y > 0 {
            build.sew(2, first + 1, first - 8 * wide + 4);
        }
    }
    build
}
