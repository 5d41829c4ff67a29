//! Scripts that are drawn: the same ones each time, from a seed.

/// Drawn numbers, and lines made of them.
pub struct Draw {
    state: u64,
}

impl Draw {
    pub fn new(seed: u64) -> Draw {
        Draw { state: seed }
    }

    /// A number below a bound.
    pub fn below(&mut self, bound: u64) -> u64 {
        let next = self.state.wrapping_mul(6_364_136_223_846_793_005);
        self.state = next.wrapping_add(1_442_695_040_888_963_407);
        (self.state >> 33) % bound
    }

    /// A script of so many lines and scenes. Maps stay small, so that much of it
    /// is accepted and much is refused.
    pub fn script(&mut self, many: usize) -> String {
        (0..many).map(|_| self.lines() + "\n").collect()
    }

    fn lines(&mut self) -> String {
        let (axis, far) = (self.below(4), self.below(7));
        let (a, b) = (self.below(9), self.below(9));
        let lo = self.below(20) as i64 - 9;
        let hi = lo + self.below(4) as i64;
        match self.below(34) {
            0 => format!("NEW {}", self.below(6)),
            1..4 => "DART".to_string(),
            4 => format!("DART x {}", 1 + self.below(6)),
            5..14 => format!("SEW {axis} {a} {b}"),
            14 => format!("SEW {far} {a} {}", 9 * b),
            15 => format!("UNSEW {axis} {a}"),
            16..18 => format!("PLACE {a} {axis} {lo}"),
            18 => format!("SPAN {a} {lo} {hi}"),
            19 => format!("SPAN {a} {lo} {hi} {}", OBJECTS[b as usize % 3]),
            20 => format!("CLEAR {a}"),
            21..24 => "LIFT".to_string(),
            24 => "ADOPT".to_string(),
            25 => format!("COUNT {} {far}", ["plan", "lifted", "2"][b as usize % 3]),
            26 => format!("SHOW {}", SHOWN[b as usize % 4]),
            27 => format!("SHOW cell {axis} {a}\nSHOW cell lifted {axis} {b}"),
            28 => format!("SHOW pieces {axis} {a}"),
            29 => full_row(a),
            30 => last_dimension(),
            31..33 => self.surveyed(a),
            _ => two_faces(),
        }
    }

    /// Spans that overlap, most of them of one object; some behind others that are
    /// taken away, or in a part of a cell.
    fn surveyed(&mut self, dart: u64) -> String {
        let spans = (0..6).map(|_| {
            let lo = self.below(24) as i64 - 12;
            let hi = lo + 1 + self.below(6) as i64;
            let object = [7, 7, 7, 0][self.below(4) as usize];
            let before = match self.below(12) {
                0 => format!("CLEAR {dart}\n"),
                1 => format!("UNSEW {} {dart}\n", self.below(3)),
                _ => String::new(),
            };
            format!("{before}SPAN {dart} {lo} {hi} {object}\n")
        });
        spans.collect()
    }
}

/// Few objects, so that rows of several darts are the same.
const OBJECTS: [u16; 3] = [0, 7, 65535];

/// What is shown of whole maps, and of a dart.
const SHOWN: [&str; 4] = ["plan", "lifted", "lifted names", "lifted names 3"];

/// A row of eight spans, and one more.
fn full_row(dart: u64) -> String {
    let spans = (0..9).map(|i| format!("SPAN {dart} {} {}\n", 100 + 2 * i, 101 + 2 * i));
    format!("CLEAR {dart}\n{}", spans.collect::<String>())
}

/// A plan of dimension 5, which can't be lifted.
fn last_dimension() -> String {
    "NEW 4\nDART\nSPAN 0 0 1\nLIFT\nADOPT\nLIFT".to_string()
}

/// Two faces of two sides each in a plan of dimension 3, open and closed.
fn two_faces() -> String {
    "NEW 3\nDART x 8\nSEW 0 0 1\nSEW 0 2 3\nSEW 0 4 5\nSEW 0 6 7\nSEW 1 1 2\nSEW 1 5 6\nSEW 1 7 4"
        .to_string()
}
