//! A sheet of parcels, read from a file's bytes and tested.

use crate::heights::{self, Standing};
use crate::line::{self, Line};
use crate::outline::{self, canonical, doubled_area};
use crate::sides::{Seam, Sides};
use crate::{Finding, Findings, Point};
use laremban::{DARTS, Span};
use std::collections::HashMap;
use std::collections::hash_map::Entry;

/// The most sides of a sheet: each has two of the plan's darts.
pub const SIDES: usize = DARTS / 2;
/// The longest file that is read, in bytes: far more than a sheet can need.
pub const SHEET_BYTES: usize = 1 << 22;

/// A parcel of a sheet.
#[derive(Clone, Debug, PartialEq, Eq)]
pub struct Parcel {
    /// The line that it stands on, from 1.
    pub line: usize,
    /// Its name.
    pub name: String,
    /// Its corners in the order of the file.
    pub corners: Vec<Point>,
    /// The heights of its line, ascending, each with its object. Of one object
    /// they may overlap.
    pub heights: Vec<Span>,
}

impl Parcel {
    /// What is found of this parcel.
    pub fn finding(&self, what: impl Into<String>) -> Finding {
        Finding {
            parcel: Some(self.name.clone()),
            ..Finding::at(self.line, what)
        }
    }

    /// Its name and line, as others' findings tell it.
    pub(crate) fn told(&self) -> String {
        format!("{} (line {})", crate::finding::shown(&self.name), self.line)
    }

    /// The heights between which it stands by the file: those of its line, with
    /// those that overlap joined.
    pub fn standing(&self) -> Vec<Standing> {
        heights::standing(&self.heights)
    }

    /// Twice its area, by its corners in the file.
    pub fn doubled_area(&self) -> i128 {
        doubled_area(&self.corners).abs()
    }
}

/// A sheet without a fault.
#[derive(Clone, Debug)]
pub struct Sheet {
    /// Its parcels in the order of the file.
    pub parcels: Vec<Parcel>,
    /// The sides that two parcels share, by the later parcel.
    pub seams: Vec<Seam>,
    /// Sides that lie along each other and are not sewn.
    pub notes: Findings,
    /// Heights that overlap, and are joined.
    pub joined: Findings,
}

impl Sheet {
    /// Reads a sheet and tests it; all that is wrong is told, up to a limit.
    pub fn read(bytes: &[u8]) -> Result<Sheet, Findings> {
        let text = std::str::from_utf8(bytes).map_err(|error| {
            let before = &bytes[..error.valid_up_to()];
            let line = 1 + before.iter().filter(|&&byte| byte == b'\n').count();
            Finding::at(line, "the bytes are no UTF-8")
        })?;
        let mut reader = Reader::default();
        let text = text.strip_prefix('\u{feff}').unwrap_or(text);
        for (line, text) in (1..).zip(text.lines()) {
            reader.take(line, text);
        }
        reader.sheet()
    }

    /// How many sides its parcels have.
    pub fn sides(&self) -> usize {
        self.parcels.iter().map(|one| one.corners.len()).sum()
    }
}

/// What was read of a sheet so far.
#[derive(Default)]
struct Reader {
    parcels: Vec<Parcel>,
    faults: Findings,
    /// The line of each name.
    names: HashMap<String, usize>,
    /// The parcel of each outline.
    outlines: HashMap<Vec<Point>, usize>,
    sides: usize,
}

impl Reader {
    fn take(&mut self, line: usize, text: &str) {
        match line::read(text) {
            Ok(None) => {}
            Ok(Some(read)) => self.take_parcel(line, read),
            Err(what) => self.faults.push(Finding::at(line, what)),
        }
    }

    fn take_parcel(&mut self, line: usize, read: Line) {
        let mut parcel = Parcel {
            line,
            name: read.name.to_string(),
            corners: Vec::new(),
            heights: Vec::new(),
        };
        let twin = read.body.as_ref().is_ok_and(|(corners, _)| {
            let first = self.outlines.get(&canonical(corners));
            first.is_some_and(|&first| self.parcels[first].name == read.name)
        });
        match self.names.get(read.name) {
            // That the same parcel is there again tells as much.
            Some(_) if twin => {}
            Some(first) => {
                let what = format!("the name is used on line {first} already");
                self.faults.push(parcel.finding(what));
            }
            None => drop(self.names.insert(parcel.name.clone(), line)),
        }
        match read.body {
            Err(what) => self.faults.push(parcel.finding(what)),
            Ok((corners, heights)) => {
                (parcel.corners, parcel.heights) = (corners, heights);
                parcel.heights.sort();
                self.test(parcel);
            }
        }
    }

    /// Tests what a parcel's own line tells. Past the most sides no outline is
    /// looked at, so that a sheet of any length is told soon.
    fn test(&mut self, parcel: Parcel) {
        let fits = self.sides <= SIDES;
        self.sides = self.sides.saturating_add(parcel.corners.len());
        if let Some(what) = heights::fault(&parcel.heights) {
            self.faults.push(parcel.finding(what));
        }
        if self.sides > SIDES {
            if fits {
                let what = format!("with it the sheet has more than {SIDES} sides");
                self.faults.push(parcel.finding(what));
            }
            return;
        }
        match outline::fault(&parcel.corners) {
            Some(what) => self.faults.push(parcel.finding(what)),
            None => self.keep(parcel),
        }
    }

    /// Keeps a parcel without a fault of its own. One that is there already is
    /// told once, and not along each of its sides.
    fn keep(&mut self, parcel: Parcel) {
        match self.outlines.entry(canonical(&parcel.corners)) {
            Entry::Occupied(first) => {
                let first = self.parcels[*first.get()].told();
                let what = "a parcel stands on one line, with all its heights";
                let what = format!("it has the corners of {first}: {what}");
                self.faults.push(parcel.finding(what));
            }
            Entry::Vacant(own) => {
                own.insert(self.parcels.len());
                self.parcels.push(parcel);
            }
        }
    }

    /// The sheet, once its sides are compared; parcels with a fault in their
    /// outlines are not among them.
    fn sheet(mut self) -> Result<Sheet, Findings> {
        if self.names.is_empty() && self.faults.is_empty() {
            self.faults
                .push(Finding::of_sheet("there is no parcel in it"));
        }
        let sides = Sides::of(&self.parcels);
        self.faults.extend(sides.faults);
        if !self.faults.is_empty() {
            return Err(self.faults);
        }
        let mut joined = Findings::default();
        for parcel in &self.parcels {
            let told = parcel.standing().into_iter().filter_map(|one| one.note());
            told.for_each(|what| joined.push(parcel.finding(what)));
        }
        Ok(Sheet {
            parcels: self.parcels,
            seams: sides.seams,
            notes: sides.notes,
            joined,
        })
    }
}
