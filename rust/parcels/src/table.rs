//! Solids, and the walls and floors that they share, in plain columns.

use crate::measure::{Halves, Wall};
use crate::{Heights, Report, Shape};
use std::fs::{self, File};
use std::io::{self, BufWriter, Write};
use std::path::{Path, PathBuf};

/// The names of the columns.
pub const COLUMNS: [&str; 18] = [
    "sheet",
    "what",
    "parcel",
    "lo",
    "hi",
    "with",
    "with_lo",
    "with_hi",
    "bottom",
    "top",
    "from_x",
    "from_y",
    "to_x",
    "to_y",
    "area",
    "volume",
    "object",
    "with_object",
];

/// A row: its columns with a tab between them.
fn row<const MANY: usize>(columns: [String; MANY]) -> String {
    columns.join("\t") + "\n"
}

/// A file's name as a column has it: without what would end the column.
fn column(name: &str) -> String {
    name.replace(char::is_control, "?")
}

impl Report<'_> {
    /// The rows of a sheet: each solid in the order in which it is told, and
    /// behind it what it shares with solids that come later, so that each wall
    /// and floor is there once.
    pub fn rows(&self) -> String {
        let order: Vec<usize> = self.by_parcels().concat();
        let mut place = vec![0; order.len()];
        for (at, &solid) in order.iter().enumerate() {
            place[solid] = at;
        }
        let mut rows = String::new();
        for &own in &order {
            rows += &self.solid_row(own);
            for (face, other) in self.shared_faces(own) {
                if place[own] < place[other] {
                    rows += &self.shared_row(own, face.shape, other);
                }
            }
        }
        rows
    }

    /// A solid's parcel, heights and object, as four columns.
    fn named(&self, solid: usize) -> [String; 4] {
        let name = &self.sheet.parcels[self.parcels[solid]].name;
        let solid = &self.solids.solids[solid];
        let (lo, hi) = solid.heights;
        let numbers = [lo, hi, solid.object.into()].map(|number| number.to_string());
        let [lo, hi, object] = numbers;
        [name.clone(), lo, hi, object]
    }

    fn solid_row(&self, own: usize) -> String {
        let solid = &self.solids.solids[own];
        let sizes =
            [solid.doubled_floor, solid.doubled_volume].map(|size| Halves(size).to_string());
        self.told(
            "solid",
            own,
            None,
            solid.heights,
            [const { None }; 4],
            sizes,
        )
    }

    fn shared_row(&self, own: usize, shape: Shape, other: usize) -> String {
        let with = Some(other);
        match shape {
            Shape::Floor {
                height,
                doubled_area,
            } => {
                let sizes = [Halves(doubled_area).to_string(), String::new()];
                self.told(
                    "floor",
                    own,
                    with,
                    (height, height),
                    [const { None }; 4],
                    sizes,
                )
            }
            Shape::Wall { ends, heights } => {
                let area = Wall::new(ends, heights).area().digits();
                let ((x, y), (z, w)) = ends;
                let ends = [x, y, z, w].map(Some);
                self.told("wall", own, with, heights, ends, [area, String::new()])
            }
        }
    }

    fn told(
        &self,
        what: &str,
        own: usize,
        with: Option<usize>,
        (bottom, top): Heights,
        ends: [Option<i32>; 4],
        [area, volume]: [String; 2],
    ) -> String {
        let [parcel, lo, hi, object] = self.named(own);
        let with = with.map_or_else(Default::default, |with| self.named(with));
        let [with, with_lo, with_hi, with_object] = with;
        let [x, y, z, w] = ends.map(|end| end.map_or_else(String::new, |end| end.to_string()));
        let (sheet, what) = (column(self.file), what.to_string());
        let (bottom, top) = (bottom.to_string(), top.to_string());
        row([
            sheet,
            what,
            parcel,
            lo,
            hi,
            with,
            with_lo,
            with_hi,
            bottom,
            top,
            x,
            y,
            z,
            w,
            area,
            volume,
            object,
            with_object,
        ])
    }
}

/// A table that is being written: under another name, until it is whole.
#[derive(Debug)]
pub struct Table {
    path: PathBuf,
    part: PathBuf,
    file: BufWriter<File>,
    /// The first failure.
    failed: Option<io::Error>,
}

impl Table {
    /// Begins a table with the names of its columns.
    pub fn create(path: &Path) -> Result<Table, String> {
        let told = |error: io::Error| format!("{}: {error}", path.display());
        // What a link leads to is written, and the link stays.
        let path = match path.symlink_metadata() {
            Ok(_) => path.canonicalize().map_err(told)?,
            Err(_) => path.to_path_buf(),
        };
        if path.exists() && !path.is_file() {
            return Err(told(io::Error::other("it is no plain file")));
        }
        let part = crate::store::part(&path);
        let file = BufWriter::new(File::create(&part).map_err(told)?);
        let mut table = Table {
            path,
            part,
            file,
            failed: None,
        };
        table.add(&row(COLUMNS.map(str::to_string)));
        Ok(table)
    }

    /// Adds rows. What fails is told at the end.
    pub fn add(&mut self, rows: &str) {
        if self.failed.is_none() {
            self.failed = self.file.write_all(rows.as_bytes()).err();
        }
    }

    /// Ends the table. Its file is there from then on, or as it was before.
    pub fn finish(mut self) -> Result<(), String> {
        let written = match self.failed.take() {
            None => self.file.flush(),
            Some(error) => Err(error),
        };
        let synced = written.and_then(|()| self.file.get_ref().sync_all());
        let done = synced.and_then(|()| fs::rename(&self.part, &self.path));
        done.map_err(|error| {
            let told = format!("{}: {error}", self.path.display());
            self.give_up();
            told
        })
    }

    /// Takes back what was written so far.
    pub fn give_up(self) {
        // What is left of it is of no use, and nothing is told of it.
        let _ = fs::remove_file(&self.part);
    }
}
