//! What is printed for a sheet.

use crate::lifting::Lifted;
use crate::measure::{Area, Halves, Wall};
use crate::{Face, Heights, Shape, Sheet, Solid, Solids};
use std::collections::BTreeMap;
use std::fmt::{self, Display, Write};

/// A sheet that was lifted, and compared with its file.
#[derive(Clone, Copy, Debug)]
pub struct Report<'a> {
    /// The file, as it was named.
    pub file: &'a str,
    /// The sheet.
    pub sheet: &'a Sheet,
    /// Its lift.
    pub lifted: &'a Lifted,
    /// The solids of the lift.
    pub solids: &'a Solids,
    /// The parcel of each solid.
    pub parcels: &'a [usize],
    /// Its lift through time, and how long that is.
    pub time: Option<(Heights, &'a Lifted)>,
}

/// A word with how many there are.
fn many(count: usize, one: &str) -> String {
    let end = if count == 1 { "" } else { "s" };
    format!("{count} {one}{end}")
}

/// How many darts a lift has, and how many cells of each axis.
struct Counts<'a>(&'a Lifted);

impl Display for Counts<'_> {
    fn fmt(&self, f: &mut fmt::Formatter) -> fmt::Result {
        write!(f, "{}:", many(self.0.count, "dart"))?;
        let names = ["corner", "edge", "face", "solid", "cell"];
        for (axis, (&cells, name)) in self.0.cells.iter().zip(names).enumerate() {
            let comma = if axis == 0 { "" } else { "," };
            write!(f, "{comma} {}", many(cells.into(), name))?;
        }
        // What a solid becomes through time has no name of its own but its axis.
        let last = if self.0.cells.len() > 4 {
            " of axis 4"
        } else {
            ""
        };
        f.write_str(last)
    }
}

impl Report<'_> {
    /// All that there is to tell.
    pub fn full(&self) -> String {
        let mut text = String::new();
        // To write to a string can't fail.
        let _ = self.write_full(&mut text);
        text
    }

    /// The totals alone, in a line.
    pub fn totals_line(&self) -> String {
        format!("{}: {}\n", self.file, self.totals())
    }

    fn write_full(&self, text: &mut String) -> fmt::Result {
        let parcels = many(self.sheet.parcels.len(), "parcel");
        let sides = many(self.sheet.sides(), "side");
        let sewn = self.sheet.seams.len();
        writeln!(text, "{}: {parcels} with {sides}, {sewn} sewn", self.file)?;
        writeln!(text, "lifted to {}", Counts(self.lifted))?;
        if let Some(((lo, hi), lifted)) = self.time {
            writeln!(text, "lifted through time {lo}..{hi} to {}", Counts(lifted))?;
        }
        for (parcel, solids) in self.sheet.parcels.iter().zip(self.by_parcels()) {
            if solids.is_empty() {
                writeln!(text, "{}: nothing stands on it", parcel.name)?;
            }
            for solid in solids {
                self.write_solid(solid, text)?;
            }
        }
        self.write_objects(text)?;
        writeln!(text, "totals: {}", self.totals())
    }

    /// The solids of each parcel.
    pub(crate) fn by_parcels(&self) -> Vec<Vec<usize>> {
        let mut all = vec![Vec::new(); self.sheet.parcels.len()];
        for (solid, &parcel) in self.parcels.iter().enumerate() {
            all[parcel].push(solid);
        }
        all
    }

    /// The faces that a solid shares, each with the solid on its other side, in
    /// the order in which they are told.
    pub(crate) fn shared_faces(&self, solid: usize) -> Vec<(&Face, usize)> {
        let mut shared = Vec::new();
        for &face in &self.solids.solids[solid].faces {
            let face = &self.solids.faces[face];
            shared.extend(self.solids.neighbour(face).map(|other| (face, other)));
        }
        shared.sort_by_key(|(face, other)| (face.shape, *other));
        shared
    }

    /// What each object has, by its number; nothing where all is of object 0, as in
    /// a sheet that names no objects.
    fn write_objects(&self, text: &mut String) -> fmt::Result {
        let mut objects: BTreeMap<u16, (usize, i128, i128)> = BTreeMap::new();
        for solid in &self.solids.solids {
            let (solids, floors, volumes) = objects.entry(solid.object).or_default();
            *solids += 1;
            *floors += solid.doubled_floor;
            *volumes += solid.doubled_volume;
        }
        if objects.keys().all(|&object| object == 0) {
            return Ok(());
        }
        for (object, (solids, floors, volumes)) in objects {
            let (solids, sizes) = (many(solids, "solid"), sizes(floors, volumes));
            writeln!(text, "object {object}: {solids}, {sizes}")?;
        }
        Ok(())
    }

    /// A solid's parcel and heights, and its object where that is not 0.
    fn name(&self, solid: usize) -> String {
        let parcel = &self.sheet.parcels[self.parcels[solid]].name;
        let solid = &self.solids.solids[solid];
        let (lo, hi) = solid.heights;
        match solid.object {
            0 => format!("{parcel} {lo}..{hi}"),
            object => format!("{parcel} {lo}..{hi} of {object}"),
        }
    }

    /// The heights of its line that a solid comes from, where they were joined.
    fn joined(&self, solid: usize) -> Option<String> {
        let parcel = &self.sheet.parcels[self.parcels[solid]];
        let heights = self.solids.solids[solid].heights;
        let mut standing = parcel.standing().into_iter();
        let own = standing.find(|one| (one.span.lo, one.span.hi) == heights);
        own.and_then(|own| own.joined())
    }

    fn write_solid(&self, number: usize, text: &mut String) -> fmt::Result {
        let solid: &Solid = &self.solids.solids[number];
        let floor = Halves(solid.doubled_floor);
        let volume = Halves(solid.doubled_volume);
        writeln!(
            text,
            "{}: floor {floor}, volume {volume}",
            self.name(number)
        )?;
        if let Some(heights) = self.joined(number) {
            writeln!(text, "  joined from {heights}")?;
        }
        for (face, other) in self.shared_faces(number) {
            writeln!(text, "  {}", self.shared(face.shape, other))?;
        }
        Ok(())
    }

    /// A wall or a floor that is shared with another solid.
    fn shared(&self, shape: Shape, other: usize) -> String {
        let other = self.name(other);
        match shape {
            Shape::Floor {
                height,
                doubled_area,
            } => {
                format!("floor at {height} with {other}: {}", Halves(doubled_area))
            }
            Shape::Wall { ends, heights } => {
                let ((x, y), (z, w)) = ends;
                let (lo, hi) = heights;
                let wall = Wall::new(ends, heights);
                format!("wall {lo}..{hi} with {other} from ({x} {y}) to ({z} {w}): {wall}")
            }
        }
    }

    /// Floor space and volume of all solids, and the walls that two of them
    /// share, each once.
    fn totals(&self) -> String {
        let solids = self.solids.solids.iter();
        let floors: i128 = solids.clone().map(|solid| solid.doubled_floor).sum();
        let volumes: i128 = solids.map(|solid| solid.doubled_volume).sum();
        let mut walls = Area::default();
        for (number, face) in self.solids.faces.iter().enumerate() {
            if let (Shape::Wall { ends, heights }, Some(across)) = (face.shape, face.across)
                && number < across
            {
                walls.add(Wall::new(ends, heights).area());
            }
        }
        format!("{}, shared walls {walls}", sizes(floors, volumes))
    }
}

/// Sums of floors and of volumes, by the doubles of both.
fn sizes(floors: i128, volumes: i128) -> String {
    let (floors, volumes) = (Halves(floors), Halves(volumes));
    format!("floor space {floors}, volume {volumes}")
}
