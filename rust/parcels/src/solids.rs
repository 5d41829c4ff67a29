//! Solids, their walls and floors, how large they are and whose: all read off the
//! links, places and objects of a lifted map, and nothing from the file.

use crate::outline::{canonical, doubled_area};
use crate::{Heights, Point};
use laremban::Map;
use std::fmt;

/// What a face of a solid is.
#[derive(Clone, Copy, Debug, PartialEq, Eq, PartialOrd, Ord)]
pub enum Shape {
    /// A floor or a ceiling: all its corners have one height.
    Floor {
        /// That height.
        height: i32,
        /// Twice its area.
        doubled_area: i128,
    },
    /// A wall: upright over the way from one corner of the sheet to another.
    Wall {
        /// The two corners, the lesser first.
        ends: (Point, Point),
        /// The heights between which it stands.
        heights: Heights,
    },
}

/// A face of a solid.
#[derive(Clone, Debug)]
pub struct Face {
    /// The solid that it belongs to.
    pub solid: usize,
    /// What it is.
    pub shape: Shape,
    /// The face on its other side, where another solid is there.
    pub across: Option<usize>,
    /// Its corners, in the order that the solid's orientation gives.
    corners: Vec<[i32; 3]>,
}

/// A solid.
#[derive(Clone, Debug)]
pub struct Solid {
    /// The heights between which it stands.
    pub heights: Heights,
    /// The object that its darts carry.
    pub object: u16,
    /// The outline of its floor, as [`canonical`] has it.
    pub outline: Vec<Point>,
    /// Twice the area of its floor.
    pub doubled_floor: i128,
    /// Twice its volume.
    pub doubled_volume: i128,
    /// Its faces.
    pub faces: Vec<usize>,
}

/// The solids of a lifted map, with their faces.
#[derive(Clone, Debug, Default)]
pub struct Solids {
    /// The solids, by their lowest darts.
    pub solids: Vec<Solid>,
    /// The faces of all solids, by their lowest darts.
    pub faces: Vec<Face>,
}

/// Why the cells of a map are no solids with upright walls and level floors.
#[derive(Clone, Debug, PartialEq, Eq)]
#[non_exhaustive]
pub enum NoSolids {
    /// A dart's solid can't be turned one way.
    NoOrientation {
        /// The dart.
        dart: usize,
    },
    /// A face without a corner.
    NoCorner,
    /// A face that is neither wall nor floor, over these corners of the sheet.
    Slanted(Vec<Point>),
    /// A solid with so many level faces, and not two.
    LevelFaces(usize),
    /// A volume that is no whole number of halves.
    NoHalves,
    /// A dart that carries another object than the first of its solid.
    OtherObject {
        /// The dart.
        dart: usize,
    },
}

impl fmt::Display for NoSolids {
    fn fmt(&self, f: &mut fmt::Formatter) -> fmt::Result {
        match self {
            NoSolids::NoOrientation { dart } => {
                write!(f, "the solid of dart {dart} has no orientation")
            }
            NoSolids::NoCorner => f.write_str("a face has no corner"),
            NoSolids::Slanted(ends) => {
                write!(f, "a face over {ends:?} is neither wall nor floor")
            }
            NoSolids::LevelFaces(many) => write!(f, "a solid has {many} level faces, not two"),
            NoSolids::NoHalves => f.write_str("a volume is no whole number of halves"),
            NoSolids::OtherObject { dart } => {
                write!(f, "dart {dart} carries another object than its solid")
            }
        }
    }
}

impl std::error::Error for NoSolids {}

impl Solids {
    /// Reads them off a map of dimension 3.
    pub fn read(map: Map) -> Result<Solids, NoSolids> {
        let (solid_of, face_of) = (map.cells(3), map.orbits(&[0, 1]));
        let colours = colours(map)?;
        let mut faces = Vec::new();
        for (dart, &face) in face_of.iter().enumerate() {
            if face == faces.len() {
                let start = if colours[dart] {
                    dart
                } else {
                    map.link(dart, 0)
                };
                let corners = corners(map, start);
                let over = map.link(dart, 3);
                faces.push(Face {
                    solid: solid_of[dart],
                    shape: shape(&corners)?,
                    across: (over != dart).then(|| face_of[over]),
                    corners,
                });
            }
        }
        let mut of_solid = vec![Vec::new(); count(&solid_of)];
        for (number, face) in faces.iter().enumerate() {
            of_solid[face.solid].push(number);
        }
        let objects = objects(map, &solid_of)?;
        let solids = of_solid.into_iter().zip(objects);
        let solids = solids.map(|(own, object)| solid(own, object, &faces));
        let solids = solids.collect::<Result<Vec<Solid>, NoSolids>>()?;
        Ok(Solids { solids, faces })
    }

    /// The solid on the other side of a face.
    pub fn neighbour(&self, face: &Face) -> Option<usize> {
        face.across.map(|across| self.faces[across].solid)
    }
}

/// How many cells there are, by the cell of each dart.
fn count(cells: &[usize]) -> usize {
    cells.iter().max().map_or(0, |last| last + 1)
}

/// The object of each solid: all its darts carry it.
fn objects(map: Map, solid_of: &[usize]) -> Result<Vec<u16>, NoSolids> {
    let mut objects = vec![None; count(solid_of)];
    for (dart, &solid) in solid_of.iter().enumerate() {
        let own = map.object(dart);
        if *objects[solid].get_or_insert(own) != own {
            return Err(NoSolids::OtherObject { dart });
        }
    }
    Ok(objects.into_iter().flatten().collect())
}

/// A colour for each dart, so that every link along axes 0, 1 and 2 leads to
/// the other colour: each solid gets one of its two orientations.
fn colours(map: Map) -> Result<Vec<bool>, NoSolids> {
    let mut colours = vec![None; map.count()];
    for start in 0..map.count() {
        let mut open = vec![(start, true)];
        if colours[start].is_some() {
            continue;
        }
        while let Some((dart, colour)) = open.pop() {
            match colours[dart] {
                None => {
                    colours[dart] = Some(colour);
                    open.extend((0..3).map(|axis| (map.link(dart, axis), !colour)));
                }
                Some(other) if other != colour => {
                    return Err(NoSolids::NoOrientation { dart });
                }
                Some(_) => {}
            }
        }
    }
    Ok(colours.into_iter().flatten().collect())
}

/// The corners of a dart's face in order: along axes 0 and 1 in turn.
fn corners(map: Map, start: usize) -> Vec<[i32; 3]> {
    let mut corners = Vec::new();
    let mut dart = start;
    loop {
        let place = map.place(dart);
        corners.push([place[0], place[1], place[2]]);
        dart = map.link(map.link(dart, 0), 1);
        if dart == start {
            return corners;
        }
    }
}

/// Where a corner lies in the sheet.
fn flat([x, y, _]: [i32; 3]) -> Point {
    (x, y)
}

fn shape(corners: &[[i32; 3]]) -> Result<Shape, NoSolids> {
    let heights = corners.iter().map(|corner| corner[2]);
    let (lo, hi) = (heights.clone().min(), heights.max());
    let (Some(lo), Some(hi)) = (lo, hi) else {
        return Err(NoSolids::NoCorner);
    };
    let flat: Vec<Point> = corners.iter().copied().map(flat).collect();
    if lo == hi {
        let doubled_area = doubled_area(&flat).abs();
        return Ok(Shape::Floor {
            height: lo,
            doubled_area,
        });
    }
    let mut ends = flat;
    ends.sort();
    ends.dedup();
    match ends[..] {
        [one, other] => Ok(Shape::Wall {
            ends: (one, other),
            heights: (lo, hi),
        }),
        _ => Err(NoSolids::Slanted(ends)),
    }
}

/// A solid by its faces, two of which are level, and its object.
fn solid(own: Vec<usize>, object: u16, faces: &[Face]) -> Result<Solid, NoSolids> {
    let mut level: Vec<(i32, i128, &Face)> = Vec::new();
    for face in own.iter().map(|&face| &faces[face]) {
        if let Shape::Floor {
            height,
            doubled_area,
        } = face.shape
        {
            level.push((height, doubled_area, face));
        }
    }
    level.sort_by_key(|&(height, ..)| height);
    let [(lo, doubled_floor, floor), (hi, ..)] = level[..] else {
        return Err(NoSolids::LevelFaces(level.len()));
    };
    let outline: Vec<Point> = floor.corners.iter().copied().map(flat).collect();
    let all = own.iter().map(|&face| &faces[face].corners[..]);
    Ok(Solid {
        heights: (lo, hi),
        object,
        outline: canonical(&outline),
        doubled_floor,
        doubled_volume: doubled_volume(all)?,
        faces: own,
    })
}

/// Twice the volume within oriented faces, by the divergence theorem: six
/// times the volume is a sum of determinants, over triangles that fan out from
/// a corner of each face. A determinant fits 99 bits.
fn doubled_volume<'a>(
    faces: impl Iterator<Item = &'a [[i32; 3]]> + Clone,
) -> Result<i128, NoSolids> {
    let Some(&origin) = faces.clone().flatten().next() else {
        return Ok(0);
    };
    let away = |corner: [i32; 3]| -> [i128; 3] {
        std::array::from_fn(|axis| i128::from(corner[axis]) - i128::from(origin[axis]))
    };
    let fan = |face: &[[i32; 3]]| -> i128 {
        let pairs = face.windows(2);
        pairs
            .map(|pair| determinant(away(face[0]), away(pair[0]), away(pair[1])))
            .sum()
    };
    let six = faces.map(fan).sum::<i128>().abs();
    if six % 3 == 0 {
        Ok(six / 3)
    } else {
        Err(NoSolids::NoHalves)
    }
}

fn determinant(a: [i128; 3], b: [i128; 3], c: [i128; 3]) -> i128 {
    a[0] * (b[1] * c[2] - b[2] * c[1])
        + a[1] * (b[2] * c[0] - b[0] * c[2])
        + a[2] * (b[0] * c[1] - b[1] * c[0])
}

#[cfg(test)]
mod tests {
    use super::*;
    use crate::Sheet;
    use crate::lifting::lift;
    use laremban::PlanTables;

    #[test]
    fn a_lone_dart_is_no_solid() {
        let lone = PlanTables::new(1);
        let fault = Solids::read(lone.map(3, 1)).err();
        assert_eq!(fault, Some(NoSolids::NoOrientation { dart: 0 }));
    }

    #[test]
    fn a_solid_has_one_object() {
        let sheet = b"a (0 0) (4 0) (4 3): 0..3 of 7 3..5 of 65535";
        let mut lifted = lift(&Sheet::read(sheet).expect("a sheet")).expect("a lift");
        let read = Solids::read(lifted.map()).expect("solids");
        let objects: Vec<u16> = read.solids.iter().map(|solid| solid.object).collect();
        assert_eq!(objects, [7, 65535]);
        lifted.tables.objects[9] ^= 1;
        let fault = Solids::read(lifted.map()).err();
        assert_eq!(fault, Some(NoSolids::OtherObject { dart: 9 }));
    }
}
