//! What the lifted map tells, compared with the file it came from, and with
//! itself from the other side of each wall and floor.

use crate::outline::canonical;
use crate::{Finding, Findings, Heights, Parcel, Point, Sheet, Solid, Solids};
use laremban::Span;
use std::collections::HashMap;

/// The parcel of each solid, or where the solids are not those of the sheet.
///
/// A solid's parcel is the one whose outline its floor has. That is sound: an
/// outline has no corner twice, so that its canonical form is one, and no two
/// parcels of a sheet have the same: the second is a fault of the sheet. Nothing
/// rests on how lifted darts are numbered.
pub fn compare(sheet: &Sheet, solids: &Solids) -> Result<Vec<usize>, Findings> {
    let parcels = parcels(sheet, solids)?;
    let mut faults = Findings::default();
    let mut own = vec![Vec::new(); sheet.parcels.len()];
    for (solid, &parcel) in solids.solids.iter().zip(&parcels) {
        own[parcel].push(of_map(solid));
    }
    for (parcel, own) in sheet.parcels.iter().zip(own) {
        if let Some(what) = fault(parcel, own) {
            faults.push(parcel.finding(what));
        }
    }
    for (number, face) in solids.faces.iter().enumerate() {
        let told_alike = face.across.is_none_or(|across| {
            let other = &solids.faces[across];
            other.shape == face.shape && other.across == Some(number) && other.solid != face.solid
        });
        if !told_alike {
            let what = "one of its walls or floors is another from its other side";
            faults.push(sheet.parcels[parcels[face.solid]].finding(what));
        }
    }
    if faults.is_empty() {
        Ok(parcels)
    } else {
        Err(faults)
    }
}

/// What the file and the map both tell of a solid: its heights, twice its floor,
/// twice its volume, and its object. All totals are sums of these.
type Told = (Heights, i128, i128, u16);

fn of_map(solid: &Solid) -> Told {
    let (floor, volume) = (solid.doubled_floor, solid.doubled_volume);
    (solid.heights, floor, volume, solid.object)
}

/// How high a span is.
fn high(span: &Span) -> i128 {
    i128::from(span.hi) - i128::from(span.lo)
}

/// What is wrong with a parcel's solids, by the file: each of its heights makes
/// one, over the whole of it, and those that overlap make one together.
fn fault(parcel: &Parcel, mut own: Vec<Told>) -> Option<String> {
    let floor = parcel.doubled_area();
    let of_file = parcel.standing().into_iter().map(|one| one.span);
    let of_file = of_file.map(|span| ((span.lo, span.hi), floor, floor * high(&span), span.object));
    let wanted: Vec<Told> = of_file.collect();
    own.sort();
    let sizes = |told: &[Told]| -> Vec<_> { told.iter().map(|&(a, b, c, _)| (a, b, c)).collect() };
    if sizes(&own) != sizes(&wanted) {
        return Some("its solids have not its area times its heights".to_string());
    }
    let other = own.iter().zip(&wanted).find(|(own, wanted)| own != wanted);
    other.map(|(&((lo, hi), _, _, own), &(.., wanted))| {
        format!("its solid {lo}..{hi} has object {own}, and the file says {wanted}")
    })
}

fn parcels(sheet: &Sheet, solids: &Solids) -> Result<Vec<usize>, Finding> {
    let outlines: HashMap<Vec<Point>, usize> = (sheet.parcels.iter().enumerate())
        .map(|(number, parcel)| (canonical(&parcel.corners), number))
        .collect();
    let found = solids.solids.iter().map(|solid| {
        let parcel = outlines.get(&solid.outline).copied();
        parcel.ok_or_else(|| Finding::of_sheet("a solid has the outline of no parcel"))
    });
    found.collect()
}

#[cfg(test)]
mod tests {
    use super::*;
    use crate::Shape;
    use crate::lifting::lift;

    const SHEET: &str = "\
house (0 0) (8 0) (8 6) (0 6): 0..3 3..6 of 101
shed (8 0) (12 0) (8 6): 1..4 of 102
";

    /// What is told once the solids of the sheet have been changed.
    fn told(change: impl FnOnce(&mut Solids)) -> Vec<String> {
        let sheet = Sheet::read(SHEET.as_bytes()).expect("a sheet");
        let lifted = lift(&sheet).expect("a lift");
        let mut solids = Solids::read(lifted.map()).expect("solids");
        change(&mut solids);
        compare(&sheet, &solids).map_or_else(|faults| faults.lines("f"), |_| Vec::new())
    }

    /// The first wall, floor or anything else that is shared.
    fn shared(solids: &mut Solids, wanted: impl Fn(Shape) -> bool) -> &mut crate::Face {
        let mut faces = solids.faces.iter_mut();
        let face = faces.find(|face| face.across.is_some() && wanted(face.shape));
        face.expect("a shared face")
    }

    #[test]
    fn nothing_is_told_of_what_agrees() {
        assert!(told(|_| {}).is_empty());
    }

    #[test]
    fn a_volume_that_is_not_the_files() {
        let wanted = ["f:2: shed: its solids have not its area times its heights"];
        assert_eq!(told(|solids| solids.solids[2].doubled_volume += 1), wanted);
        let less = told(|solids| drop(solids.solids.pop()));
        assert_eq!(less, wanted);
    }

    /// The run joins heights of a line, and what it makes of them is compared.
    #[test]
    fn heights_that_are_joined_otherwise() {
        let read = |heights: &str| {
            let text = format!("mill (0 0) (8 0) (8 6): {heights}");
            Sheet::read(text.as_bytes()).expect("a sheet")
        };
        let lifted = lift(&read("0..3 2..6 6..7")).expect("a lift");
        let solids = Solids::read(lifted.map()).expect("solids");
        let told = |heights: &str| {
            let faults = compare(&read(heights), &solids).err();
            faults.map_or_else(Vec::new, |faults| faults.lines("f"))
        };
        let wanted = ["f:1: mill: its solids have not its area times its heights"];
        for same in ["0..3 2..6 6..7", "6..7 0..6", "0..6 1..2 6..7"] {
            assert!(told(same).is_empty(), "{same}");
        }
        for other in ["0..3 3..6 6..7", "0..7", "0..3 2..6 5..7", "0..3 2..5 6..7"] {
            assert_eq!(told(other), wanted, "{other}");
        }
    }

    #[test]
    fn an_object_that_is_not_the_files() {
        let wanted = ["f:1: house: its solid 3..6 has object 7, and the file says 101"];
        assert_eq!(told(|solids| solids.solids[1].object = 7), wanted);
        let wanted = ["f:1: house: its solid 0..3 has object 102, and the file says 0"];
        assert_eq!(told(|solids| solids.solids[0].object = 102), wanted);
    }

    #[test]
    fn a_wall_or_floor_that_is_another_from_its_other_side() {
        let wanted = "one of its walls or floors is another from its other side";
        let both = [
            format!("f:1: house: {wanted}"),
            format!("f:1: house: {wanted}"),
        ];
        let level = |shape| matches!(shape, Shape::Floor { .. });
        let lower = told(|solids| {
            if let Shape::Floor { height, .. } = &mut shared(solids, level).shape {
                *height -= 1;
            }
        });
        assert_eq!(lower, both);
        let mixed = [
            format!("f:1: house: {wanted}"),
            format!("f:2: shed: {wanted}"),
        ];
        let narrower = told(|solids| {
            if let Shape::Wall { ends, .. } = &mut shared(solids, |shape| !level(shape)).shape {
                ends.1.1 -= 1;
            }
        });
        assert_eq!(narrower, mixed);
        let one_way = told(|solids| shared(solids, |_| true).across = None);
        assert_eq!(one_way.len(), 1);
    }

    #[test]
    fn a_solid_that_stands_on_no_parcel() {
        let wanted = ["f: a solid has the outline of no parcel"];
        assert_eq!(told(|solids| solids.solids[0].outline[0].0 -= 1), wanted);
    }
}
