//! What SHOW prints: a side's darts in a table, the darts of a cell, the pieces
//! of a cell.

use crate::history::History;
use crate::line::Show;
use crate::names;
use crate::prose::{self, cell, many, place, spans};
use crate::reason::{no_axis, no_dart, no_plan, nothing_lifted};
use crate::reply::refused;
use crate::table::table;
use laremban::{Map, Refusal, Side, Size, pieces};

/// What is shown, from the line's colon on. What can't be shown is told as the
/// refusal of a command is.
pub(crate) fn show(show: Show, history: &mut History) -> String {
    let told = match show {
        Show::Map(side) => map(side, history),
        Show::Names { dart: None } => all_names(history),
        Show::Names { dart: Some(dart) } => one_name(dart, history),
        Show::Cell { side, axis, dart } => cell_darts(side, dart, axis, history),
        Show::Pieces { axis, dart } => cell_pieces(dart, axis, history),
    };
    told.unwrap_or_else(|(refusal, why)| refused(refusal, &why))
}

/// Why something can't be shown.
type Why = (Refusal, String);

/// The name of a side's map, and its size; refused where it is blank.
fn sized(side: Side, history: &History) -> Result<(&'static str, Size), Why> {
    let sizes = history.sizes();
    match side {
        Side::Plan if sizes.plan.dimension == 0 => Err((Refusal::NoPlan, no_plan())),
        Side::Plan => Ok(("plan", sizes.plan)),
        Side::Lifted if sizes.lifted.dimension == 0 => {
            Err((Refusal::NothingLifted, nothing_lifted()))
        }
        Side::Lifted => Ok(("lifted map", sizes.lifted)),
    }
}

/// A cell's name, where its map has the axis and the dart.
fn found(side: Side, dart: u16, axis: u8, history: &History) -> Result<String, Why> {
    let (map, size) = sized(side, history)?;
    if axis > size.dimension {
        return Err((Refusal::OutOfRange, no_axis(axis, size, map)));
    }
    found_dart(dart, map, size)?;
    Ok(cell(axis))
}

/// Refused where a map does not have the dart.
fn found_dart(dart: u16, map: &str, size: Size) -> Result<(), Why> {
    match usize::from(dart) < size.count {
        true => Ok(()),
        false => Err((Refusal::NoSuchDart, no_dart(dart, size, map))),
    }
}

fn cell_darts(side: Side, dart: u16, axis: u8, history: &mut History) -> Result<String, Why> {
    let name = found(side, dart, axis, history)?;
    let darts = history.maps().map(side).cell(dart.into(), axis.into());
    let all: Vec<String> = darts.iter().map(usize::to_string).collect();
    let number = many(darts.len(), "dart");
    Ok(format!("the {name} has {number}: {}", all.join(" ")))
}

fn cell_pieces(dart: u16, axis: u8, history: &mut History) -> Result<String, Why> {
    let name = found(Side::Plan, dart, axis, history)?;
    let maps = history.maps();
    let plan = maps.plan();
    let darts = plan.cell(dart.into(), axis.into());
    // So many spans make fewer than twice as many pieces, each with two ends.
    let most: usize = darts.iter().map(|&dart| plan.row(dart).len()).sum();
    let mut memory = vec![0; 4 * most];
    match pieces(&mut maps.lend(), dart.into(), axis, &mut memory) {
        Ok([]) => Ok(format!("the {name} has no pieces")),
        Ok(some) => Ok(format!(
            "the {name} has {}: {}",
            many(some.len(), "piece"),
            prose::pieces(some)
        )),
        Err(refused) => Err((refused.refusal, refused.refusal.to_string())),
    }
}

/// A side's darts, a line each.
fn map(side: Side, history: &mut History) -> Result<String, Why> {
    let size = match sized(side, history) {
        Ok((_, size)) => size,
        // To look at a blank map is no mistake.
        Err((_, why)) => return Ok(format!("blank: {why}")),
    };
    let map = history.maps().map(side);
    let last = Last::of(side, &map);
    let rows = (0..map.count()).map(|dart| {
        let mut row = cells_of(&map, dart);
        row.extend(last.cell(&map, dart));
        row
    });
    let place = 2 + usize::from(size.dimension);
    let titles = titles(last, size.dimension);
    let rows = table(titles, rows, |column| match column > place {
        true => last == Last::Object,
        false => column < place,
    });
    Ok(format!("{}{rows}", head(size)))
}

/// What the last column has, behind the place.
#[derive(Clone, Copy, PartialEq)]
enum Last {
    /// A plan dart's row of spans.
    Spans,
    /// The object that a lifted dart carries.
    Object,
    /// There is none: all objects of a lifted map are 0.
    Nothing,
}

impl Last {
    fn of(side: Side, map: &Map) -> Last {
        match side {
            Side::Plan => Last::Spans,
            Side::Lifted if has_objects(map) => Last::Object,
            Side::Lifted => Last::Nothing,
        }
    }

    fn title(self) -> Option<String> {
        match self {
            Last::Spans => Some("spans".to_string()),
            Last::Object => Some(OBJECT.to_string()),
            Last::Nothing => None,
        }
    }

    fn cell(self, map: &Map, dart: usize) -> Option<String> {
        match self {
            Last::Spans => Some(spans(&map.row(dart))),
            Last::Object => Some(map.object(dart).to_string()),
            Last::Nothing => None,
        }
    }
}

/// What stands above a column of objects.
pub(crate) const OBJECT: &str = "object";

/// Whether some dart of a lifted map carries another object than 0: without any,
/// nothing is told of them.
pub(crate) fn has_objects(map: &Map) -> bool {
    (0..map.count()).any(|dart| map.object(dart) != 0)
}

/// The lifted darts with their names, a line each.
fn all_names(history: &mut History) -> Result<String, Why> {
    let size = match sized(Side::Lifted, history) {
        Ok((_, size)) => size,
        Err((_, why)) => return Ok(format!("blank: {why}")),
    };
    let (map, names) = history.named();
    Ok(format!("{}{}", head(size), names::all(&map, names)))
}

/// A lifted dart with its name, and each of its links in words.
fn one_name(dart: u16, history: &mut History) -> Result<String, Why> {
    let (map, size) = sized(Side::Lifted, history)?;
    found_dart(dart, map, size)?;
    let (map, names) = history.named();
    Ok(names::one(&map, names, dart.into()))
}

/// What is told of a map before its darts.
fn head(size: Size) -> String {
    format!("dimension {}, {}", size.dimension, many(size.count, "dart"))
}

/// What stands above the columns.
fn titles(last: Last, dimension: u8) -> Vec<String> {
    let axes = (0..=dimension).map(|axis| format!("axis {axis}"));
    let mut titles: Vec<String> = ["dart".to_string()].into_iter().chain(axes).collect();
    titles.push("place".to_string());
    titles.extend(last.title());
    titles
}

/// A dart with its links and its place. Free along an axis, it has a dot there:
/// what is linked is seen at once.
fn cells_of(map: &Map, dart: usize) -> Vec<String> {
    let links = (0..=map.dimension()).map(|axis| match map.is_free(dart, axis) {
        true => ".".to_string(),
        false => map.link(dart, axis).to_string(),
    });
    let mut row: Vec<String> = [dart.to_string()].into_iter().chain(links).collect();
    row.push(place(map.place(dart)));
    row
}
