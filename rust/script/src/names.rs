//! Lifted darts by their names, and which case of the lift makes each link. The
//! links and the objects are those of the lifted map; names and cases come from
//! the plan that was lifted.

use crate::show::{OBJECT, has_objects};
use crate::table::table;
use laremban::Map;
use laremban::naming::{Case, Name, Names};

/// The cases by their letters, in the order of docs/LIFT.md.
const CASES: &str =
    "case: a i < k, b i = k ≥ 1, c i = k = 0, d i = k + 1 ≤ m, e i = k + 1 = n, f i ≥ k + 2";

/// A case's letter: so short that a table of six axes fits a page.
fn letter(case: Case) -> char {
    match case {
        Case::Along => 'a',
        Case::LevelBelow => 'b',
        Case::Piece => 'c',
        Case::LevelAbove { .. } => 'd',
        Case::Through { .. } => 'e',
        Case::Across(_) => 'f',
    }
}

/// All darts with their names, a line each, and what the letters stand for.
pub(crate) fn all(map: &Map, names: &Names) -> String {
    let axes = (0..=map.dimension()).map(|axis| format!("axis {axis}"));
    let titles = ["dart".to_string(), "name".to_string()];
    let objects = has_objects(map);
    let object = objects.then(|| OBJECT.to_string());
    let titles = titles.into_iter().chain(axes).chain(object).collect();
    let darts = (0..map.count()).filter_map(|dart| Some((dart, names.get(dart)?)));
    let rows = darts.map(|(dart, name)| {
        let mut row = row(map, names, dart, name);
        row.extend(objects.then(|| map.object(dart).to_string()));
        row
    });
    match table(titles, rows, |column| column != 1) {
        none if none.is_empty() => none,
        rows => format!("{rows}\n  {CASES}"),
    }
}

/// A dart, its name, and its links, each with its case's letter behind it.
fn row(map: &Map, names: &Names, dart: usize, name: Name) -> Vec<String> {
    let links = (0..=map.dimension()).map(|axis| {
        let case = names.case(name, axis).map_or('?', letter);
        match map.link(dart, axis) {
            other if other == dart => format!(". {case}"),
            other => format!("{other} {case}"),
        }
    });
    let own = [dart.to_string(), name.to_string()];
    own.into_iter().chain(links).collect()
}

/// A dart's name, its object where that is not 0, and its links in words.
pub(crate) fn one(map: &Map, names: &Names, dart: usize) -> String {
    let Some(name) = names.get(dart) else {
        return String::new();
    };
    let links = (0..=map.dimension()).filter_map(|axis| {
        let case = names.case(name, axis)?;
        let other = map.link(dart, axis);
        let to = match names.get(other).filter(|_| other != dart) {
            Some(name) => format!("{other} = {name}"),
            None => "itself".to_string(),
        };
        let letter = letter(case);
        Some(format!(
            "\n  axis {axis} {letter}: leads to {to}\n    {case}"
        ))
    });
    let object = match map.object(dart) {
        0 => String::new(),
        object => format!(" of object {object}"),
    };
    format!("{name}{object}{}", links.collect::<String>())
}
