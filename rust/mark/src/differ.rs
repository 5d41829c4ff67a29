//! What differs between the map that a program wrote and the lift, in words: the
//! first thing that is wrong, by the name of its dart and the lift's case.

use crate::written::Written;
use laremban::Map;
use laremban::naming::Names;

/// What is wrong with a map of the lift's dimension; nothing where it is right.
/// The first line tells the first difference, and one behind it how many more
/// there are.
pub fn differences(written: &Written, lift: &Map, names: &Names) -> Option<Vec<String>> {
    if let Some(told) = other_count(written, lift, names) {
        return Some(vec![told]);
    }
    let places = (0..lift.count()).filter(|&dart| place(written, dart) != wide(lift.place(dart)));
    let mut places = places.peekable();
    if let Some(&dart) = places.peek() {
        let first = format!(
            "dart {}: stands at {}, should stand at {}",
            named(dart, names),
            told_place(&place(written, dart)),
            told_place(&wide(lift.place(dart)))
        );
        let (one, several) = (
            "dart stands elsewhere than it",
            "darts stand elsewhere than they",
        );
        return Some(with_more(first, places.count(), one, several));
    }
    other_links(written, lift, names).or_else(|| other_objects(written, lift, names))
}

/// Links that lead elsewhere than they should.
fn other_links(written: &Written, lift: &Map, names: &Names) -> Option<Vec<String>> {
    let axes = lift.dimension() + 1;
    let all = (0..axes * lift.count()).map(|at| (at / axes, at % axes));
    let links =
        all.filter(|&(dart, axis)| leads(written, dart, axis) != lift.link(dart, axis) as i64);
    let mut links = links.peekable();
    let &(dart, axis) = links.peek()?;
    let first = other_link(leads(written, dart, axis), dart, axis, lift, names);
    let (one, several) = (
        "link leads elsewhere than it",
        "links lead elsewhere than they",
    );
    Some(with_more(first, links.count(), one, several))
}

/// Darts that carry other objects than they should.
fn other_objects(written: &Written, lift: &Map, names: &Names) -> Option<Vec<String>> {
    let other = |&dart: &usize| carries(written, dart) != i64::from(lift.object(dart));
    let mut others = (0..lift.count()).filter(other).peekable();
    let &dart = others.peek()?;
    let first = format!(
        "dart {}: carries object {}, should carry {}: that of the span that covers its side",
        named(dart, names),
        carries(written, dart),
        lift.object(dart)
    );
    let (one, several) = (
        "dart carries another object than it",
        "darts carry other objects than they",
    );
    Some(with_more(first, others.count(), one, several))
}

/// A dart's place, as it was written.
fn place(written: &Written, dart: usize) -> Vec<i64> {
    written.rows[dart][written.dimension + 1..][..written.dimension].to_vec()
}

/// The object that a dart carries, as it was written.
fn carries(written: &Written, dart: usize) -> i64 {
    written.rows[dart][2 * written.dimension + 1]
}

/// Where a dart's link leads, as it was written.
fn leads(written: &Written, dart: usize, axis: usize) -> i64 {
    written.rows[dart][axis]
}

fn wide(place: &[i32]) -> Vec<i64> {
    place.iter().copied().map(i64::from).collect()
}

fn told_place(place: &[i64]) -> String {
    let all: Vec<String> = place.iter().map(i64::to_string).collect();
    format!("({})", all.join(", "))
}

/// A dart of the lift by its number and its name.
fn named(dart: usize, names: &Names) -> String {
    match names.get(dart) {
        Some(name) => format!("{dart} = {name}"),
        None => dart.to_string(),
    }
}

fn with_more(first: String, all: usize, one: &str, several: &str) -> Vec<String> {
    match all {
        0 | 1 => vec![first],
        2 => vec![first, format!("1 more {one} should")],
        all => vec![first, format!("{} more {several} should", all - 1)],
    }
}

/// A link that leads elsewhere than it should.
fn other_link(leads: i64, dart: usize, axis: usize, lift: &Map, names: &Names) -> String {
    let should = named(lift.link(dart, axis), names);
    let case = names.get(dart).and_then(|name| names.case(name, axis));
    let case = case.map(|case| format!(": {case}")).unwrap_or_default();
    let dart = named(dart, names);
    format!("dart {dart}, axis {axis}: leads to {leads}, should lead to {should}{case}")
}

/// Too few darts, or too many: by their places the first one is found.
fn other_count(written: &Written, lift: &Map, names: &Names) -> Option<String> {
    let (is, should) = (written.rows.len(), lift.count());
    if is == should {
        return None;
    }
    let both = 0..is.min(should);
    let mut differ = both.filter(|&dart| place(written, dart) != wide(lift.place(dart)));
    let at = differ.next().unwrap_or(is.min(should));
    let there = |at: usize| {
        format!(
            "{}, at {}",
            named(at, names),
            told_place(&wide(lift.place(at)))
        )
    };
    let first = match (is < should, at < should) {
        (true, _) => format!("the first that is missing is dart {}", there(at)),
        (false, true) => format!(
            "the first too many is dart {at}, at {}: there should be {}",
            told_place(&place(written, at)),
            there(at)
        ),
        (false, false) => format!(
            "the first too many is dart {at}, at {}",
            told_place(&place(written, at))
        ),
    };
    Some(format!("{is} darts, should be {should}: {first}"))
}
