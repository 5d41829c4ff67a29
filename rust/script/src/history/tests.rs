//! What is forgotten does not matter, names and objects are those of the lifted
//! plan, rows that are known are those of the maps, and what a span is said to be
//! joined to is what the run made of it.

use super::*;
use crate::draw::Draw;
use crate::joining::{Became, accept, brought};
use crate::line::Line;
use crate::script::Script;
use laremban::{Ended, replies};

const ROOM: usize = 400;

/// What a run of a whole list leaves, and its last reply.
fn whole(list: &Commands) -> (PlanTables, LiftedTables, Option<u16>) {
    let (mut plan, mut lifted) = (PlanTables::new(ROOM), LiftedTables::new(ROOM));
    let mut memory = list.reply_memory();
    let bytes = list.bytes();
    let ended: Ended = run(bytes, &mut plan.lend(), &mut lifted.lend(), &mut memory);
    let last = replies(&memory, ended).last();
    (plan, lifted, last.and_then(Result::ok))
}

fn commands(line: &Line) -> Vec<Command> {
    match *line {
        Line::Command(command) => vec![command],
        Line::Darts(many) => vec![Command::Dart; many.into()],
        Line::Show(_) => vec![],
    }
}

/// How often something worth comparing was met.
#[derive(Default)]
struct Met {
    adopted: usize,
    joined: usize,
    known: usize,
    unknown: usize,
}

/// Every command of a list is taken, and the maps are compared after each.
fn compare(lines: &[Line], met: &mut Met) {
    let (mut history, mut list) = (History::new(usize::MAX), Commands::new());
    for command in lines.iter().flat_map(commands) {
        let (plan, lifted, value) = whole(list.push(command));
        let Some(value) = value else { continue };
        let before = brought(command).map(|(dart, _)| history.maps().plan().row(dart.into()));
        let told = accept(command, value, &mut history);
        met.adopted += usize::from(command == Command::Adopt && value > 0);
        met.joined += usize::from(matches!(told, Became::Joined(_)));
        compare_rows(&mut history, met);
        let maps = history.maps();
        if let (Some((dart, new)), Some(before)) = (brought(command), before) {
            let row = row_with(before, new, told);
            assert_eq!(maps.plan().row(dart.into()), row, "{command:?}");
        }
        assert!(plan.links.starts_with(&maps.plan.links));
        assert!(plan.places.starts_with(&maps.plan.places));
        assert!(plan.spans.starts_with(&maps.plan.spans));
        assert!(lifted.links.starts_with(&maps.lifted.links));
        assert!(lifted.places.starts_with(&maps.lifted.places));
        assert!(lifted.objects.starts_with(&maps.lifted.objects));
        // The sizes are those of the maps: there is a row for each dart.
        assert_eq!(maps.plan().count(), history.sizes().plan.count);
        if history.sizes().lifted.dimension > 0 {
            compare_names(&mut history);
        }
    }
}

/// The row that a new span leaves, by what it is said to be joined to.
fn row_with(mut row: Vec<Span>, new: Span, told: Became) -> Vec<Span> {
    let is_joined = row.iter().any(|old| old.overlaps(new));
    row.retain(|old| !old.overlaps(new));
    row.push(match told {
        Became::Alone if !is_joined => new,
        Became::Joined(one) if is_joined => one,
        _ => panic!("{new:?} is told as {told:?}"),
    });
    row.sort();
    row
}

/// The rows that are known without the maps are theirs.
fn compare_rows(history: &mut History, met: &mut Met) {
    for dart in 0..history.sizes().plan.count {
        let row = history.maps().plan().row(dart);
        match history.rows.row(dart as u16) {
            Some(known) => {
                assert_eq!(known, row);
                met.known += 1;
            }
            None => met.unknown += 1,
        }
    }
}

/// The names are those of the plan that was lifted: they make every object and
/// every link.
fn compare_names(history: &mut History) {
    let (map, names) = history.named();
    assert_eq!(names.count(), map.count());
    for dart in 0..map.count() {
        let name = names.get(dart).unwrap();
        let top = map.place(dart).last();
        assert_eq!(top, Some(&name.height));
        assert_eq!(names.object(name), Some(map.object(dart)));
        for axis in 0..=map.dimension() {
            let other = names.link(name, axis).unwrap();
            assert_eq!(names.number(other), Some(map.link(dart, axis)), "{name}");
        }
    }
}

#[test]
fn what_is_forgotten_does_not_matter() {
    let mut met = Met::default();
    for seed in 0..200 {
        let text = Draw::new(seed).script(50);
        compare(Script::read(text.as_bytes()).unwrap().lines(), &mut met);
    }
    let Met {
        adopted,
        joined,
        known,
        unknown,
    } = met;
    assert!(adopted > 100, "too few maps are adopted: {adopted}");
    assert!(joined > 100, "too few spans are joined: {joined}");
    assert!(known > 1_000 && unknown > 1_000, "{known} {unknown}");
}

/// Parcels of a long list have the same heights, and some are joined: the list is
/// not run again for that.
#[test]
fn rows_are_known_without_a_run() {
    let mut history = History::new(0);
    history.accept(Command::New { dimension: 2 }, 0);
    for edge in 0..1_000 {
        let (a, b) = (2 * edge, 2 * edge + 1);
        history.accept(Command::Dart, a);
        history.accept(Command::Dart, b);
        history.accept(Command::Sew { axis: 0, a, b }, 2);
        for (dart, lo, hi) in [(a, 0, 3), (b, 3, 6), (a, 7, 9), (b, 4, 8)] {
            history.accept(Command::Span { dart, lo, hi }, 2);
        }
        let row = [Span::new(0, 3), Span::new(3, 9)];
        assert_eq!(history.row(a), Some(&row[..]));
    }
    assert!(history.maps.is_none());
}
