//! Cases as rows of antt: a theorem for each, that the definitions of `paper`
//! give the answer that stands in the case; and what the prover says of them.

use crate::cases::{Case, LiftedTables, Plan};
use crate::map::{Dart, Map};
use crate::run::{After, Ended, Lengths};
use std::collections::BTreeSet;

/// The kinds of cases and their tests, in antt.
pub const CASE_MODULE: &str = include_str!("../antt/Case.txt");

/// A list in antt, of terms that are written already.
fn list<I: IntoIterator<Item = String>>(terms: I) -> String {
    let mut text = String::from("(");
    for term in terms {
        text.push_str(&term);
        text.push_str(" ∷ ");
    }
    text.push_str("[])");
    text
}

fn numbers<T: Copy + Into<u64>>(values: &[T]) -> String {
    list(values.iter().map(|&v| v.into().to_string()))
}

/// A whole number: `negsuc n` is -(n + 1).
fn whole(z: i32) -> String {
    if z < 0 {
        format!("negsuc {}", -(i64::from(z) + 1))
    } else {
        format!("pos {z}")
    }
}

fn wholes(values: &[i32]) -> String {
    list(values.iter().map(|&z| whole(z)))
}

fn dart(d: &Dart) -> String {
    let links = list(d.links.iter().map(usize::to_string));
    let row = d.row.iter().map(|s| {
        let (lo, hi, object) = (whole(s.lo), whole(s.hi), whole(s.object.into()));
        format!("record {{ span = record {{ lo = {lo}; hi = {hi} }}; object = {object} }}")
    });
    let (place, row) = (wholes(&d.place), list(row));
    format!("record {{ links = {links}; place = {place}; owned = {row} }}")
}

fn map(m: &Map) -> String {
    let darts = list(m.darts.iter().map(dart));
    format!("record {{ dim = {}; darts = {darts} }}", m.dim)
}

fn four(number: u8, taken: usize, accepted: usize, refused: usize) -> String {
    format!(
        "record {{ number = {number}; taken = {taken}; accepted = {accepted}; refused = {refused} }}"
    )
}

fn answer(number: u8, value: usize) -> String {
    format!("(record {{ number = {number}; value = {value} }})")
}

fn outcome(e: &Ended) -> String {
    let replies = e.replies.iter().map(|r| {
        let (n, v) = (r.number, r.value);
        format!("record {{ number = {n}; value = {v} }}")
    });
    format!(
        "(record {{ ended = {}; replies = {}; plan = {}; lifted = {}; objects = {} }})",
        four(e.number, e.taken, e.accepted, e.refused),
        list(replies),
        map(&e.plan),
        map(&e.lifted.map),
        numbers(&e.lifted.objects)
    )
}

fn lent(l: &Lengths, before: &[u8]) -> String {
    format!(
        "(record {{ plan = record {{ links = {}; places = {}; spans = {}; work = {} }}; \
         lifted = record {{ links = {}; places = {}; objects = {}; work = {} }}; memory = {} }})",
        l.plan_links,
        l.plan_places,
        l.plan_spans,
        l.plan_work,
        l.lifted_links,
        l.lifted_places,
        l.lifted_objects,
        l.lifted_work,
        numbers(before)
    )
}

fn left(a: &After, l: &Lengths) -> String {
    format!(
        "(record {{ ended = {}; plan = {}; lifted = {}; memory = {} }})",
        four(a.number, a.taken, a.accepted, a.refused),
        plan(&a.plan_links, &a.plan_places, &a.plan_spans, l.plan_work),
        lifted(
            &a.lifted_links,
            &a.lifted_places,
            &a.lifted_objects,
            l.lifted_work
        ),
        numbers(&a.reply)
    )
}

/// The plan's tables; of work only the length matters.
fn plan(links: &[u16], places: &[i32], spans: &[i32], work: usize) -> String {
    format!(
        "(record {{ links = {}; places = {}; spans = {}; work = {work} }})",
        numbers(links),
        wholes(places),
        wholes(spans)
    )
}

/// The lifted side's tables.
fn lifted(links: &[u16], places: &[i32], objects: &[u16], work: usize) -> String {
    format!(
        "(record {{ links = {}; places = {}; objects = {}; work = {work} }})",
        numbers(links),
        wholes(places),
        numbers(objects)
    )
}

/// The same of a lift call.
fn lifted_tables(t: &LiftedTables) -> String {
    lifted(&t.links, &t.places, &t.objects, t.work)
}

/// The raw tables, then dimension and count.
fn tables(p: &Plan) -> String {
    format!(
        "{} {} {}",
        plan(&p.links, &p.places, &p.spans, p.work),
        p.dimension,
        p.count
    )
}

/// The case as a term of the type `Case`.
pub fn term(case: &Case) -> String {
    match case {
        Case::Run {
            bytes,
            plan_capacity: p,
            lifted_capacity: l,
            reply_length: r,
            ended,
        } => format!("is_run {} {p} {l} {r} {}", numbers(bytes), outcome(ended)),
        Case::Tables {
            bytes,
            lengths,
            before,
            after,
        } => format!(
            "is_tables {} {} {}",
            numbers(bytes),
            lent(lengths, before),
            left(after, lengths)
        ),
        Case::Prints { bytes, text } => {
            format!("is_prints {} {}", numbers(bytes), numbers(text.as_bytes()))
        }
        Case::Check {
            plan,
            number,
            value,
        } => format!("is_check {} {}", tables(plan), answer(*number, *value)),
        Case::Lift {
            plan,
            before,
            number,
            value,
            after,
        } => format!(
            "is_lift {} {} {} {}",
            tables(plan),
            lifted_tables(before),
            answer(*number, *value),
            lifted_tables(after)
        ),
        Case::Pieces {
            plan,
            dart,
            axis,
            before,
            number,
            pairs,
            after,
        } => format!(
            "is_pieces {} {dart} {axis} {} {number} {pairs} {}",
            tables(plan),
            wholes(before),
            wholes(after)
        ),
        Case::Row {
            plan_links,
            lifted_links,
            side,
            dart,
            part,
        } => format!(
            "is_row {} {} {side} {dart} {}",
            numbers(plan_links),
            numbers(lifted_links),
            numbers(part)
        ),
        Case::Looseness {
            links,
            dimension,
            dart,
            number,
            bits,
            ones,
        } => format!(
            "is_looseness {} {dimension} {dart} {number} {bits} {ones}",
            numbers(links)
        ),
    }
}

/// A module of theorems, one for each case, named by the case's number.
pub fn module(library: &str, cases: &[(usize, &Case)]) -> String {
    let mut text = format!(
        "use Rattle.std.specs.Prelude.{{List, [], ◌∷◌, ℤ, pos, negsuc}}\nuse Rattle.std.proofs.Common.{{T}}\n\
         use Rattle.{library}.specs.Case.{{Case, is_run, is_tables, is_prints, is_check, is_lift, \
         is_pieces, is_row, is_looseness, right}}\n"
    );
    for (number, case) in cases {
        let name = format!("case-{number}");
        text.push_str(&format!(
            "\n{name} : T (right ({}))\nunfolding right\n{name} = tt\n",
            term(case)
        ));
    }
    text
}

/// What the prover said of the cases that it did not accept, by their numbers.
#[derive(Debug, Default, PartialEq, Eq)]
pub struct Verdicts {
    /// Refused: the definitions give another answer.
    pub differ: BTreeSet<usize>,
    /// Not decided: the prover ran out of steps.
    pub undecided: BTreeSet<usize>,
    /// Errors that name no case.
    pub others: Vec<String>,
}

/// Reads the errors in the prover's output.
pub fn verdicts(output: &str) -> Verdicts {
    let mut found = Verdicts::default();
    for line in output.lines() {
        let Some((_, said)) = line.split_once(": error: ") else {
            continue;
        };
        let number = said.strip_prefix("`case-").and_then(|rest| {
            let (digits, _) = rest.split_once('`')?;
            digits.parse().ok()
        });
        match number {
            None => found.others.push(line.into()),
            Some(n) if said.contains("stopped at the step limit") => {
                found.undecided.insert(n);
            }
            Some(n) => {
                found.differ.insert(n);
            }
        }
    }
    found.undecided.retain(|n| !found.differ.contains(n));
    found
}
