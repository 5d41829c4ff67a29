//! Times the proved run against the same in plain Rust, on the same bytes and in
//! the same memory.

use proved::builds::{Build, face, fourteen_sides, sheet};
use proved::timing::{is_same, table, turns};
use proved::{Ended, LiftedMut, PlanMut, plain};
use reference::refusal::ACCEPTED;
use reference::widths::*;

/// How often a time is taken; the best one counts.
const REPETITIONS: usize = 40;
/// Nanoseconds in a microsecond.
const MICRO: f64 = 1_000.0;
/// How often a small plan is lifted.
const LIFTS: usize = 100;
/// How many rows are filled with spans.
const ROWS: usize = 2_000;

/// A list of commands, and the rows of both sides.
struct Input {
    name: &'static str,
    list: Build,
    plan: usize,
    lifted: usize,
}

/// All that a run writes to.
#[derive(Clone)]
struct Memory {
    links: Vec<u16>,
    places: Vec<i32>,
    spans: Vec<i32>,
    work: Vec<u16>,
    lifted_links: Vec<u16>,
    lifted_places: Vec<i32>,
    /// The proved run's alone: the plain one carries no objects.
    lifted_objects: Vec<u16>,
    lifted_work: Vec<u16>,
    replies: Vec<u8>,
    /// The rows of both sides.
    rows: [usize; 2],
}

impl Memory {
    /// Tables of the rows that an input asks for, full of numbers that mean
    /// nothing.
    fn new(input: &Input) -> Memory {
        let (plan, lifted) = (input.plan, input.lifted);
        Memory {
            links: table(7, LINKS, plain::LINKS, plan),
            places: table(7, COORDINATES, plain::COORDINATES, plan),
            spans: table(7, SPAN_NUMBERS, plain::SPAN_NUMBERS, plan),
            work: table(7, WORK, plain::WORK, plan),
            lifted_links: table(7, LINKS, plain::LINKS, lifted),
            lifted_places: table(7, COORDINATES, plain::COORDINATES, lifted),
            lifted_objects: vec![7; OBJECTS * lifted],
            lifted_work: table(7, WORK, plain::WORK, lifted),
            replies: vec![7; REPLY_BYTES * input.list.commands],
            rows: [plan, lifted],
        }
    }

    fn proved(&mut self, bytes: &[u8]) -> Ended {
        let [rows, lifted_rows] = self.rows;
        let mut plan = PlanMut::new(
            &mut self.links[..LINKS * rows],
            &mut self.places[..COORDINATES * rows],
            &mut self.spans[..SPAN_NUMBERS * rows],
            &mut self.work[..WORK * rows],
        );
        let mut lifted = LiftedMut::new(
            &mut self.lifted_links[..LINKS * lifted_rows],
            &mut self.lifted_places[..COORDINATES * lifted_rows],
            &mut self.lifted_objects,
            &mut self.lifted_work[..WORK * lifted_rows],
        );
        proved::run(bytes, &mut plan, &mut lifted, &mut self.replies)
    }

    fn plain(&mut self, bytes: &[u8]) -> plain::Ended {
        let [rows, lifted_rows] = self.rows;
        let mut plan = plain::PlanMut {
            links: &mut self.links[..plain::LINKS * rows],
            places: &mut self.places[..plain::COORDINATES * rows],
            spans: &mut self.spans[..plain::SPAN_NUMBERS * rows],
            work: &mut self.work[..plain::WORK * rows],
        };
        let mut lifted = plain::LiftedMut {
            links: &mut self.lifted_links[..plain::LINKS * lifted_rows],
            places: &mut self.lifted_places[..plain::COORDINATES * lifted_rows],
            work: &mut self.lifted_work[..plain::WORK * lifted_rows],
        };
        plain::run(bytes, &mut plan, &mut lifted, &mut self.replies)
    }

    /// Whether the plain run left the same maps in another one, but for the ends of
    /// spans, and the same replies.
    fn is_same(&self, plain: &Memory) -> bool {
        let links = |ours: &[u16], theirs: &[u16]| {
            is_same((ours, LINKS), (theirs, plain::LINKS), plain::LINKS)
        };
        let places = |ours: &[i32], theirs: &[i32]| {
            let (ours, theirs) = ((ours, COORDINATES), (theirs, plain::COORDINATES));
            is_same(ours, theirs, plain::COORDINATES)
        };
        let (ours, theirs) = (&self.spans, &plain.spans);
        self.replies == plain.replies
            && links(&self.links, &plain.links)
            && places(&self.places, &plain.places)
            && links(&self.lifted_links, &plain.lifted_links)
            && places(&self.lifted_places, &plain.lifted_places)
            && is_same((ours, SPAN_NUMBERS), (theirs, plain::SPAN_NUMBERS), 1)
    }
}

/// Both runs must end by 0, with all commands accepted, and leave the same.
fn agree(input: &Input) {
    let [mut proved, mut plain] = [(); 2].map(|()| Memory::new(input));
    let bytes = &input.list.bytes;
    let (ended, other) = (proved.proved(bytes), plain.plain(bytes));
    let wanted = (ACCEPTED, input.list.commands, 0);
    let is_wanted = (ended.number, ended.accepted, ended.refused) == wanted
        && (other.number, other.accepted, other.refused) == wanted
        && proved.is_same(&plain);
    assert!(is_wanted, "{}: {ended:?}, {other:?}", input.name);
}

/// Times an input and prints its line. A run without a byte is timed too, in
/// the same tables: it blanks them, and that is no command's time.
fn compare(input: &Input) {
    agree(input);
    let bytes = &input.list.bytes;
    let proved = |memory: &mut Memory| memory.proved(bytes).taken;
    let plain = |memory: &mut Memory| memory.plain(bytes).taken;
    let proved_blank = |memory: &mut Memory| memory.proved(&[]).taken;
    let plain_blank = |memory: &mut Memory| memory.plain(&[]).taken;
    let calls: [&dyn Fn(&mut Memory) -> usize; 4] = [&proved, &plain, &proved_blank, &plain_blank];
    let turns = turns(calls, &mut Memory::new(input), REPETITIONS);
    let best = |call: usize| turns.iter().map(|t| t[call]).fold(f64::MAX, f64::min);
    let [proved, plain, proved_blank, plain_blank] = [0, 1, 2, 3].map(best);
    let each = |run: f64, blank: f64| (run - blank) / input.list.commands as f64;
    let [proved_each, plain_each] = [each(proved, proved_blank), each(plain, plain_blank)];
    print_line([
        input.name.to_string(),
        input.plan.to_string(),
        input.lifted.to_string(),
        input.list.commands.to_string(),
        format!("{:.1}", proved / MICRO),
        format!("{:.1}", plain / MICRO),
        format!("{:.2}", proved / plain),
        format!("{:.1}", proved_blank / MICRO),
        format!("{:.1}", plain_blank / MICRO),
        format!("{proved_each:.1}"),
        format!("{plain_each:.1}"),
        format!("{:.2}", proved_each / plain_each),
    ]);
}

/// Prints the words of a line in columns: the name, then numbers.
fn print_line(words: [String; 12]) {
    let [name, numbers @ ..] = words;
    let numbers: String = numbers.iter().map(|word| format!("{word:>9}")).collect();
    println!("{name:33}{numbers}");
}

/// A face of 8,192 sides, with all its corners placed, and a span.
fn round() -> Build {
    let mut build = face(DARTS / 2);
    for corner in 0..DARTS / 2 {
        build.place(2 * corner, 0, corner);
    }
    build.span(0, 0, 1);
    build
}

/// Darts by themselves, each with as many spans as a row holds, from both ends
/// inwards.
fn full_rows() -> Build {
    let mut build = Build::new(1, ROWS);
    for dart in 0..ROWS {
        for turn in 0..SPANS as i32 {
            let inwards = turn / 2;
            let at = match turn % 2 {
                0 => inwards,
                _ => SPANS as i32 - 1 - inwards,
            };
            build.span(dart, 2 * at, 2 * at + 1);
        }
    }
    build
}

/// Two edges with a span each, lifted many times.
fn small_lifts() -> Build {
    let mut build = Build::new(1, 4);
    build.sew(0, 0, 1).sew(0, 2, 3).sew(1, 1, 2);
    build.span(0, 0, 3).span(2, 1, 5);
    for _ in 0..LIFTS {
        build.lift();
    }
    build
}

/// The lists that are timed.
fn inputs() -> [Input; 7] {
    let input = |name, list, plan, lifted| Input {
        name,
        list,
        plan,
        lifted,
    };
    let tower = fourteen_sides(3);
    [
        input("45 by 45 parcels", sheet(45, 45), DARTS, 0),
        input("face of 8,192 sides", round(), DARTS, 0),
        input("2,000 rows full of spans", full_rows(), DARTS, 0),
        input("100 lifts of 4 darts", small_lifts(), 4, 20),
        input("the same, 1,024 rows", small_lifts(), 1_024, 1_024),
        input("the same, 16,384 rows", small_lifts(), DARTS, DARTS),
        input("14-gon to dimension 5", tower, 1_344, 13_440),
    ]
}

fn main() {
    println!(
        "Best of {REPETITIONS}; same bytes and memory for both, not cleared between runs.\n\
         run: the whole run. blank: a run without a byte in the same tables, which blanks them.\n\
         command: the run less the blank one, for one command of the list.\n\
         ratio: proved to plain, of the run and of its commands."
    );
    let first = "- plan lifted - run run run blank blank command command command";
    let second = "- rows rows commands proved plain ratio proved plain proved plain ratio";
    let third = "- - - - us us - us us ns ns -";
    for line in [first, second, third] {
        let mut words = line.split(' ').map(|word| word.replace('-', ""));
        print_line([(); 12].map(|()| words.next().unwrap_or_default()));
    }
    for input in &inputs() {
        compare(input);
    }
}
