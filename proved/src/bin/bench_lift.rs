//! Times the proved lift against the same in plain Rust and against a loop that
//! only writes tables of the same size.

use proved::maps::{grid, interleaved, polygon, wedges, with_rows};
use proved::timing::{Input, is_same, median, table, turns};
use proved::{LiftedMut, check, plain};
use reference::lift::lift;
use reference::map::{Map, Span};
use reference::random::Random;
use reference::refusal::*;
use reference::widths::*;

/// How many turns there are; the median counts.
const REPETITIONS: usize = 41;
/// Nanoseconds in a microsecond.
const MICRO: f64 = 1_000.0;

/// The memory that a lift writes to: both works, and the lifted tables.
struct Memory {
    work: Vec<u16>,
    lifted_links: Vec<u16>,
    lifted_places: Vec<i32>,
    /// The proved lift's alone: the plain one carries no objects.
    lifted_objects: Vec<u16>,
    lifted_work: Vec<u16>,
    darts: usize,
}

impl Memory {
    /// Room for exactly so many lifted darts.
    fn new(input: &Input, darts: usize) -> Memory {
        Memory {
            work: input.work(),
            lifted_links: table(0, LINKS, plain::LINKS, darts),
            lifted_places: table(0, COORDINATES, plain::COORDINATES, darts),
            lifted_objects: vec![0; OBJECTS * darts],
            lifted_work: table(0, WORK, plain::WORK, darts),
            darts,
        }
    }

    /// The plan's work, and the lifted side.
    fn parts(&mut self) -> (&mut [u16], LiftedMut<'_>) {
        let lifted = LiftedMut::new(
            &mut self.lifted_links[..LINKS * self.darts],
            &mut self.lifted_places[..COORDINATES * self.darts],
            &mut self.lifted_objects,
            &mut self.lifted_work[..WORK * self.darts],
        );
        (&mut self.work, lifted)
    }

    /// The same for the plain call.
    fn plain_parts(&mut self) -> (&mut [u16], plain::LiftedMut<'_>) {
        let lifted = plain::LiftedMut {
            links: &mut self.lifted_links[..plain::LINKS * self.darts],
            places: &mut self.lifted_places[..plain::COORDINATES * self.darts],
            work: &mut self.lifted_work[..plain::WORK * self.darts],
        };
        (&mut self.work, lifted)
    }

    /// Writes rows of all lifted darts that mean nothing.
    fn write(&mut self) -> usize {
        let links = self.lifted_links.as_chunks_mut::<LINKS>().0;
        let places = self.lifted_places.as_chunks_mut::<COORDINATES>().0;
        for (x, (links, places)) in links.iter_mut().zip(places).enumerate() {
            *links = [x as u16; LINKS];
            *places = [0, 0, x as i32, 0, 0];
        }
        for (x, object) in self.lifted_objects.iter_mut().enumerate() {
            *object = x as u16;
        }
        self.lifted_links.len()
    }
}

fn proved_call(input: &Input, memory: &mut Memory) -> plain::Answer {
    let (work, mut lifted) = memory.parts();
    let proved::Answer { number, value } = proved::lift(&mut input.tables(work), &mut lifted);
    plain::Answer { number, value }
}

fn plain_call(input: &Input, memory: &mut Memory) -> plain::Answer {
    let (work, mut lifted) = memory.plain_parts();
    plain::lift(&mut input.plain_tables(work), &mut lifted)
}

/// Times of one turn in nanoseconds.
struct Turn {
    proved: f64,
    plain: f64,
    proved_check: f64,
    plain_check: f64,
    plain_lift: f64,
    write: f64,
}

impl Turn {
    /// The proved lift has no call without its check.
    fn proved_lift(&self) -> f64 {
        self.proved - self.proved_check
    }
}

/// Times everything on a plan, turn by turn.
fn timed(input: &Input, memory: &mut Memory) -> Vec<Turn> {
    let proved = |memory: &mut Memory| proved_call(input, memory).value.into();
    let plain = |memory: &mut Memory| plain_call(input, memory).value.into();
    let proved_check = |memory: &mut Memory| check(&input.tables(&mut memory.work)).number.into();
    let plain_check = |memory: &mut Memory| {
        plain::check(&input.plain_tables(&mut memory.work))
            .number
            .into()
    };
    let lift_alone = |memory: &mut Memory| {
        let (work, mut lifted) = memory.plain_parts();
        plain::lift::lift_checked(&mut input.plain_tables(work), &mut lifted).unwrap_or(0)
    };
    let calls: [&dyn Fn(&mut Memory) -> usize; 6] = [
        &proved,
        &proved_check,
        &plain,
        &plain_check,
        &lift_alone,
        &Memory::write,
    ];
    let turn = |[proved, proved_check, plain, plain_check, plain_lift, write]: [f64; 6]| Turn {
        proved,
        plain,
        proved_check,
        plain_check,
        plain_lift,
        write,
    };
    let turns = turns(calls, memory, REPETITIONS);
    turns.into_iter().map(turn).collect()
}

/// The answer to both calls in room for so many darts, which must write the
/// same.
fn agreed(input: &Input, darts: usize) -> plain::Answer {
    let [mut proved, mut plain] = [(); 2].map(|()| Memory::new(input, darts));
    let answers = [
        proved_call(input, &mut proved),
        plain_call(input, &mut plain),
    ];
    let links = (&proved.lifted_links[..], LINKS);
    let places = (&proved.lifted_places[..], COORDINATES);
    let agree = answers[0] == answers[1]
        && is_same(links, (&plain.lifted_links, plain::LINKS), plain::LINKS)
        && is_same(
            places,
            (&plain.lifted_places, plain::COORDINATES),
            plain::COORDINATES,
        );
    assert!(agree, "{}: {answers:?}", input.name);
    answers[0]
}

/// Times a plan in just enough room and prints its line, by lifted dart or,
/// where the lift is refused, by plan dart.
fn compare(input: &Input) {
    let answer = agreed(input, DARTS);
    let lifted = usize::from(answer.value);
    let (darts, told, each) = match answer.number {
        ACCEPTED => (lifted, lifted.to_string(), lifted as f64),
        _ => (DARTS, "refused".to_string(), input.count as f64),
    };
    assert_eq!(agreed(input, darts), answer, "{}", input.name);
    let turns = timed(input, &mut Memory::new(input, darts));
    let number = |of: fn(&Turn) -> f64, one: f64, digits: usize| {
        format!("{:.digits$}", median(turns.iter().map(of)) / one)
    };
    print_line([
        input.name.to_string(),
        input.count.to_string(),
        told,
        number(|t| t.proved, MICRO, 1),
        number(|t| t.plain, MICRO, 1),
        number(|t| t.write, MICRO, 1),
        number(|t| t.proved, each, 2),
        number(|t| t.plain, each, 2),
        number(|t| t.write, each, 2),
        number(|t| t.proved / t.plain, 1.0, 2),
        number(|t| t.proved_check, MICRO, 1),
        number(|t| t.plain_check, MICRO, 1),
        number(|t| t.proved_lift(), MICRO, 1),
        number(|t| t.plain_lift, MICRO, 1),
        number(|t| t.proved_lift() / t.plain_lift, 1.0, 2),
    ]);
}

/// Prints the words of a line in columns: the name, then numbers.
fn print_line(words: [String; 15]) {
    let [name, numbers @ ..] = words;
    let numbers: String = numbers.iter().map(|word| format!("{word:>9}")).collect();
    println!("{name:27}{numbers}");
}

/// The lift of a map that has one.
fn lifted(map: &Map) -> Map {
    lift(map, DARTS)
        .expect("a plan that is lifted again has a lift")
        .map
}

/// A span of the object that a cell is, by the cell's number.
fn span(lo: i32, hi: i32, cell: usize) -> Span {
    let object = cell as u16 + 1;
    Span { lo, hi, object }
}

/// Every cell from one height to another.
fn all(lo: i32, hi: i32) -> impl Fn(usize) -> Vec<Span> {
    move |cell| vec![span(lo, hi, cell)]
}

/// Eight short spans for a wedge of a fan; each second one reaches into the
/// first of the next wedge.
fn short_spans(wedge: usize) -> Vec<Span> {
    let length = if wedge.is_multiple_of(2) { 50 } else { 30 };
    let short = |at: usize| {
        let lo = (10_000 * at + 40 * wedge) as i32;
        span(lo, lo + length, SPANS * wedge + at)
    };
    (0..SPANS).map(short).collect()
}

/// A span for each wedge of a fan, inside that of the wedge before it.
fn nested(wedge: usize) -> Vec<Span> {
    let lo = wedge as i32;
    vec![span(lo, 1_000 - lo, wedge)]
}

/// Every sixth parcel of a sheet is built on.
fn sparse(parcel: usize) -> Vec<Span> {
    vec![span(0, 25, parcel); usize::from(parcel.is_multiple_of(6))]
}

/// The plans that are timed.
fn inputs() -> Vec<Input> {
    let random = &mut Random::new(1);
    let face = with_rows(polygon(random, 14), all(0, 25));
    let solid = with_rows(lifted(&face), all(1960, 2060));
    let years = with_rows(lifted(&solid), all(1, 5));
    let sheet = with_rows(grid(random, &[12, 12], 0), |c| interleaved(12, c));
    let round = with_rows(wedges(100), short_spans);
    let small = with_rows(grid(random, &[3, 3], 0), |c| interleaved(3, c));
    let twice = with_rows(lifted(&small), |c| interleaved(3, c));
    let inside = with_rows(wedges(52), nested);
    let built = with_rows(grid(random, &[45, 45], 0), sparse);
    let large = with_rows(grid(random, &[45, 45], 0), |c| interleaved(45, c));
    vec![
        Input::new("14-gon to dimension 3", &face),
        Input::new("14-gon to dimension 4", &solid),
        Input::new("14-gon to dimension 5", &years),
        Input::new("12 by 12, interleaved", &sheet),
        Input::new("100 wedges, 8 spans each", &round),
        Input::new("52 nested wedges", &inside),
        Input::new("45 by 45, a sixth built on", &built),
        Input::new("3 by 3, interleaved", &small),
        Input::new("the same, lifted again", &twice),
        Input::new("45 by 45, too large", &large),
    ]
}

fn main() {
    println!(
        "Medians of {REPETITIONS} turns, of the ratios too; same input and memory for all, not \
         cleared between runs.\n\
         call: the lift call, proved and plain, each with its check of the plan; us and ns.\n\
         write: a loop that only writes tables of the same size.\n\
         ns: for a lifted dart; where the lift is refused by 20, for a plan dart.\n\
         check: the check call alone. lift: the plain lift without a check; the proved call less \
         a proved check call.\n\
         ratio: proved to plain, of the call and of the lift."
    );
    let first = "- plan lifted call call write call call write call check check lift lift lift";
    let second =
        "- darts darts proved plain loop proved plain loop ratio proved plain proved plain ratio";
    let third = "- - - us us us ns ns ns - us us us us -";
    for line in [first, second, third] {
        let mut words = line.split(' ').map(|word| word.replace('-', ""));
        print_line([(); 15].map(|()| words.next().unwrap_or_default()));
    }
    for input in inputs() {
        compare(&input);
    }
}
