//! The proved code held against the reference, on seeded inputs: valid and
//! damaged, small and large, in tables of ragged lengths with rubbish wherever
//! nothing may look. Every table is lent with rubbish around it and compared
//! whole afterwards.

mod common;

use common::lent::*;
use common::plans::*;
use laremban::{COMMAND_NUMBERS as NUMBERS, Commands, Refusal, Refused, Side};
use proved::maps::{fan, grid, polygon, renumbered, tower};
use proved::{Answer, Looseness, Pairs};
use reference::calls;
use reference::cases::{Case, Plan, write};
use reference::command::{Command, Read, read};
use reference::join_tally::{Joins, RAW_OVERLAPS};
use reference::map::Map;
use reference::object_tally::Objects;
use reference::orbit::count_cells;
use reference::random::Random;
use reference::raws::*;
use reference::refusal::*;
use reference::span;
use reference::widths::*;
use std::collections::BTreeMap;

/// How many inputs the check, row and looseness, cells, decode, and pieces are
/// given at least.
const INPUTS: usize = 100_000;

// ---- Check ----

/// A call that is refused by a number; nothing for 0.
fn refused(number: u8, dart: Option<u16>) -> Option<Refused> {
    Refusal::from_number(number).map(|refusal| Refused::new(refusal, dart))
}

/// One check call: proved and reference agree, and nothing is written.
fn compare_check(random: &mut Random, plan: &Plan) -> u8 {
    let mut lent = LentPlan::new(random, plan);
    let calls::Answer { number, value } = calls::check(&plan.raw());
    let value = value as u16;
    let proved = proved::check(&lent.tables());
    let told = laremban::check(&lent.tables());
    let wanted = Answer { number, value };
    let dart = (LINK_BEYOND..=ROWS_DIFFER)
        .contains(&number)
        .then_some(value);
    let agree = proved == wanted && told.err() == refused(number, dart);
    assert!(
        agree && lent.is_untouched(),
        "proved {proved:?}, told {told:?}, untouched {}, wanted\n{}",
        lent.is_untouched(),
        write(&Case::check(plan.clone()))
    );
    number
}

#[test]
fn check_agrees() {
    let random = &mut Random::new(6);
    let mut met = [0; LAST as usize + 1];
    let (mut objects, mut joins) = (Objects::default(), Joins::default());
    for (draw, share) in CHECKS {
        for _ in 0..INPUTS * share / 100 {
            let plan = draw(random);
            let number = compare_check(random, &plan);
            met[usize::from(number)] += 1;
            objects.add_plan(&plan, number);
            joins.add_plan(&plan, number);
        }
    }
    println!("check: {} inputs", met.iter().sum::<usize>());
    for number in [ACCEPTED, 3, 4, 6, 7, 8, 9, 10, 11] {
        let times = met[usize::from(number)];
        println!("  {times:6} answered by {number}");
        assert!(times >= INPUTS / 100, "{number} is met only {times} times");
    }
    assert!(met.iter().sum::<usize>() >= INPUTS);
    let [high, low] = objects.bad;
    let [high_unused, low_unused] = objects.unused;
    let [of_one, of_two] = RAW_OVERLAPS;
    for (kind, times) in [
        (of_one, joins.times(of_one)),
        (of_two, joins.times(of_two)),
        ("refused for object 65536", high),
        ("refused for object -1", low),
        ("accepted with object 65536 that is not in use", high_unused),
        ("accepted with object -1 that is not in use", low_unused),
        ("accepted with object 65535", objects.greatest_held),
        ("refused for rows that differ in an object", objects.rows),
    ] {
        println!("  {times:6} {kind}");
        assert!(times >= INPUTS / 400, "{kind}: only {times} times");
    }
}

// ---- Row and looseness ----

/// A link table: that of a map, or rubbish of any length with many a dart's own
/// number in it.
fn any_links(random: &mut Random) -> Vec<u16> {
    if random.chance(30) {
        return sound(random).links;
    }
    let length = random.below(9 * LINKS);
    let mut links = litter_u16(random, length);
    for (at, link) in links.iter_mut().enumerate() {
        if random.chance(40) {
            *link = (at / LINKS) as u16;
        }
    }
    links
}

/// One looseness call on a table, against the reference.
fn compare_looseness(links: &[u16], dimension: u8, dart: usize) {
    let calls::Loose { number, bits, ones } = calls::looseness(links, dimension, dart);
    let wanted = Looseness { number, bits, ones };
    let proved = proved::looseness(links, dimension, dart);
    let told = laremban::looseness(links, dimension, dart);
    let told = told.map(|free| (free.bits, free.count));
    assert_eq!(told, refused(number, None).map_or(Ok((bits, ones)), Err));
    let small = &links[..links.len().min(100)];
    assert!(
        proved == wanted,
        "proved {proved:?}, wanted {wanted:?}: dimension {dimension} dart {dart} links {small:?}"
    );
}

/// One row call on tables, against the reference: memory that is too short
/// stays, other memory keeps what lies behind the row.
fn compare_row(plan: &[u16], lifted: &[u16], side: u8, dart: usize, out: &mut Lent<u16>) {
    let mut wanted = out.part().to_vec();
    let part = calls::row(plan, lifted, side, dart);
    let fits = part.len() <= wanted.len();
    let part = if fits { part } else { &[] };
    wanted[..part.len()].copy_from_slice(part);
    let written = proved::row(plan, lifted, side, dart, out.part_mut());
    if let Some(side) = Side::from_number(side) {
        let told = laremban::row(plan, lifted, side, dart);
        let wanted = calls::row(plan, lifted, side.number(), dart);
        assert_eq!(told.as_ref().map_or(&[][..], |row| row), wanted);
    }
    let agree = written == part.len() && out.part() == wanted;
    assert!(
        agree && out.is_untouched_behind(part.len()),
        "{written} written, wanted {part:?}: side {side} dart {dart} tables of {} and {}",
        plan.len(),
        lifted.len()
    );
}

/// Memory for a row: none, too little, enough, more.
fn any_out(random: &mut Random) -> Lent<u16> {
    let length = random.pick(&[0, 1, LINKS - 1, LINKS, LINKS, LINKS + 1, 2 * LINKS]);
    let table = litter_u16(random, length);
    lend16(random, &table)
}

fn any_side(random: &mut Random) -> u8 {
    match random.below(8) {
        0 => random.below(256) as u8,
        at => (at % 2) as u8,
    }
}

/// One looseness call and one row call on drawn tables.
fn compare_reads(random: &mut Random) {
    let (plan, lifted) = (any_links(random), any_links(random));
    let [plan, lifted] = [plan, lifted].map(|links| lend16(random, &links));
    let dimension = any_dimension(random);
    let dart = any_dart(random, plan.part().len() / LINKS);
    compare_looseness(plan.part(), dimension, dart);
    let side = any_side(random);
    let rows = [&plan, &lifted][usize::from(side == 1)].part().len() / LINKS;
    let dart = any_dart(random, rows);
    let out = &mut any_out(random);
    compare_row(plan.part(), lifted.part(), side, dart, out);
    assert!(plan.is_untouched_behind(0) && lifted.is_untouched_behind(0));
}

/// More rows than 16 bits count: dart 65,536 + e is not the link e.
fn compare_long_reads(random: &mut Random, times: usize) {
    let rows = 70_000;
    let links: Vec<u16> = (0..LINKS * rows + 5)
        .map(|at| (at / LINKS) as u16)
        .collect();
    let lent = lend16(random, &links);
    for _ in 0..times {
        let dart = random.between(65_530, rows + 2);
        compare_looseness(lent.part(), any_dimension(random), dart);
        let side = any_side(random);
        let out = &mut any_out(random);
        compare_row(&links[..7], lent.part(), side, dart, out);
    }
    assert!(lent.is_untouched_behind(0));
}

#[test]
fn row_and_looseness_agree() {
    let random = &mut Random::new(15);
    let long = 500;
    compare_long_reads(random, long);
    let drawn = INPUTS / 2 - long;
    for _ in 0..drawn {
        compare_reads(random);
    }
    for dimension in 0..=255 {
        compare_looseness(&[0; 2 * LINKS], dimension, 0);
    }
    println!("row and looseness: {} inputs", 2 * (long + drawn) + 256);
}

// ---- Decode ----

/// Bytes of any value, or such as the limits of signed numbers are made of.
fn any_bytes(random: &mut Random, length: usize) -> Vec<u8> {
    let at_limits = random.chance(30);
    let mut byte = || match at_limits {
        true => random.pick(&[0, 1, 0x7f, 0x80, 0xff]),
        false => random.below(256) as u8,
    };
    (0..length).map(|_| byte()).collect()
}

/// Some valid commands in a row.
fn any_stream(random: &mut Random) -> Vec<u8> {
    let mut stream = vec![];
    for _ in 0..random.between(1, 12) {
        let mut bytes = any_bytes(random, MOST_BYTES);
        bytes[0] = random.between(0x10, 0x1a) as u8;
        let end = read(&bytes, 0).next;
        stream.extend(&bytes[..end]);
    }
    stream
}

/// The longest command, 1A, has so many bytes.
const MOST_BYTES: usize = 13;

/// A command that was read, as the reference has it.
fn command_told(read: Result<laremban::Command, Refused>) -> Command {
    use laremban::Command as Told;
    let told = read.map(|command| match command {
        Told::New { dimension } => Command::New { dimension },
        Told::Dart => Command::Dart,
        Told::Sew { axis, a, b } => Command::Sew { axis, a, b },
        Told::Unsew { axis, a } => Command::Unsew { axis, a },
        Told::Place {
            dart,
            axis,
            coordinate,
        } => Command::Place {
            dart,
            axis,
            coordinate,
        },
        Told::Span { dart, lo, hi } => Command::Span { dart, lo, hi },
        Told::Clear { dart } => Command::Clear { dart },
        Told::Lift => Command::Lift,
        Told::Adopt => Command::Adopt,
        Told::Count { side, axis } => Command::Count { side, axis },
        Told::SpanOf {
            dart,
            lo,
            hi,
            object,
        } => Command::SpanOf {
            dart,
            lo,
            hi,
            object,
        },
        _ => panic!("a command that the reference has not: {command:?}"),
    });
    told.unwrap_or_else(|refused| Command::Unreadable {
        number: refused.refusal.number(),
    })
}

/// The numbers that tell a command: its byte and its operands.
fn numbers_of(command: Command) -> [i32; NUMBERS] {
    match command {
        Command::New { dimension } => [0x10, dimension.into(), 0, 0, 0],
        Command::Dart => [0x11, 0, 0, 0, 0],
        Command::Sew { axis, a, b } => [0x12, axis.into(), a.into(), b.into(), 0],
        Command::Unsew { axis, a } => [0x13, axis.into(), a.into(), 0, 0],
        Command::Place {
            dart,
            axis,
            coordinate,
        } => [0x14, dart.into(), axis.into(), coordinate, 0],
        Command::Span { dart, lo, hi } => [0x15, dart.into(), lo, hi, 0],
        Command::Clear { dart } => [0x16, dart.into(), 0, 0, 0],
        Command::Lift => [0x17, 0, 0, 0, 0],
        Command::Adopt => [0x18, 0, 0, 0, 0],
        Command::Count { side, axis } => [0x19, side.into(), axis.into(), 0, 0],
        Command::SpanOf {
            dart,
            lo,
            hi,
            object,
        } => [0x1a, dart.into(), lo, hi, object.into()],
        Command::Unreadable { number } => [0, number.into(), 0, 0, 0],
    }
}

/// How often each command was read, by its byte, and how often none could be,
/// by the refusal's number.
type Met = [usize; 0x1b];

/// One decode call, against the reference: memory that is too short stays,
/// other memory keeps what lies behind the numbers. The place after the command.
fn compare_decode(random: &mut Random, bytes: &[u8], at: usize, met: &mut Met) -> usize {
    let Read { command, next } = read(bytes, at);
    let numbers = numbers_of(command);
    let margins = [0; 2].map(|_: u8| any_bytes(random, MARGIN));
    let lent = Lent::new(margins, bytes);
    let length = random.pick(&[0, 1, NUMBERS - 1, NUMBERS, NUMBERS, NUMBERS + 1, 9]);
    let table = litter_i32(random, length);
    let mut out = lend32(random, &table);
    let mut wanted = table.clone();
    if length >= NUMBERS {
        wanted[..NUMBERS].copy_from_slice(&numbers);
    }
    let place = proved::decode(lent.part(), at, out.part_mut());
    let proved = laremban::decode(lent.part(), at);
    let told = command_told(proved.command);
    let agree = (told, proved.next) == (command, next) && place == next && out.part() == wanted;
    if let Ok(command) = proved.command {
        assert_eq!(Commands::new().push(command).bytes(), &bytes[at..next]);
    }
    assert!(
        agree && out.is_untouched_behind(length) && lent.is_untouched_behind(0),
        "proved {proved:?} and {place} with {:?}, wanted {command:?} and {next} with {wanted:?}: \
         at {at} of {bytes:?}",
        out.part()
    );
    match numbers {
        [0, number, ..] => met[number as usize] += 1,
        [byte, ..] => met[byte as usize] += 1,
    }
    next
}

/// Every first byte, alone and before all numbers of bytes up to one more than
/// any command has.
fn compare_first_bytes(random: &mut Random, met: &mut Met) {
    for first in 0..=255 {
        for length in 1..=MOST_BYTES + 1 {
            let mut bytes = any_bytes(random, length + 1);
            bytes[1] = first;
            compare_decode(random, &bytes[1..], 0, met);
            compare_decode(random, &bytes, 1, met);
        }
    }
}

/// A stream that is cut off anywhere, read from command to command as far as it
/// goes, and at a place past it.
fn compare_cut_stream(random: &mut Random, met: &mut Met) {
    let mut stream = any_stream(random);
    stream.truncate(random.below(stream.len() + 1));
    let mut at = 0;
    while at < stream.len() {
        at = compare_decode(random, &stream, at, met);
    }
    let end = stream.len();
    let past = match random.below(4) {
        0 => usize::MAX - random.below(MOST_BYTES + 1),
        1 => huge(random, end),
        _ => end + random.below(3),
    };
    compare_decode(random, &stream, past, met);
}

/// Rubbish, or a stream, at any place of it.
fn compare_any_place(random: &mut Random, met: &mut Met) {
    let length = random.below(3 * MOST_BYTES);
    let bytes = match random.below(2) {
        0 => any_bytes(random, length),
        _ => any_stream(random),
    };
    let at = random.below(bytes.len() + 1);
    compare_decode(random, &bytes, at, met);
}

#[test]
fn decode_agrees() {
    let random = &mut Random::new(25);
    let met = &mut Met::default();
    compare_first_bytes(random, met);
    while met.iter().sum::<usize>() < INPUTS {
        compare_cut_stream(random, met);
        compare_any_place(random, met);
    }
    println!("decode: {} inputs", met.iter().sum::<usize>());
    for kind in [UNKNOWN_COMMAND, CUT_SHORT].into_iter().chain(0x10..=0x1a) {
        let times = met[usize::from(kind)];
        println!("  {times:6} read as {kind:#x}");
        assert!(times >= INPUTS / 100, "{kind:#x} is met only {times} times");
    }
}

// ---- Cells ----

/// The cells of every axis of raw tables, and of axes that they lack, in work
/// that is not cleared in between. How many counts were compared.
fn compare_cells(random: &mut Random, plan: &Plan) -> usize {
    let mut lent = LentPlan::new(random, plan);
    let before = any_work(random, plan.count.min(DARTS), plan.work);
    lent.work = lend16(random, &before);
    let calls::Answer { number, value } = calls::check(&plan.raw());
    let axes: Vec<u8> = (0..=plan.dimension.min(8)).chain([9, u8::MAX]).collect();
    for &axis in &axes {
        let wanted = match number {
            ACCEPTED if axis > plan.dimension => (OUT_OF_RANGE, 0),
            ACCEPTED => (ACCEPTED, count_cells(&plan.raw().map(), axis.into())),
            _ => (number, value),
        };
        let wanted = Answer {
            number: wanted.0,
            value: wanted.1 as u16,
        };
        let proved = proved::cells(&mut lent.tables(), axis);
        assert!(
            proved == wanted,
            "axis {axis}: proved {proved:?}, wanted {wanted:?}, work {:?}\n{}",
            &before[..before.len().min(100)],
            write(&Case::check(plan.clone()))
        );
    }
    assert!(lent.is_untouched_but_work());
    axes.len()
}

#[test]
fn cells_agree() {
    let random = &mut Random::new(64);
    let mut compared = 0;
    while compared < INPUTS {
        let plan = match random.below(5) {
            0 => sound_larger(random),
            1 => random.pick(&CHECKS).0(random),
            _ => sound(random),
        };
        compared += compare_cells(random, &plan);
    }
    println!("cells: {compared} inputs");
}

// ---- Pieces ----

/// How often each kind of answer was met, by what it came from and a number:
/// that of the refusal, or how many pieces there are, where 2 stands for more.
type Kinds = BTreeMap<(&'static str, usize), usize>;

const TABLES: &str = "tables refused by";
const CALL: &str = "sound tables refused by";
const PIECES: &str = "pieces in memory";
const EXACT: &str = "pieces in just enough memory";
const SHORT: &str = "pieces with one number too few";
const JOINED: &str = "pieces, not the dart's own spans";

/// The kinds that must be met.
fn wanted_kinds() -> Vec<(&'static str, usize)> {
    let tables = [3, 4, 6, 7, 8, 9, 10, 11].map(|number| (TABLES, number));
    let call = [OUT_OF_RANGE, NO_SUCH_DART, TOO_LARGE].map(|number| (CALL, number.into()));
    let pieces = [0, 1, 2].map(|pieces| (PIECES, pieces));
    let limits = [(EXACT, 1), (EXACT, 2), (SHORT, 1), (SHORT, 2)];
    [&tables[..], &call, &pieces, &limits, &[(JOINED, 2)]].concat()
}

/// An axis: mostly one of the map, else the first one above, or the greatest.
fn any_axis(random: &mut Random, dimension: u8) -> u8 {
    match random.below(8) {
        0 => random.pick(&[dimension.saturating_add(1), u8::MAX]),
        _ => random.below(usize::from(dimension) + 1) as u8,
    }
}

/// Memory where so many numbers are needed: just enough, one fewer, one more,
/// none, plenty.
fn any_memory(random: &mut Random, needed: usize) -> Lent<i32> {
    let fewer = needed.saturating_sub(1);
    let plenty = 2 * needed + 30;
    let length = random.pick(&[needed, needed, fewer, needed + 1, 0, plenty]);
    let table = litter_i32(random, length);
    lend32(random, &table)
}

/// A pieces call.
struct PiecesCall<'a> {
    plan: &'a Plan,
    /// What the check answers for the plan's tables.
    checked: u8,
    dart: usize,
    axis: u8,
}

impl PiecesCall<'_> {
    /// How many pieces there are, and whether they are other than the spans of
    /// the dart's own row; nothing where there is no such cell.
    fn pieces(&self) -> Option<(usize, bool)> {
        let is_axis = self.axis <= self.plan.dimension;
        if self.checked != ACCEPTED || !is_axis || self.dart >= self.plan.count {
            return None;
        }
        let map = self.plan.raw().map();
        let pieces = span::pieces(&map, self.dart, self.axis.into());
        let ends = pieces.iter().map(|piece| (piece.lo, piece.hi));
        let own = map.row(self.dart).iter().map(|span| (span.lo, span.hi));
        Some((pieces.len(), !ends.eq(own)))
    }

    /// Proved and reference agree on the answer and on the whole memory; of the
    /// tables nothing but work is written.
    fn compare(&self, random: &mut Random, lent: &mut LentPlan, met: &mut Kinds) {
        let (plan, dart, axis) = (self.plan, self.dart, self.axis);
        let pieces = self.pieces();
        let needed = pieces.map_or(random.below(9), |(pieces, _)| 2 * pieces);
        let mut memory = any_memory(random, needed);
        let before = memory.part().to_vec();
        let mut wanted = before.clone();
        let (number, pairs) = calls::pieces(&plan.raw(), dart, axis, &mut wanted);
        let proved = proved::pieces(&mut lent.tables(), dart, axis, memory.part_mut());
        let mut again = before.clone();
        let told = laremban::pieces(&mut lent.tables(), dart, axis, &mut again);
        let result = match refused(number, None) {
            None => Ok(&wanted.as_chunks().0[..pairs]),
            Some(refused) => Err(refused),
        };
        let agree = proved == Pairs { number, pairs } && told == result;
        let is_kept = memory.is_untouched_behind(2 * pairs) && lent.is_untouched_but_work();
        assert!(
            agree && memory.part() == wanted && is_kept,
            "proved {proved:?} with {:?}, the rest kept {is_kept}, wanted\n{}",
            memory.part(),
            write(&Case::pieces(plan.clone(), dart, axis, before))
        );
        self.meet(number, pieces, wanted.len(), met);
    }

    /// Counts the kinds of an answer in memory of a given length.
    fn meet(&self, number: u8, pieces: Option<(usize, bool)>, length: usize, met: &mut Kinds) {
        let (pieces, is_joined) = pieces.unwrap_or((0, false));
        let few = pieces.min(2);
        let mut meet = |kind| *met.entry(kind).or_default() += 1;
        match number {
            ACCEPTED => meet((PIECES, few)),
            _ if self.checked == ACCEPTED => meet((CALL, number.into())),
            _ => meet((TABLES, number.into())),
        }
        if number == ACCEPTED && is_joined {
            meet((JOINED, few));
        }
        if number == ACCEPTED && length == 2 * pieces {
            meet((EXACT, few));
        }
        if number == TOO_LARGE && length + 1 == 2 * pieces {
            meet((SHORT, few));
        }
    }
}

/// Some pieces calls on the same tables, each in work as the one before left it.
fn compare_pieces(random: &mut Random, plan: &Plan, times: usize, met: &mut Kinds) {
    let lent = &mut LentPlan::new(random, plan);
    let checked = calls::check(&plan.raw()).number;
    for _ in 0..times {
        let call = PiecesCall {
            plan,
            checked,
            dart: any_dart(random, plan.count.min(DARTS)),
            axis: any_axis(random, plan.dimension),
        };
        call.compare(random, lent, met);
    }
}

#[test]
fn pieces_agrees() {
    let random = &mut Random::new(20);
    let met = &mut Kinds::new();
    let (mut inputs, times) = (0, 2);
    for (draw, share) in CHECKS {
        for _ in 0..INPUTS * share / 100 / times {
            let plan = draw(random);
            compare_pieces(random, &plan, times, met);
            inputs += times;
        }
    }
    println!("pieces: {inputs} inputs");
    assert!(inputs >= INPUTS);
    for (from, number) in wanted_kinds() {
        let times = met.get(&(from, number)).copied().unwrap_or(0);
        println!("  {times:6} {from} {number}");
        assert!(times >= INPUTS / 200, "{from} {number}: only {times} times");
    }
}

// ---- Large maps ----

/// Maps about the most darts that a side may have.
fn large_maps(random: &mut Random) -> Vec<Map> {
    let sheet = grid(random, &[32, 64], 0);
    let holes = grid(random, &[45, 45], 30);
    let mixed = renumbered(random, &holes);
    let boxes = grid(random, &[7, 7, 6], 10);
    let deep = grid(random, &[1, 2, 1, 1, 2], 0);
    let round = fan(random, 2_700);
    let long = polygon(random, DARTS / 2);
    let plan = grid(random, &[5, 5], 10);
    let solids = tower(random, plan);
    vec![sheet, holes, mixed, boxes, deep, round, long, solids]
}

/// One dart more than a side may have, though the tables have the rows.
fn one_too_many(random: &mut Random) -> Plan {
    let map = grid(random, &[DARTS / 2 + 1], 0);
    let mut plan = tables(random, &map);
    plan.count = DARTS + 1;
    plan
}

#[test]
fn large_maps_agree() {
    let random = &mut Random::new(16_384);
    let (mut checks, mut cells, mut pieces) = (0, 0, 0);
    for map in large_maps(random) {
        let plan = tables(random, &map);
        assert_eq!(compare_check(random, &plan), ACCEPTED);
        cells += compare_cells(random, &plan);
        compare_pieces(random, &plan, 8, &mut Kinds::new());
        pieces += 8;
        for _ in 0..12 {
            let mut damaged = plan.clone();
            overwrite(random, &mut damaged);
            compare_check(random, &damaged);
        }
        checks += 13;
    }
    let plan = one_too_many(random);
    assert_eq!(compare_check(random, &plan), NO_SUCH_DART);
    checks += 1;
    println!("large maps: {checks} checks, {cells} cells, {pieces} pieces");
}
