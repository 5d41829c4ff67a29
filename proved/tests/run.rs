//! The proved run held against the reference, on seeded lists of commands; and
//! what `liftrun` prints. All tables and the reply memory are lent with rubbish
//! in them and around them and compared whole afterwards.

use laremban::{Kind, TEXT_BYTES, decode, hex};
use proved::builds::{Build, face, fourteen_sides, sheet};
use proved::met::{Met, wanted};
use proved::runs::{LentRun, compare, replies};
use proved::{Answer, Ended, liftrun};
use reference::command::Command;
use reference::lists::{List, input, list};
use reference::print::printed;
use reference::random::Random;
use reference::refusal::*;
use reference::run::{After, Lengths, trace};
use reference::step::Room;
use reference::widths::*;
use std::collections::BTreeMap;

/// How many lists are run.
const LISTS: u64 = 20_000;
/// How often each kind has to be met.
const LEAST: usize = 40;
/// How many lists are asked for the kinds of their commands.
const KINDS: u64 = 2_000;
/// How many inputs `liftrun` is given.
const INPUTS: u64 = 700;

// ---- Drawn lists ----

#[test]
fn runs_agree() {
    let met = &mut Met::default();
    for seed in 0..LISTS {
        let random = &mut Random::new(!seed);
        if let Err(told) = compare(random, &list(seed), met) {
            panic!("list {seed}: {told}");
        }
    }
    println!("run: {} lists, {} commands", met.lists, met.commands);
    for kind in wanted() {
        let times = met.times(kind);
        let (word, number) = kind;
        println!("  {times:6} {word} {number}");
        assert!(times >= LEAST, "{word} {number}: only {times} times");
    }
}

/// What a command is there for, as the crate tells it, is what it does on paper:
/// whether it ever alters the plan, and the lifted map.
#[test]
fn kinds_tell_what_commands_alter() {
    let mut altered: BTreeMap<u8, (Kind, [bool; 2])> = BTreeMap::new();
    let small = |list: &List| list.needs.plan <= 60 && list.needs.lifted <= 300;
    for List { bytes, needs, .. } in (0..KINDS).map(list).filter(small) {
        let mut at = 0;
        for taken in trace(&bytes, needs.plan, needs.lifted, needs.reply) {
            let read = decode(&bytes, at);
            let byte = read.command.map_or(0, |_| bytes[at]);
            let (_, sides) = altered.entry(byte).or_insert((read.kind(), [false; 2]));
            sides[0] |= taken.plan != taken.plan_before;
            sides[1] |= taken.lifted != taken.lifted_before;
            at = read.next;
        }
    }
    for (byte, (kind, sides)) in &altered {
        let wanted = match kind {
            Kind::WritesPlan => [true, false],
            Kind::WritesLifted => [false, true],
            Kind::Looks | Kind::EndsRun => [false, false],
        };
        assert_eq!(*sides, wanted, "command {byte:#x}: {kind:?}");
    }
    // Eleven commands, and the unreadable one.
    assert!(altered.len() >= 12, "only {} commands", altered.len());
}

#[test]
fn a_seed_draws_the_same_list_again() {
    assert_eq!(list(7), list(7));
    assert_ne!(list(7).bytes, list(8).bytes);
}

// ---- Lists in given room ----

/// Tables with so many rows, and not a number more.
fn rows(plan: usize, lifted: usize) -> Lengths {
    Lengths {
        plan_links: LINKS * plan,
        plan_places: COORDINATES * plan,
        plan_spans: SPAN_NUMBERS * plan,
        plan_work: WORK * plan,
        lifted_links: LINKS * lifted,
        lifted_places: COORDINATES * lifted,
        lifted_objects: OBJECTS * lifted,
        lifted_work: WORK * lifted,
    }
}

/// A list in just so many rows and with so many bytes for replies.
fn list_in(bytes: &[u8], plan: usize, lifted: usize, reply: usize) -> List {
    List {
        bytes: bytes.to_vec(),
        needs: Room::new(plan, lifted, reply),
        lengths: rows(plan, lifted),
        reply,
    }
}

/// Runs a list that has been built, with reply memory for each command, and
/// compares it. Its replies.
fn replied(build: &Build, plan: usize, lifted: usize) -> Vec<Answer> {
    let random = &mut Random::new(build.commands as u64);
    let list = list_in(&build.bytes, plan, lifted, REPLY_BYTES * build.commands);
    let after = match compare(random, &list, &mut Met::default()) {
        Ok(after) => after,
        Err(told) => panic!("{}", told.chars().take(2_000).collect::<String>()),
    };
    assert_eq!((after.number, after.taken), (ACCEPTED, build.commands));
    let answers = replies(&after.reply, after.taken);
    let told = laremban::replies(&after.reply, ended(&after));
    let wanted = answers.iter().map(|answer| answer.result());
    assert!(told.eq(wanted));
    answers
}

/// How a run ended, as the library tells it.
fn ended(after: &After) -> Ended {
    Ended {
        number: after.number,
        taken: after.taken,
        accepted: after.accepted,
        refused: after.refused,
    }
}

/// The values of the last replies, which must be those of accepted commands.
fn last_values(replies: &[Answer], many: usize) -> Vec<u16> {
    let last = &replies[replies.len() - many..];
    let values: Result<Vec<u16>, _> = last.iter().map(|reply| reply.result()).collect();
    values.expect("commands that are accepted")
}

#[test]
fn fourteen_sides_lifted_twice() {
    let mut build = fourteen_sides(2);
    build.count(1, 4);
    let replies = replied(&build, 168, 1_344);
    assert!(replies.iter().all(|reply| reply.number == ACCEPTED));
    let values = last_values(&replies, 9);
    assert_eq!(values, [168, 168, 168, 1_344, 56, 112, 74, 18, 1]);
    for (plan, lifted, number) in [(168, 1_343, TOO_LARGE), (167, 1_344, PLAN_FULL)] {
        let replies = replied(&build, plan, lifted);
        assert!(replies.iter().any(|reply| reply.number == number));
    }
}

/// The building of documents 000 and 001, up to dimension 5.
#[test]
fn fourteen_sides_to_dimension_five() {
    let mut build = fourteen_sides(3);
    build.count(1, 5).say(Command::Adopt).lift();
    let replies = replied(&build, 1_344, 13_440);
    let number = replies[replies.len() - 2].number;
    assert_eq!(number, PLAN_FULL);
    let values = last_values(&replies[..replies.len() - 2], 7);
    assert_eq!(values, [13_440, 112, 280, 260, 110, 20, 1]);
}

/// What a list leaves, in rows to spare but for the objects, of which there are so
/// many.
fn left(build: &Build, objects: usize) -> After {
    let random = &mut Random::new(objects as u64);
    let mut list = list_in(&build.bytes, 60, 60, REPLY_BYTES * build.commands);
    list.lengths.lifted_objects = OBJECTS * objects;
    match compare(random, &list, &mut Met::default()) {
        Ok(after) => after,
        Err(told) => panic!("{told}"),
    }
}

/// E3 with two objects: an edge with spans that touch, lifted.
fn two_owners() -> Build {
    let mut build = Build::new(1, 2);
    build.sew(0, 0, 1).span_of(0, 0, 2, 7).span_of(1, 2, 5, 9);
    build.lift();
    build
}

#[test]
fn lifted_darts_carry_objects() {
    let owners = [7, 7, 9, 9].repeat(4);
    assert_eq!(left(&two_owners(), 16).lifted_objects, owners);
    let short = left(&two_owners(), 15);
    assert_eq!((short.refused, short.lifted_objects), (1, vec![0; 15]));
    // A lift that is refused, and edits, leave them.
    let mut refused = two_owners();
    refused
        .span_of(0, 6, 7, 3)
        .lift()
        .say(Command::Clear { dart: 0 });
    let after = left(&refused, 17);
    assert_eq!(
        (after.refused, &after.lifted_objects[..16]),
        (1, &owners[..])
    );
    // A smaller lift leaves none behind it.
    let mut smaller = two_owners();
    smaller
        .say(Command::Clear { dart: 0 })
        .span_of(0, 0, 1, 4)
        .lift();
    let wanted = [[4; 8], [0; 8]].concat();
    assert_eq!(left(&smaller, 16).lifted_objects, wanted);
}

/// Of a lift's objects ADOPT takes none, and a lift of the adopted plan carries
/// those of its own spans.
#[test]
fn adopting_takes_no_object() {
    let mut build = Build::new(1, 1);
    build.span_of(0, 0, 2, 7).lift().say(Command::Adopt);
    assert_eq!(left(&build, 60).lifted_objects[..5], [7, 7, 7, 7, 0]);
    for object in [0, 9, u16::MAX] {
        let mut again = build.clone();
        again.span_of(0, 0, 2, object).lift();
        let after = left(&again, 60);
        assert_eq!(after.lifted_objects[..24], [object; 24]);
        assert_eq!(after.lifted_objects[24..], [0; 36]);
    }
}

/// Rows that differ in an object alone are sewn along the top axis, and along no
/// other.
#[test]
fn strangers_are_not_sewn() {
    for (other, axis, number) in [(8, 0, PAIR_DISAGREES), (7, 0, ACCEPTED), (8, 1, ACCEPTED)] {
        let mut build = Build::new(1, 2);
        build.span_of(0, 0, 3, 7).span_of(1, 0, 3, other);
        build.sew(axis, 0, 1);
        let replies = replied(&build, 2, 0);
        assert_eq!(replies.last().map(|reply| reply.number), Some(number));
    }
}

/// A twist in space: the partners of dart 0 hold its neighbour as well, and each
/// of the four is freed once.
#[test]
fn a_twist_is_freed_once() {
    let mut build = Build::new(3, 4);
    for (axis, a, b) in [(0, 0, 1), (0, 2, 3), (2, 0, 2), (3, 0, 3)] {
        build.sew(axis, a, b);
    }
    build.say(Command::Unsew { axis: 0, a: 0 });
    assert_eq!(last_values(&replied(&build, 4, 0), 1), [4]);
}

/// Plans that fill a side, or nearly, in as many rows as a side may have and in
/// more.
#[test]
fn large_runs_agree() {
    let mut parcels = sheet(45, 45);
    parcels.count(0, 2).lift();
    let replies = replied(&parcels, DARTS, DARTS);
    assert_eq!(replies.last().map(|reply| reply.number), Some(TOO_LARGE));
    let cells = last_values(&replies[..replies.len() - 1], 3);
    assert_eq!(cells, [46 * 46, 2 * 45 * 46, 45 * 45]);

    let mut round = face(DARTS / 2);
    round.span(5, -1, 1).place(9, 1, 7).count(0, 2);
    round.say(Command::Dart);
    let replies = replied(&round, DARTS + 3, 1);
    assert_eq!(replies.last().map(|reply| reply.number), Some(PLAN_FULL));
    let values = last_values(&replies[..replies.len() - 1], 5);
    assert_eq!(values, [16_384, 2, 8_192, 8_192, 1]);

    let mut lifted = sheet(12, 12);
    lifted.lift().count(1, 3).say(Command::Clear { dart: 8 });
    lifted.lift().say(Command::Adopt).count(0, 3);
    replied(&lifted, DARTS, DARTS);
}

/// More commands than 16 bits count.
#[test]
fn a_long_list_is_counted() {
    let mut build = Build::default();
    for _ in 0..70_000 {
        build.lift();
    }
    let replies = replied(&build, 1, 1);
    assert!(replies.iter().all(|reply| reply.number == NO_PLAN));
}

// ---- The program ----

/// What `liftrun` writes for these bytes. Memory that is too short stays, other
/// memory keeps what lies behind the text.
fn text(random: &mut Random, bytes: &[u8]) -> String {
    let more = random.pick(&[0, 0, 1, 700]);
    let before: Vec<u8> = (0..TEXT_BYTES + more)
        .map(|_| random.bits() as u8)
        .collect();
    let mut short = before[..TEXT_BYTES - 1 - more].to_vec();
    assert_eq!(liftrun(bytes, &mut short), 0);
    assert!(short == before[..short.len()]);
    let mut out = before.clone();
    let length = liftrun(bytes, &mut out);
    assert!(out[length..] == before[length..], "written past the text");
    let text = String::from_utf8(out[..length].to_vec()).expect("a text");
    assert!(laremban::liftrun(bytes) == text);
    text
}

#[test]
fn e1_prints_nine_lines() {
    let mut build = Build::new(1, 2);
    build.sew(0, 0, 1).place(1, 0, 4).span(0, 0, 3).lift();
    build.say(Command::Count { side: 1, axis: 0 });
    let bytes = [
        0x10, 1, 0x11, 0x11, 0x12, 0, 0, 0, 0, 1, 0x14, 0, 1, 0, 0, 0, 0, 4, 0x15, 0, 0, 0, 0, 0,
        0, 0, 0, 0, 3, 0x17, 0x19, 1, 0,
    ];
    assert_eq!(build.bytes, bytes);
    let wanted = "0 0\n0 0\n0 1\n0 2\n0 1\n0 2\n0 8\n0 4\nend 0 8 8 0\n";
    assert_eq!(text(&mut Random::new(1), &bytes), wanted);
}

/// The example of the README prints what is stored beside it.
#[test]
fn the_example_prints_what_is_stored() {
    let text_of = include_str!("../../examples/two_parcels.hex");
    let wanted = include_str!("../../examples/two_parcels.out");
    let bytes = hex::bytes(text_of).expect("hexadecimal");
    assert_eq!(printed(&bytes), wanted);
    assert_eq!(text(&mut Random::new(5), &bytes), wanted);
}

#[test]
fn no_input_prints_its_end() {
    assert_eq!(text(&mut Random::new(2), &[]), "end 0 0 0 0\n");
    assert_eq!(liftrun(&[], &mut []), 0);
}

/// The longest input that is run, and the first that is not: as many commands as
/// there is reply memory for, or one that is cut short.
#[test]
fn the_longest_inputs() {
    let random = &mut Random::new(3);
    for bytes in [0x11, 0x00, 0x12, 0x17].map(|byte| vec![byte; PROGRAM_BYTES + 1]) {
        assert_eq!(text(random, &bytes), "long\n");
        let longest = &bytes[..PROGRAM_BYTES];
        assert_eq!(text(random, longest), printed(longest));
    }
    let full = text(random, &[0x11; PROGRAM_BYTES]);
    assert!(full.ends_with("12 0\nend 23 1024 0 1024\n"));
    assert_eq!(full.lines().count(), 1_025);
}

#[test]
fn liftrun_agrees() {
    let mut ends = [0; LAST as usize + 1];
    let mut long = 0;
    for seed in 0..INPUTS {
        let bytes = input(seed);
        let wanted = printed(&bytes);
        let found = text(&mut Random::new(seed), &bytes);
        assert!(found == wanted, "input {seed}: {found}\nwanted {wanted}");
        let end = wanted.lines().last().unwrap_or_default();
        match end
            .split(' ')
            .nth(1)
            .and_then(|word| word.parse::<usize>().ok())
        {
            Some(number) => ends[number] += 1,
            None => long += 1,
        }
    }
    println!("liftrun: {INPUTS} inputs, {long} too long, ends {ends:?}");
    for number in [ACCEPTED, UNKNOWN_COMMAND, CUT_SHORT, REPLIES_FULL] {
        assert!(ends[usize::from(number)] >= 10, "hardly an end by {number}");
    }
    assert!(long >= 10, "hardly an input that is too long");
}

/// What was lent for a run can be lent again as it is: the second run blanks
/// what the first left.
#[test]
fn a_run_blanks_what_the_one_before_left() {
    let mut build = face(14);
    build.span_of(0, 0, 25, u16::MAX).lift();
    let lengths = rows(40, 200);
    let lent = &mut LentRun::new(&mut Random::new(4), &build.bytes, lengths, 300);
    let first = lent.call();
    let tables = lent.clone();
    assert_eq!((first.number, first.refused), (ACCEPTED, 0));
    assert_eq!(lent.call(), first);
    assert!(lent.links.part() == tables.links.part());
    assert!(lent.lifted_places.part() == tables.lifted_places.part());
    let objects = lent.lifted_objects.part();
    assert!(objects[..168] == [u16::MAX; 168] && objects[168..] == [0; 32]);
    lent.bytes.part_mut().fill(0);
    let second = lent.call();
    assert_eq!((second.number, second.taken), (UNKNOWN_COMMAND, 1));
    let is_blank = |table: &[u16]| table.iter().all(|&number| number == 0);
    assert!(is_blank(lent.links.part()) && is_blank(lent.lifted_links.part()));
    assert!(is_blank(lent.lifted_objects.part()));
}
