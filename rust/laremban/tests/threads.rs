//! Calls on many threads at once: each gives what it gives alone.

use laremban::*;
use std::thread;

const THREADS: usize = 8;
const TURNS: usize = 200;

/// A face with so many sides and a span, which is lifted and counted.
fn face(sides: u16) -> Commands {
    let mut list = Commands::new();
    list.new_plan(2).darts(2 * usize::from(sides));
    for side in 0..sides {
        list.sew(0, 2 * side, 2 * side + 1);
    }
    for side in 0..sides {
        list.sew(1, 2 * side + 1, (2 * side + 2) % (2 * sides));
    }
    list.span(0, 0, 25).lift();
    for axis in 0..4 {
        list.count(Side::Lifted, axis);
    }
    list
}

/// Runs a list in tables of this thread's own. The values of the last five replies.
fn last_values(list: &Commands) -> Vec<u16> {
    let (mut plan, mut lifted) = (PlanTables::new(64), LiftedTables::new(400));
    let mut memory = list.reply_memory();
    let (p, l) = (&mut plan.lend(), &mut lifted.lend());
    let ended = run(list.bytes(), p, l, &mut memory);
    let replies = replies(&memory, ended).skip(ended.taken - 5);
    replies.map(|reply| reply.expect("a value")).collect()
}

#[test]
fn runs_at_once() {
    thread::scope(|scope| {
        for thread in 0..THREADS {
            let sides = 3 + thread as u16;
            let wanted = [12 * sides, 2 * sides, 3 * sides, sides + 2, 1];
            scope.spawn(move || {
                for _ in 0..TURNS {
                    assert_eq!(last_values(&face(sides)), wanted);
                }
            });
        }
    });
}

/// One plan is shared by all threads; each has a work of its own.
#[test]
fn calls_on_one_plan_at_once() {
    let mut tables = PlanTables::new(64);
    let list = face(14);
    let mut memory = list.reply_memory();
    let mut lifted = LiftedTables::new(400);
    let (p, l) = (&mut tables.lend(), &mut lifted.lend());
    assert_eq!(run(list.bytes(), p, l, &mut memory).refused, 0);
    let shared = &tables;
    let many = |axis, work: &mut [u16]| {
        let (links, places, spans) = (&shared.links, &shared.places, &shared.spans);
        cells(&mut Plan::new(links, places, spans, work, 2, 28), axis)
    };
    thread::scope(|scope| {
        for thread in 0..THREADS {
            scope.spawn(move || {
                let (axis, work) = (thread % 3, &mut [0; WORK * 28]);
                for _ in 0..TURNS {
                    assert_eq!(many(axis as u8, work), Ok([14, 14, 1][axis]));
                }
            });
        }
    });
}
