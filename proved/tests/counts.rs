//! The counts of all axes held against the reference, on seeded inputs: valid
//! and damaged, small and large, in memory that is too short, that just fits and
//! that is longer. Every table is lent with rubbish around it, and the memory is
//! compared whole afterwards.

mod common;

use common::lent::*;
use common::plans::*;
use laremban::{LiftedMut, LiftedTables, Refusal, Refused};
use proved::Answer;
use proved::maps::{grid, tower};
use reference::calls;
use reference::cases::{Case, Plan, write};
use reference::random::Random;
use reference::raws::*;
use reference::refusal::*;
use reference::widths::*;
use std::collections::BTreeMap;

/// How many calls are compared at least.
const INPUTS: usize = 100_000;

/// How often each kind of answer was met, by the memory and the refusal's number.
type Kinds = BTreeMap<(&'static str, u8), usize>;

const SHORT: &str = "one number too few";
const EXACT: &str = "just enough memory";
const OTHER: &str = "other memory";

/// The kinds that must be met: what the check refuses too, whatever the memory.
fn wanted_kinds() -> Vec<(&'static str, u8)> {
    let tables = [3, 4, 6, 7, 8, 9, 10, 11].map(|number| (OTHER, number));
    let room = [
        (SHORT, TOO_LARGE),
        (OTHER, TOO_LARGE),
        (EXACT, ACCEPTED),
        (OTHER, ACCEPTED),
        (SHORT, ROWS_DIFFER),
    ];
    [&tables[..], &room].concat()
}

/// Memory where so many numbers are needed: just enough, one fewer, one more,
/// none, plenty.
fn any_memory(random: &mut Random, needed: usize) -> Lent<u16> {
    let length = random.pick(&[needed, needed, needed - 1, needed + 1, 0, 40]);
    let table = litter_u16(random, length);
    lend16(random, &table)
}

/// What the crate has to tell for an answer of the reference.
fn result(answer: calls::Answer, memory: &[u16]) -> Result<Vec<u16>, Refused> {
    let faults = LINK_BEYOND..=ROWS_DIFFER;
    let dart = faults.contains(&answer.number).then_some(answer.value);
    match Refusal::from_number(answer.number) {
        None => Ok(memory[..answer.value].to_vec()),
        Some(refusal) => Err(Refused::new(refusal, dart.map(|dart| dart as u16))),
    }
}

/// What the reference tells for memory that is long enough.
fn told(plan: &Plan) -> Result<Vec<u16>, Refused> {
    let mut memory = [0; LINKS];
    let answer = calls::counts(&plan.raw(), &mut memory);
    result(answer, &memory)
}

/// The crate's maps: the plan, and the same links and places as a lifted map. A
/// map has a row for each dart, and a dimension; other tables make none.
fn compare_maps(lent: &mut LentPlan, plan: &Plan) {
    let wanted = told(plan);
    assert_eq!(laremban::counts(&mut lent.tables()), wanted);
    if matches!(
        calls::check(&plan.raw()).number,
        OUT_OF_RANGE | NO_SUCH_DART
    ) {
        return;
    }
    assert_eq!(lent.tables().map().counts(), wanted);
    let mut bare = plan.clone();
    bare.spans.fill(0);
    let (links, places) = (&mut plan.links.clone(), &mut plan.places.clone());
    let objects = &mut vec![7; OBJECTS * plan.count];
    let lifted = LiftedMut::new(links, places, objects, &mut []);
    let map = lifted.map(plan.dimension, plan.count);
    assert_eq!(map.counts(), told(&bare));
}

/// One call in work as it comes: proved and reference agree on the answer and on
/// the whole memory; of the tables nothing but work is written.
fn compare(random: &mut Random, plan: &Plan, met: &mut Kinds) {
    let mut lent = LentPlan::new(random, plan);
    let work = any_work(random, plan.count.min(DARTS), plan.work);
    lent.work = lend16(random, &work);
    let needed = usize::from(plan.dimension) + 1;
    let mut memory = any_memory(random, needed);
    let mut wanted = memory.part().to_vec();
    let answer = calls::counts(&plan.raw(), &mut wanted);
    let (number, value) = (answer.number, answer.value as u16);
    let proved = proved::counts(&mut lent.tables(), memory.part_mut());
    let written = if number == ACCEPTED { needed } else { 0 };
    let is_kept = memory.is_untouched_behind(written) && lent.is_untouched_but_work();
    assert!(
        proved == Answer { number, value } && memory.part() == wanted && is_kept,
        "proved {proved:?} with {:?}, the rest kept {is_kept}, wanted {answer:?} with {wanted:?}\n{}",
        memory.part(),
        write(&Case::check(plan.clone()))
    );
    compare_maps(&mut lent, plan);
    let kind = match wanted.len() {
        length if length + 1 == needed => SHORT,
        length if length == needed => EXACT,
        _ => OTHER,
    };
    *met.entry((kind, number)).or_default() += 1;
}

#[test]
fn counts_agree() {
    let random = &mut Random::new(21);
    let met = &mut Kinds::new();
    for (draw, share) in CHECKS {
        for _ in 0..INPUTS * share / 100 {
            let plan = draw(random);
            compare(random, &plan, met);
        }
    }
    let inputs: usize = met.values().sum();
    println!("counts: {inputs} inputs");
    assert!(inputs >= INPUTS);
    for kind in wanted_kinds() {
        let times = met.get(&kind).copied().unwrap_or(0);
        println!("  {times:6} {}: answered by {}", kind.0, kind.1);
        assert!(times >= INPUTS / 1_000, "{kind:?}: only {times} times");
    }
}

/// Maps about the most darts that a side may have, and one dart more.
#[test]
fn counts_of_large_maps_agree() {
    let random = &mut Random::new(5);
    let (met, flat) = (&mut Kinds::new(), grid(random, &[5, 5], 10));
    let maps = [
        grid(random, &[45, 45], 30),
        grid(random, &[1, 2, 1, 1, 2], 0),
        tower(random, flat),
    ];
    for map in maps {
        let plan = tables(random, &map);
        for _ in 0..6 {
            compare(random, &plan, met);
        }
    }
    let most = grid(random, &[DARTS / 2 + 1], 0);
    let mut plan = tables(random, &most);
    plan.count = DARTS + 1;
    compare(random, &plan, met);
    let accepted: usize = [SHORT, EXACT, OTHER]
        .iter()
        .map(|kind| met.get(&(kind, ACCEPTED)).copied().unwrap_or(0))
        .sum();
    println!("counts of large maps: {accepted} accepted of {met:?}");
    assert!(accepted >= 6);
}

/// A blank map has no dimension, and no map has more darts than a side.
#[test]
fn counts_of_a_map_that_is_none_are_refused() {
    let refused = |dimension, count| {
        let tables = LiftedTables::new(count);
        let told = tables.map(dimension, count).counts();
        told.map_err(|refused| refused.refusal)
    };
    assert_eq!(refused(0, 0), Err(Refusal::OutOfRange));
    assert_eq!(refused(1, 0), Ok(vec![0, 0]));
    assert_eq!(refused(1, DARTS + 1), Err(Refusal::NoSuchDart));
}
