//! Lists of commands of any size with what is lent to them, each from a seed of
//! its own: for those that follow a run quickly.

use crate::draw::lengths;
use crate::long_scenes::*;
use crate::random::Random;
use crate::run::{Lengths, follow};
use crate::sketch::{Limits, Sketch};
use crate::step::Room;
use crate::widths::*;

/// A list of commands, and what is lent to its run.
#[derive(Clone, Debug, PartialEq, Eq)]
pub struct List {
    pub bytes: Vec<u8>,
    /// What it needs: the most darts of both sides and the bytes of all its
    /// replies, in the room in which it was drawn.
    pub needs: Room,
    pub lengths: Lengths,
    pub reply: usize,
}

impl List {
    /// The room that the run finds.
    pub fn room(&self) -> Room {
        let (plan, lifted) = (self.lengths.plan_capacity(), self.lengths.lifted_capacity());
        Room::new(plan, lifted, self.reply)
    }
}

/// A scene, how large it may get, and its share.
type Share = (fn(&mut Sketch), Limits, usize);

const fn limits(plan: usize, lifted: usize, commands: usize) -> Limits {
    Limits {
        plan,
        lifted,
        commands,
    }
}

/// The lists by scene.
const LISTS: [Share; 13] = [
    (one_scene, Limits::SMALL, 200),
    (before_a_plan, Limits::SMALL, 60),
    (scene_by_scene, limits(40, 200, 160), 180),
    (storm, limits(30, 150, 120), 110),
    (twins, limits(100, 400, 400), 120),
    (twins, limits(400, 800, 900), 12),
    (to_the_top, limits(100, 200, 300), 90),
    (twists, limits(60, 400, 200), 50),
    (ebb, limits(30, 200, 120), 90),
    (many_darts, limits(2_500, 2_500, 1_500), 6),
    (long_list, limits(12, 60, 1_300), 12),
    (any_bytes, Limits::SMALL, 40),
    (garbled, limits(30, 150, 120), 30),
];

/// The list of a seed.
pub fn list(seed: u64) -> List {
    let random = &mut Random::new(seed);
    let (bytes, needs) = drawn(random);
    let plan = any_rows(random, needs.plan);
    let lifted = any_rows(random, needs.lifted);
    let reply = any_reply(random, needs.reply);
    List {
        bytes,
        needs,
        lengths: lengths(random, plan, lifted),
        reply,
    }
}

/// An input of the program: the list of a seed, now and then with more commands
/// behind it than there is reply memory for, or than are run.
pub fn input(seed: u64) -> Vec<u8> {
    let random = &mut Random::new(seed);
    let mut bytes = list(seed).bytes;
    if random.chance(15) {
        let more = random.pick(&[1_000, 1_024, 1_100, PROGRAM_BYTES]);
        bytes.extend(vec![0x11; more]);
    }
    bytes
}

/// A scene by its share, and what it needs.
fn drawn(random: &mut Random) -> (Vec<u8>, Room) {
    let (scene, limits, _) = LISTS[random.share(&LISTS.map(|(_, _, times)| times))];
    let mut sketch = Sketch::within(random, limits);
    scene(&mut sketch);
    let needs = needs(&sketch.bytes, limits);
    (sketch.bytes, needs)
}

/// What a list needs that is drawn within limits.
fn needs(bytes: &[u8], limits: Limits) -> Room {
    let (mut plan, mut lifted) = (0, 0);
    let room = Room::new(limits.plan, limits.lifted, usize::MAX);
    let ended = follow(bytes, room, |_, _, paper| {
        plan = plan.max(paper.plan.count());
        lifted = lifted.max(paper.lifted.map.count());
    });
    Room {
        plan,
        lifted,
        reply: REPLY_BYTES * ended.taken,
    }
}

/// Rows for a side that needs so many: just enough, one too few, more, fewer,
/// none, and now and then as many as a side may have, or more.
fn any_rows(random: &mut Random, need: usize) -> usize {
    match random.below(200) {
        0..=69 => need,
        70..=99 => need.saturating_sub(1),
        100..=124 => random.below(need + 1),
        125..=130 => 0,
        131..=132 => random.pick(&[DARTS - 1, DARTS, DARTS + 1, DARTS + 9]),
        _ => need + random.between(1, 9),
    }
}

/// Reply memory where so many bytes are needed: just enough, too little for the
/// last reply, more, less, and hardly any.
fn any_reply(random: &mut Random, need: usize) -> usize {
    match random.below(20) {
        0..=5 => need,
        6 => need.saturating_sub(random.between(1, REPLY_BYTES)),
        7..=8 => random.below(need + 1),
        9 => random.below(8),
        _ => need + random.between(1, 8),
    }
}
