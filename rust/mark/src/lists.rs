//! Lists of commands that a program is tried on: all commands, accepted and
//! refused, and bytes that are none.

use crate::draw::Draw;
use crate::sheet::Sheet;
use crate::sheets::{drawn, owned};
use crate::strewn::{command, span};
use laremban::{Command, Commands, PROGRAM_BYTES, PROGRAM_PLAN, decode};

/// A list, command by command: the bytes of each.
#[derive(Clone, Debug, PartialEq, Eq)]
pub struct List {
    /// The bytes of each command. The last may be none, or a part of one.
    pub parts: Vec<Vec<u8>>,
}

impl List {
    /// The commands that bytes have, and at the end what can't be read.
    pub fn of(bytes: &[u8]) -> List {
        let (mut parts, mut at) = (Vec::new(), 0);
        while at < bytes.len() {
            let next = decode(bytes, at).next;
            parts.push(bytes[at..next].to_vec());
            at = next;
        }
        List { parts }
    }

    /// All bytes.
    pub fn bytes(&self) -> Vec<u8> {
        self.parts.concat()
    }
}

/// A list with a number, for plans of a dimension from 1 to 4, small ones first.
///
/// ```
/// use laremban_mark::lists;
///
/// let list = lists::list(1, 3, 20);
/// assert!(list.bytes().len() <= 2_048);
/// assert_eq!(list, lists::list(1, 3, 20));
/// ```
pub fn list(seed: u64, dimension: usize, number: usize) -> List {
    let mut draw = Draw::new(seed, &[dimension as u64, number as u64, 1]);
    let darts = (2 + number).min(40);
    let mut list = match (number, draw.below(32)) {
        (20.., 0) => many_darts(&mut draw, dimension),
        (6.., 1) if dimension >= 3 => folded(&mut draw, dimension),
        (_, 1..5) => rough(&mut draw, dimension, 4 + number.min(80)),
        _ => built(&mut draw, dimension, darts),
    };
    if draw.chance(1, 3) {
        strew(&mut draw, &mut list, dimension, darts);
    }
    spoil(&mut draw, &mut list);
    shorten(&mut list);
    list
}

/// What fits the program's input, of the commands in their order.
fn shorten(list: &mut List) {
    let mut left = PROGRAM_BYTES;
    list.parts
        .retain(|part| match left.checked_sub(part.len()) {
            Some(rest) => {
                left = rest;
                true
            }
            None => false,
        });
}

/// A sheet that is built, lifted, adopted, lifted again, and counted in between.
fn built(draw: &mut Draw, dimension: usize, darts: usize) -> List {
    let sheet = drawn(draw, dimension, darts);
    let sheet = owned(draw, sheet);
    let mut list = sheet.commands();
    if draw.chance(1, 2) {
        resew(draw, &mut list, &sheet);
    }
    let mut of = dimension;
    for _ in 0..draw.from_to(1, 3) {
        list.lift();
        of += 1;
        count_all(&mut list, of);
        if draw.chance(1, 4) {
            continue;
        }
        list.adopt();
        match draw.below(4) {
            // Adopted maps have no spans: nothing is lifted.
            0 => {
                list.lift();
            }
            1 => full_row(draw, &mut list),
            _ => list.extend((0..4).map(|_| span(draw, 2 * darts))),
        }
    }
    if draw.chance(1, 6) {
        // Another plan leaves the lifted map as it is.
        list.new_plan(draw.from_to(1, 4) as u8).dart();
        count_all(&mut list, of);
        list.adopt();
        count_all(&mut list, of);
    }
    List::of(list.bytes())
}

/// A link that is taken away, and sewn again after one of its darts was moved or
/// got a span, or both got one of two objects: most often they disagree then.
fn resew(draw: &mut Draw, list: &mut Commands, sheet: &Sheet) {
    let axis = draw.below(sheet.dimension + 1);
    let linked = (0..sheet.count()).filter(|&dart| sheet.links[dart][axis] != dart);
    let linked: Vec<usize> = linked.collect();
    let Some(&a) = linked.get(draw.below(linked.len())) else {
        return;
    };
    let (axis, a, b) = (axis as u8, a as u16, sheet.links[a][axis] as u16);
    list.unsew(axis, a);
    match draw.below(4) {
        0 => list.place(a, 0, 5),
        1 => list.span(a, 100, 101),
        // Where the two are of two top cells now, only the objects differ.
        2 => list.span_of(a, 100, 101, 7).span(b, 100, 101),
        _ => list.clear(b),
    };
    list.sew(axis, a, b);
}

/// The cells of both sides, and of an axis that neither has.
fn count_all(list: &mut Commands, dimension: usize) {
    for axis in 0..=dimension as u8 + 1 {
        list.push(Command::Count { side: 1, axis });
        list.push(Command::Count { side: 0, axis });
    }
}

/// Nine spans, of which a row takes eight; then such as it takes for joining them to
/// its own, and such as it does not take.
fn full_row(draw: &mut Draw, list: &mut Commands) {
    let dart = draw.below(3) as u16;
    for lo in 0..9 {
        let touching = 2 - (lo & 1);
        list.span(dart, 2 * lo, 2 * lo + touching);
    }
    // Over another's, touching its own on both sides, and over its own and beyond.
    list.span_of(dart, 0, 1, 7).span(dart, 11, 12);
    list.span(dart, 14, 16).span_of(dart, 15, 16, 7);
    list.span(dart, 3, 9).lift();
    list.clear(dart).span(dart, -1, 0).lift();
}

/// Four darts in which a dart and its partner along 3 reach each other along 0
/// and 1, so that what is freed is counted once.
fn folded(draw: &mut Draw, dimension: usize) -> List {
    let mut list = Commands::new();
    list.new_plan(dimension.max(3) as u8).darts(4);
    list.sew(3, 0, 2).sew(3, 1, 3).sew(0, 0, 3).sew(1, 0, 1);
    list.span(0, 0, 2).lift();
    count_all(&mut list, dimension);
    list.unsew(3, draw.below(4) as u16).unsew(0, 0).lift();
    count_all(&mut list, dimension);
    List::of(list.bytes())
}

/// Commands as they come, most of them for darts that are there.
fn rough(draw: &mut Draw, dimension: usize, many: usize) -> List {
    let (mut list, mut darts) = (Commands::new(), 1);
    if draw.chance(7, 8) {
        list.new_plan(dimension as u8).darts(4);
        darts += 4;
    }
    for _ in 0..many {
        if draw.chance(1, 5) {
            list.dart();
            darts += 1;
        }
        list.push(command(draw, dimension, darts));
    }
    List::of(list.bytes())
}

/// More darts than the plan has room for, or than there are replies for.
fn many_darts(draw: &mut Draw, dimension: usize) -> List {
    let mut list = Commands::new();
    let many = [PROGRAM_PLAN - 1, PROGRAM_PLAN + 1, 300, 1_030][draw.below(4)];
    list.new_plan(dimension as u8).darts(many);
    for dart in 0..40 {
        list.span(6 * dart, 0, 3 + i32::from(dart % 3));
    }
    list.lift().adopt();
    List::of(list.bytes())
}

/// Commands put in between.
fn strew(draw: &mut Draw, list: &mut List, dimension: usize, darts: usize) {
    for _ in 0..draw.from_to(1, 8) {
        let mut one = Commands::new();
        one.push(command(draw, dimension, darts));
        let at = draw.below(list.parts.len() + 1);
        list.parts.insert(at, one.bytes().to_vec());
    }
}

/// Bytes that are no command, or a command that is cut short, at the end.
fn spoil(draw: &mut Draw, list: &mut List) {
    match draw.below(12) {
        0 => list
            .parts
            .push(vec![[0, 0x1b, 0x0f, 0xff][draw.below(4)], 0x11]),
        1 | 2 => {
            if let Some(last) = list.parts.last_mut() {
                last.pop();
            }
            list.parts.retain(|part| !part.is_empty());
        }
        _ => {}
    }
}
