//! The calls as the static library answers them: in numbers, with a refusal as
//! a number beside zeros. The calls at the top of the crate tell the same as
//! results; these are for those who store answers or compare them.
//!
//! All that is unsafe stands here. Every call takes any numbers and refuses
//! what it cannot use, so that what the library wants of its caller is only
//! what slices give: pointers that are aligned, that are not null, that are
//! good for their lengths, and of which those that are written overlap with
//! none.

use crate::tables::{LiftedMut, Plan, PlanMut};
use crate::widths::VERSION;
use std::sync::atomic::{AtomicBool, Ordering};

/// The declarations: a slice is a pointer and a length. They are those of
/// `include/laremban.h`.
mod declared {
    use super::{Answer, Ended, Looseness, Pairs};

    // SAFETY: names, arguments and structs are those that the library exports.
    // Nothing compares them with the proved source; the tests do, by what the
    // calls answer.
    #[link(name = "laremban", kind = "static")]
    unsafe extern "C" {
        pub safe fn laremban_version() -> u32;

        pub fn laremban_row(
            plan: *const u16,
            plan_length: usize,
            lifted: *const u16,
            lifted_length: usize,
            side: u8,
            dart: usize,
            out: *mut u16,
            out_length: usize,
        ) -> usize;

        pub fn laremban_looseness(
            links: *const u16,
            links_length: usize,
            dimension: u8,
            dart: usize,
        ) -> Looseness;

        pub fn laremban_cells(
            links: *const u16,
            links_length: usize,
            places: *const i32,
            places_length: usize,
            spans: *const i32,
            spans_length: usize,
            work: *mut u16,
            work_length: usize,
            dimension: u8,
            count: usize,
            axis: u8,
        ) -> Answer;

        pub fn laremban_counts(
            links: *const u16,
            links_length: usize,
            places: *const i32,
            places_length: usize,
            spans: *const i32,
            spans_length: usize,
            work: *mut u16,
            work_length: usize,
            dimension: u8,
            count: usize,
            memory: *mut u16,
            memory_length: usize,
        ) -> Answer;

        pub fn laremban_decode(
            bytes: *const u8,
            bytes_length: usize,
            at: usize,
            out: *mut i32,
            out_length: usize,
        ) -> usize;

        pub fn laremban_check(
            links: *const u16,
            links_length: usize,
            places: *const i32,
            places_length: usize,
            spans: *const i32,
            spans_length: usize,
            work: *const u16,
            work_length: usize,
            dimension: u8,
            count: usize,
        ) -> Answer;

        pub fn laremban_pieces(
            links: *const u16,
            links_length: usize,
            places: *const i32,
            places_length: usize,
            spans: *const i32,
            spans_length: usize,
            work: *mut u16,
            work_length: usize,
            dimension: u8,
            count: usize,
            dart: usize,
            axis: u8,
            memory: *mut i32,
            memory_length: usize,
        ) -> Pairs;

        pub fn laremban_lift(
            links: *const u16,
            links_length: usize,
            places: *const i32,
            places_length: usize,
            spans: *const i32,
            spans_length: usize,
            work: *mut u16,
            work_length: usize,
            dimension: u8,
            count: usize,
            lifted_links: *mut u16,
            lifted_links_length: usize,
            lifted_places: *mut i32,
            lifted_places_length: usize,
            lifted_objects: *mut u16,
            lifted_objects_length: usize,
            lifted_work: *mut u16,
            lifted_work_length: usize,
        ) -> Answer;

        pub fn laremban_run(
            bytes: *const u8,
            bytes_length: usize,
            links: *mut u16,
            links_length: usize,
            places: *mut i32,
            places_length: usize,
            spans: *mut i32,
            spans_length: usize,
            work: *mut u16,
            work_length: usize,
            lifted_links: *mut u16,
            lifted_links_length: usize,
            lifted_places: *mut i32,
            lifted_places_length: usize,
            lifted_objects: *mut u16,
            lifted_objects_length: usize,
            lifted_work: *mut u16,
            lifted_work_length: usize,
            replies: *mut u8,
            replies_length: usize,
        ) -> Ended;

        pub fn laremban_liftrun(
            bytes: *const u8,
            bytes_length: usize,
            out: *mut u8,
            out_length: usize,
        ) -> usize;
    }
}

/// What check, cells, counts and lift answer.
#[must_use]
#[repr(C)]
#[derive(Clone, Copy, Debug, PartialEq, Eq)]
pub struct Answer {
    /// The refusal's number, or 0.
    pub number: u8,
    /// The value; refused by 6 to 11 the first dart at fault, by another 0.
    pub value: u16,
}

/// What looseness answers.
#[must_use]
#[repr(C)]
#[derive(Clone, Copy, Debug, PartialEq, Eq)]
pub struct Looseness {
    /// The refusal's number, or 0.
    pub number: u8,
    /// Bit i is set where the dart is free along axis i.
    pub bits: u8,
    /// How many bits are set.
    pub ones: u32,
}

/// What pieces answers.
#[must_use]
#[repr(C)]
#[derive(Clone, Copy, Debug, PartialEq, Eq)]
pub struct Pairs {
    /// The refusal's number, or 0.
    pub number: u8,
    /// How many pairs of ends were written.
    pub pairs: usize,
}

/// How a run ended.
#[must_use]
#[repr(C)]
#[derive(Clone, Copy, Debug, PartialEq, Eq)]
pub struct Ended {
    /// The number that it ended by: 0 where no byte was left.
    pub number: u8,
    /// How many commands were taken.
    pub taken: usize,
    /// How many of them were accepted.
    pub accepted: usize,
    /// How many of them were refused.
    pub refused: usize,
}

/// Version: that of the library that is linked. Every other call compares it with
/// [`VERSION`], once in a program, and panics where it is another.
///
/// ```
/// assert_eq!(laremban::linked::version(), laremban::VERSION);
/// ```
pub fn version() -> u32 {
    declared::laremban_version()
}

/// Whether the library was found to be of this crate's version: then the others
/// need not ask again.
static COMPARED: AtomicBool = AtomicBool::new(false);

/// A library of another version may have tables of other widths and arguments in
/// another order: nothing may be lent to it.
#[inline]
fn compare_versions() {
    if !COMPARED.load(Ordering::Relaxed) {
        expect_own(version());
        COMPARED.store(true, Ordering::Relaxed);
    }
}

#[cold]
fn expect_own(version: u32) {
    assert!(
        version == VERSION,
        "liblaremban.a has version {version}, and the crate laremban is for version {VERSION}: \
         both have to come from one state of the repository"
    );
}

/// Row: writes the six links of a dart of the chosen side (0 the plan, 1 the
/// lifted map) to `out` and answers how many numbers it wrote. That is 0 for a
/// dart beyond the rows, for another side, and where `out` is shorter than six.
///
/// ```
/// let mut out = [9; 7];
/// assert_eq!(laremban::linked::row(&[0; 6], &[], 0, 0, &mut out), 6);
/// assert_eq!(out, [0, 0, 0, 0, 0, 0, 9]);
/// ```
pub fn row(plan: &[u16], lifted: &[u16], side: u8, dart: usize, out: &mut [u16]) -> usize {
    compare_versions();
    // SAFETY: each pointer comes with its own slice's length, `out` is borrowed
    // by nobody else, and the call requires nothing.
    unsafe {
        declared::laremban_row(
            plan.as_ptr(),
            plan.len(),
            lifted.as_ptr(),
            lifted.len(),
            side,
            dart,
            out.as_mut_ptr(),
            out.len(),
        )
    }
}

/// Looseness: the axes up to the dimension along which a dart is free.
///
/// ```
/// let told = laremban::linked::looseness(&[0; 6], 2, 0);
/// assert_eq!((told.number, told.bits, told.ones), (0, 0b111, 3));
/// ```
pub fn looseness(links: &[u16], dimension: u8, dart: usize) -> Looseness {
    compare_versions();
    // SAFETY: the pointer comes with its slice's length; nothing is written,
    // and nothing is required.
    unsafe { declared::laremban_looseness(links.as_ptr(), links.len(), dimension, dart) }
}

/// Decode: reads the command at a place and writes its numbers to the start of
/// `out`, which stays as it was where it has no room for five. They are the
/// command byte and its operands, 0 where there is none; or 0 and the refusal's
/// number for an unreadable command. The answer is the place of the byte after
/// the command.
///
/// ```
/// let mut out = [7; 5];
/// assert_eq!(laremban::linked::decode(&[0x13, 2, 1, 0], 0, &mut out), 4);
/// assert_eq!(out, [0x13, 2, 256, 0, 0]);
/// // A span from 1 to 3 of object 7, for dart 2.
/// let span = [0x1a, 0, 2, 0, 0, 0, 1, 0, 0, 0, 3, 0, 7];
/// assert_eq!(laremban::linked::decode(&span, 0, &mut out), 13);
/// assert_eq!(out, [0x1a, 2, 1, 3, 7]);
/// ```
pub fn decode(bytes: &[u8], at: usize, out: &mut [i32]) -> usize {
    compare_versions();
    // SAFETY: each pointer comes with its own slice's length, `out` is borrowed
    // by nobody else, and the call requires nothing.
    unsafe {
        declared::laremban_decode(bytes.as_ptr(), bytes.len(), at, out.as_mut_ptr(), out.len())
    }
}

/// Check: number 0 and value 0 exactly where the tables hold a valid map.
/// Nothing is written, not even to work.
///
/// ```
/// use laremban::{PlanTables, linked};
///
/// let told = linked::check(&PlanTables::new(1).plan(6, 1));
/// assert_eq!((told.number, told.value), (3, 0));
/// ```
pub fn check(plan: &Plan) -> Answer {
    compare_versions();
    let p = plan;
    // SAFETY: each pointer comes with its own slice's length; nothing is
    // written, and the call requires nothing.
    unsafe {
        declared::laremban_check(
            p.links.as_ptr(),
            p.links.len(),
            p.places.as_ptr(),
            p.places.len(),
            p.spans.as_ptr(),
            p.spans.len(),
            p.work.as_ptr(),
            p.work.len(),
            p.dimension,
            p.count,
        )
    }
}

/// Cells: the number of cells of an axis, or the first refusal met. Work holds
/// anything afterwards.
///
/// ```
/// use laremban::{PlanTables, linked};
///
/// let told = linked::cells(&mut PlanTables::new(1).plan(1, 1), 0);
/// assert_eq!((told.number, told.value), (0, 1));
/// ```
pub fn cells(plan: &mut Plan, axis: u8) -> Answer {
    compare_versions();
    let p = plan;
    // SAFETY: each pointer comes with its own slice's length, work is borrowed
    // by nobody else, and the call requires nothing.
    unsafe {
        declared::laremban_cells(
            p.links.as_ptr(),
            p.links.len(),
            p.places.as_ptr(),
            p.places.len(),
            p.spans.as_ptr(),
            p.spans.len(),
            p.work.as_mut_ptr(),
            p.work.len(),
            p.dimension,
            p.count,
            axis,
        )
    }
}

/// Counts: writes the number of cells of each axis, from 0 to the dimension, to
/// the start of `memory`, and answers how many numbers. Refused, also by 20
/// where `memory` has fewer, it leaves `memory` as it was. Work holds anything
/// afterwards.
///
/// ```
/// use laremban::{PlanTables, linked};
///
/// let mut memory = [7; 3];
/// let told = linked::counts(&mut PlanTables::new(1).plan(1, 1), &mut memory);
/// assert_eq!((told.number, told.value, memory), (0, 2, [1, 1, 7]));
/// ```
pub fn counts(plan: &mut Plan, memory: &mut [u16]) -> Answer {
    compare_versions();
    let p = plan;
    // SAFETY: each pointer comes with its own slice's length, work and `memory`
    // are borrowed by nobody else, and the call requires nothing.
    unsafe {
        declared::laremban_counts(
            p.links.as_ptr(),
            p.links.len(),
            p.places.as_ptr(),
            p.places.len(),
            p.spans.as_ptr(),
            p.spans.len(),
            p.work.as_mut_ptr(),
            p.work.len(),
            p.dimension,
            p.count,
            memory.as_mut_ptr(),
            memory.len(),
        )
    }
}

/// Pieces: writes the pieces of the dart's cell of an axis to the start of
/// `memory`, a pair of ends each, ascending, and answers how many. Refused, it
/// leaves `memory` as it was. Work holds anything afterwards.
///
/// ```
/// use laremban::{PlanTables, linked};
///
/// let told = linked::pieces(&mut PlanTables::new(1).plan(1, 1), 0, 0, &mut []);
/// assert_eq!((told.number, told.pairs), (0, 0));
/// ```
pub fn pieces(plan: &mut Plan, dart: usize, axis: u8, memory: &mut [i32]) -> Pairs {
    compare_versions();
    let p = plan;
    // SAFETY: each pointer comes with its own slice's length, work and `memory`
    // are borrowed by nobody else, and the call requires nothing.
    unsafe {
        declared::laremban_pieces(
            p.links.as_ptr(),
            p.links.len(),
            p.places.as_ptr(),
            p.places.len(),
            p.spans.as_ptr(),
            p.spans.len(),
            p.work.as_mut_ptr(),
            p.work.len(),
            p.dimension,
            p.count,
            dart,
            axis,
            memory.as_mut_ptr(),
            memory.len(),
        )
    }
}

/// Lift: writes the lift of the plan to the lifted side, 0 past its last dart,
/// and answers how many darts it has. Refused, it leaves the lifted links,
/// places and objects as they were. Both works hold anything afterwards.
///
/// ```
/// use laremban::{LiftedTables, PlanTables, linked};
///
/// let mut lifted = LiftedTables::new(0);
/// let told = linked::lift(&mut PlanTables::new(1).plan(1, 1), &mut lifted.lend());
/// assert_eq!((told.number, told.value), (0, 0));
/// ```
pub fn lift(plan: &mut Plan, lifted: &mut LiftedMut) -> Answer {
    compare_versions();
    let (p, l) = (plan, lifted);
    // SAFETY: each pointer comes with its own slice's length, both works and
    // the lifted tables are borrowed by nobody else, and the call requires
    // nothing.
    unsafe {
        declared::laremban_lift(
            p.links.as_ptr(),
            p.links.len(),
            p.places.as_ptr(),
            p.places.len(),
            p.spans.as_ptr(),
            p.spans.len(),
            p.work.as_mut_ptr(),
            p.work.len(),
            p.dimension,
            p.count,
            l.links.as_mut_ptr(),
            l.links.len(),
            l.places.as_mut_ptr(),
            l.places.len(),
            l.objects.as_mut_ptr(),
            l.objects.len(),
            l.work.as_mut_ptr(),
            l.work.len(),
        )
    }
}

/// Run: takes commands from the bytes until one ends it; see
/// [`run`](crate::run()).
///
/// ```
/// use laremban::{LiftedTables, PlanTables, linked};
///
/// let (mut plan, mut lifted) = (PlanTables::new(1), LiftedTables::new(1));
/// let told = linked::run(&[0x11], &mut plan.lend(), &mut lifted.lend(), &mut [0; 3]);
/// assert_eq!((told.number, told.taken, told.refused), (0, 1, 1));
/// ```
pub fn run(bytes: &[u8], plan: &mut PlanMut, lifted: &mut LiftedMut, replies: &mut [u8]) -> Ended {
    compare_versions();
    let (p, l) = (plan, lifted);
    // SAFETY: each pointer comes with its own slice's length, the tables and
    // `replies` are borrowed by nobody else, and the call requires nothing.
    unsafe {
        declared::laremban_run(
            bytes.as_ptr(),
            bytes.len(),
            p.links.as_mut_ptr(),
            p.links.len(),
            p.places.as_mut_ptr(),
            p.places.len(),
            p.spans.as_mut_ptr(),
            p.spans.len(),
            p.work.as_mut_ptr(),
            p.work.len(),
            l.links.as_mut_ptr(),
            l.links.len(),
            l.places.as_mut_ptr(),
            l.places.len(),
            l.objects.as_mut_ptr(),
            l.objects.len(),
            l.work.as_mut_ptr(),
            l.work.len(),
            replies.as_mut_ptr(),
            replies.len(),
        )
    }
}

/// The text that `liftrun` prints for these bytes: written to the start of
/// `out`, which keeps what it held past it. The answer is its length. Memory
/// shorter than [`TEXT_BYTES`](crate::TEXT_BYTES) stays as it was, and the
/// answer is 0.
///
/// ```
/// let mut out = [0; laremban::TEXT_BYTES];
/// let length = laremban::linked::liftrun(&[], &mut out);
/// assert_eq!(&out[..length], b"end 0 0 0 0\n");
/// ```
pub fn liftrun(bytes: &[u8], out: &mut [u8]) -> usize {
    compare_versions();
    // SAFETY: each pointer comes with its own slice's length, `out` is borrowed
    // by nobody else, and the call requires nothing.
    unsafe { declared::laremban_liftrun(bytes.as_ptr(), bytes.len(), out.as_mut_ptr(), out.len()) }
}

#[cfg(test)]
mod tests {
    use super::*;

    #[test]
    fn the_own_version_is_accepted() {
        compare_versions();
        assert!(COMPARED.load(Ordering::Relaxed));
    }

    #[test]
    #[should_panic = "liblaremban.a has version 0, and the crate laremban is for version "]
    fn another_version_is_refused_in_words() {
        expect_own(0);
    }
}
