//! The calls on tables, with results.

use crate::linked::{self, Answer};
use crate::refusal::Refused;
use crate::side::Side;
use crate::tables::{LiftedMut, Plan};
use crate::widths::LINKS;

impl Answer {
    /// The value, or the refusal.
    ///
    /// ```
    /// use laremban::linked::Answer;
    ///
    /// assert_eq!(Answer { number: 0, value: 8 }.result(), Ok(8));
    /// assert!(Answer { number: 20, value: 0 }.result().is_err());
    /// ```
    pub fn result(self) -> Result<u16, Refused> {
        match Refused::with_value(self.number, self.value) {
            None => Ok(self.value),
            Some(refused) => Err(refused),
        }
    }
}

/// The axes along which a dart is free.
#[derive(Clone, Copy, Debug, PartialEq, Eq, Hash)]
#[non_exhaustive]
pub struct FreeAxes {
    /// Bit i is set where the dart is free along axis i.
    pub bits: u8,
    /// How many bits are set.
    pub count: u32,
}

impl FreeAxes {
    /// Whether the dart is free along an axis up to the dimension.
    pub fn has(self, axis: u8) -> bool {
        self.bits.checked_shr(axis.into()).unwrap_or(0) & 1 == 1
    }
}

/// The six links of a dart of a side, from two link tables; nothing for a dart
/// beyond the rows.
///
/// ```
/// use laremban::{Side, row};
///
/// let (plan, lifted) = ([1, 0, 0, 0, 0, 0, 0, 1, 1, 1, 1, 1], [0; 6]);
/// assert_eq!(row(&plan, &lifted, Side::Plan, 1), Some([0, 1, 1, 1, 1, 1]));
/// assert_eq!(row(&plan, &lifted, Side::Lifted, 1), None);
/// ```
pub fn row(plan: &[u16], lifted: &[u16], side: Side, dart: usize) -> Option<[u16; LINKS]> {
    let mut out = [0; LINKS];
    let written = linked::row(plan, lifted, side.number(), dart, &mut out);
    (written == LINKS).then_some(out)
}

/// The axes up to the dimension along which a dart of a link table is free.
///
/// ```
/// use laremban::{Refusal, looseness};
///
/// let links = [1, 0, 0, 0, 0, 0, 0, 1, 1, 1, 1, 1];
/// let free = looseness(&links, 2, 0).unwrap();
/// assert_eq!((free.bits, free.count), (0b110, 2));
/// assert!(free.has(1) && !free.has(0));
/// assert_eq!(looseness(&links, 2, 2).unwrap_err().refusal, Refusal::NoSuchDart);
/// ```
pub fn looseness(links: &[u16], dimension: u8, dart: usize) -> Result<FreeAxes, Refused> {
    let told = linked::looseness(links, dimension, dart);
    let free = FreeAxes {
        bits: told.bits,
        count: told.ones,
    };
    Refused::without_dart(told.number).map_or(Ok(free), Err)
}

/// Whether tables hold a valid map: accepted exactly where they do, or the
/// first refusal met, with the first dart at fault. Nothing is written.
///
/// ```
/// use laremban::{PlanTables, Refusal, check};
///
/// let mut tables = PlanTables::new(2);
/// tables.links = vec![1, 0, 0, 0, 0, 0, 1, 1, 1, 1, 1, 1];
/// let refused = check(&tables.plan(1, 2)).unwrap_err();
/// assert_eq!((refused.refusal, refused.dart), (Refusal::LinkNotUndone, Some(0)));
/// tables.links[6] = 0;
/// assert_eq!(check(&tables.plan(1, 2)), Ok(()));
/// ```
pub fn check(plan: &Plan) -> Result<(), Refused> {
    linked::check(plan).result().map(|_| ())
}

/// The number of cells of an axis: 0 for corners, 1 for edges, and so on up to
/// the dimension. What [`check`] refuses is refused as it does, and then the axis.
///
/// ```
/// use laremban::{PlanTables, cells};
///
/// let mut edge = PlanTables::new(2);
/// edge.links = vec![1, 0, 0, 0, 0, 0, 0, 1, 1, 1, 1, 1];
/// assert_eq!(cells(&mut edge.plan(1, 2), 0), Ok(2));
/// assert_eq!(cells(&mut edge.plan(1, 2), 1), Ok(1));
/// ```
pub fn cells(plan: &mut Plan, axis: u8) -> Result<u16, Refused> {
    linked::cells(plan, axis).result()
}

/// The numbers of cells of all axes, from 0 to the dimension: corners, edges, and
/// so on. The tables are checked once, where [`cells`] checks them for each axis.
/// What [`check`] refuses is refused as it does.
///
/// ```
/// use laremban::{PlanTables, counts};
///
/// let mut edge = PlanTables::new(2);
/// edge.links = vec![1, 0, 0, 0, 0, 0, 0, 1, 1, 1, 1, 1];
/// assert_eq!(counts(&mut edge.plan(1, 2)), Ok(vec![2, 1]));
/// ```
pub fn counts(plan: &mut Plan) -> Result<Vec<u16>, Refused> {
    // A number for each axis of the greatest dimension: 20 is not met.
    let mut memory = [0; LINKS];
    let written = linked::counts(plan, &mut memory).result()?;
    Ok(memory[..written.into()].to_vec())
}

/// The pieces of the dart's cell of an axis, a pair of ends each, ascending.
/// They stand at the start of `memory`, which keeps what it held past them.
/// Refused, it stays as it was, and no dart is told.
///
/// ```
/// use laremban::{PlanTables, SPAN_NUMBERS, pieces};
///
/// let mut edge = PlanTables::new(2);
/// edge.links = vec![1, 0, 0, 0, 0, 0, 0, 1, 1, 1, 1, 1];
/// // Two spans: 0 to 3 of object 7, and 3 to 5 of object 9.
/// for row in edge.spans.chunks_mut(SPAN_NUMBERS) {
///     row[..7].copy_from_slice(&[2, 0, 3, 7, 3, 5, 9]);
/// }
/// let mut memory = [0; 8];
/// let storeys = pieces(&mut edge.plan(1, 2), 0, 1, &mut memory);
/// assert_eq!(storeys, Ok(&[[0, 3], [3, 5]][..]));
/// ```
pub fn pieces<'a>(
    plan: &mut Plan,
    dart: usize,
    axis: u8,
    memory: &'a mut [i32],
) -> Result<&'a [[i32; 2]], Refused> {
    let told = linked::pieces(plan, dart, axis, memory);
    match Refused::without_dart(told.number) {
        None => Ok(&memory.as_chunks().0[..told.pairs]),
        Some(refused) => Err(refused),
    }
}

/// Lifts a plan: the lifted side holds its lift, 0 past the last dart, and the
/// answer is how many darts it has. Each lifted dart carries the object of the
/// span that covers its side. Refused, the lifted links, places and objects stay
/// as they were.
///
/// ```
/// use laremban::{LiftedTables, PlanTables, Refusal, SPAN_NUMBERS, lift};
///
/// let mut edge = PlanTables::new(2);
/// edge.links = vec![1, 0, 0, 0, 0, 0, 0, 1, 1, 1, 1, 1];
/// // One span: 0 to 3 of object 7.
/// for row in edge.spans.chunks_mut(SPAN_NUMBERS) {
///     row[..4].copy_from_slice(&[1, 0, 3, 7]);
/// }
/// let mut lifted = LiftedTables::new(8);
/// assert_eq!(lift(&mut edge.plan(1, 2), &mut lifted.lend()), Ok(8));
/// assert_eq!(lifted.objects, [7; 8]);
/// let refused = lift(&mut edge.plan(1, 2), &mut LiftedTables::new(7).lend());
/// assert_eq!(refused.unwrap_err().refusal, Refusal::TooLarge);
/// ```
pub fn lift(plan: &mut Plan, lifted: &mut LiftedMut) -> Result<u16, Refused> {
    linked::lift(plan, lifted).result()
}
