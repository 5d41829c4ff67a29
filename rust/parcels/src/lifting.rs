//! A sheet as a list of document 01's commands, and the run that lifts it. What
//! the run accepts decides: this crate's own geometry is trusted with nothing.

use crate::{Finding, Findings, Heights, Parcel, Sheet};
use laremban::{Command, Commands, DARTS, LiftedTables, Map, PlanTables, Refusal, Side};
use laremban::{Refused, replies, run};

/// The dimension of a sheet, of its lift, and of the lift through time.
const FLAT: u8 = 2;
const SOLID: u8 = 3;
const TIME: u8 = 4;

/// A lifted map, as the run left it.
#[derive(Clone, Debug)]
pub struct Lifted {
    /// The lifted side's tables.
    pub tables: LiftedTables,
    /// The map's dimension.
    pub dimension: u8,
    /// How many darts it has.
    pub count: usize,
    /// How many cells of each axis it has.
    pub cells: Vec<u16>,
}

impl Lifted {
    /// The map, to be read.
    pub fn map(&self) -> Map<'_> {
        self.tables.map(self.dimension, self.count)
    }
}

/// The darts of a plain box: a parcel with four corners and one pair of heights,
/// whose walls are not cut by its neighbours' heights.
const BOX: usize = 48;
/// The same, lifted through time.
const BOX_IN_TIME: usize = 384;

/// Why a lift is too large, and what helps.
fn too_many(lift: &str, darts: usize, with: &str) -> String {
    let boxes = DARTS / darts;
    format!(
        "{lift} has more than {DARTS} darts (refused by 20): {boxes} plain boxes fit on one \
         sheet{with}; cut it into smaller sheets"
    )
}

/// Commands, each with the parcel that it belongs to; none for the sheet's own.
type List = Vec<(Command, Option<usize>)>;

/// A refused command: its place in the list, and why.
#[derive(Clone, Copy, Debug)]
struct Stop {
    at: usize,
    refusal: Refusal,
}

/// The darts of a parcel: two for each side, and before them those of the
/// parcels before it.
struct Darts {
    parcel: usize,
    first: usize,
    sides: usize,
}

impl Darts {
    /// The second dart of a side, and the first of the side after it.
    fn around(&self, side: usize) -> (u16, u16) {
        let next = (side + 1) % self.sides;
        (dart(self.first + 2 * side + 1), dart(self.first + 2 * next))
    }
}

/// A dart as commands tell it: a sheet's sides are few enough for 16 bits.
fn dart(number: usize) -> u16 {
    u16::try_from(number).expect("a sheet has at most 16,384 darts")
}

/// The commands that build the plan of some parcels, the first of a sheet.
fn plan(sheet: &Sheet, parcels: &[Parcel]) -> List {
    let mut blocks = Vec::new();
    let mut first = 0;
    for (parcel, one) in parcels.iter().enumerate() {
        let sides = one.corners.len();
        blocks.push(Darts {
            parcel,
            first,
            sides,
        });
        first += 2 * sides;
    }
    let mut list = vec![(Command::New { dimension: FLAT }, None)];
    for block in &blocks {
        let dart = (Command::Dart, Some(block.parcel));
        list.extend(std::iter::repeat_n(dart, 2 * block.sides));
    }
    for block in &blocks {
        sew_outline(block, &mut list);
        place(block, &parcels[block.parcel], &mut list);
    }
    sew_seams(sheet, parcels.len(), &mut list);
    for block in &blocks {
        let dart = dart(block.first);
        for span in &parcels[block.parcel].heights {
            let heights = (span.lo, span.hi);
            list.push((stand(dart, heights, span.object), Some(block.parcel)));
        }
    }
    list
}

/// The command by which a dart's top cell stands between heights, for an object.
fn stand(dart: u16, (lo, hi): Heights, object: u16) -> Command {
    Command::SpanOf {
        dart,
        lo,
        hi,
        object,
    }
}

/// Sews a parcel's darts to sides, and its sides to each other.
fn sew_outline(block: &Darts, list: &mut List) {
    let owner = Some(block.parcel);
    for side in 0..block.sides {
        let a = dart(block.first + 2 * side);
        list.push((
            Command::Sew {
                axis: 0,
                a,
                b: a + 1,
            },
            owner,
        ));
    }
    for side in 0..block.sides {
        let (a, b) = block.around(side);
        list.push((Command::Sew { axis: 1, a, b }, owner));
    }
}

/// Places a parcel's corners. Sides are sewn to other parcels' behind that:
/// the run refuses those whose corners do not agree.
fn place(block: &Darts, parcel: &Parcel, list: &mut List) {
    for (side, &(x, y)) in parcel.corners.iter().enumerate() {
        let dart = dart(block.first + 2 * side);
        for (axis, coordinate) in [(0, x), (1, y)] {
            let place = Command::Place {
                dart,
                axis,
                coordinate,
            };
            list.push((place, Some(block.parcel)));
        }
    }
}

/// Sews the sides that the first so many parcels share.
fn sew_seams(sheet: &Sheet, parcels: usize, list: &mut List) {
    for seam in sheet.seams.iter().filter(|seam| seam.later.0 < parcels) {
        let (a, b) = (dart(seam.first.1), dart(seam.later.1));
        list.push((Command::Sew { axis: 2, a, b }, Some(seam.later.0)));
    }
}

/// LIFT, and a COUNT of each axis of the lifted map.
fn lift_and_count(dimension: u8, list: &mut List) {
    list.push((Command::Lift, None));
    let side = Side::Lifted.number();
    for axis in 0..=dimension {
        list.push((Command::Count { side, axis }, None));
    }
}

/// Runs a list that ends with LIFT and the COUNTs, in a plan of so many rows.
fn run_list(list: &List, rows: usize, dimension: u8) -> Result<Lifted, Stop> {
    let commands: Commands = list.iter().map(|&(command, _)| command).collect();
    let (mut plan, mut tables) = (PlanTables::new(rows), LiftedTables::new(DARTS));
    let mut memory = commands.reply_memory();
    let (p, l) = (&mut plan.lend(), &mut tables.lend());
    let ended = run(commands.bytes(), p, l, &mut memory);
    let mut values = Vec::with_capacity(list.len());
    for (at, reply) in replies(&memory, ended).enumerate() {
        let stop = |refused: Refused| Stop {
            at,
            refusal: refused.refusal,
        };
        values.push(reply.map_err(stop)?);
    }
    let told = usize::from(dimension) + 2;
    // A run with room for all replies takes every command of a list that it can read.
    assert_eq!(values.len(), list.len(), "the run ended early");
    let last = &values[values.len() - told..];
    Ok(Lifted {
        tables,
        dimension,
        count: last[0].into(),
        cells: last[1..].to_vec(),
    })
}

/// Lifts the first so many parcels of a sheet.
fn lift_first(sheet: &Sheet, parcels: usize) -> Result<Lifted, (Stop, List)> {
    let parcels = &sheet.parcels[..parcels];
    let mut list = plan(sheet, parcels);
    lift_and_count(SOLID, &mut list);
    let sides: usize = parcels.iter().map(|one| one.corners.len()).sum();
    run_list(&list, 2 * sides, SOLID).map_err(|stop| (stop, list))
}

/// Lifts a sheet to solids.
///
/// # Panics
///
/// Where the sheet was made by hand, and has more sides than one that is read.
pub fn lift(sheet: &Sheet) -> Result<Lifted, Findings> {
    lift_first(sheet, sheet.parcels.len()).map_err(|(stop, list)| {
        if matches!(list[stop.at].0, Command::Lift) && stop.refusal == Refusal::TooLarge {
            too_large(sheet)
        } else {
            refused(sheet, &list, stop)
        }
    })
}

/// The first parcel with which the lift is too large. A parcel more never
/// makes a lift smaller, so that it is found by halving.
fn too_large(sheet: &Sheet) -> Findings {
    let (mut fits, mut least) = (0, sheet.parcels.len());
    while least - fits > 1 {
        let middle = fits.midpoint(least);
        match lift_first(sheet, middle) {
            Ok(_) => fits = middle,
            Err(_) => least = middle,
        }
    }
    let what = too_many("with it the lift", BOX, "");
    sheet.parcels[least - 1].finding(what).into()
}

/// A refused command, told of its parcel.
fn refused(sheet: &Sheet, list: &List, stop: Stop) -> Findings {
    let (command, owner) = list[stop.at];
    let (number, refusal) = (stop.refusal.number(), stop.refusal);
    let what = format!("the command {command:?} is refused by {number}: {refusal}");
    let finding = match owner {
        Some(parcel) => sheet.parcels[parcel].finding(what),
        None => Finding::of_sheet(what),
    };
    finding.into()
}

/// Lifts a sheet's solids through time: each is given the span by a dart of it,
/// for the object that it carries. ADOPT takes no objects along, and what a solid
/// becomes through time is still that object's.
///
/// # Panics
///
/// As [`lift`] does.
pub fn lift_through_time(
    sheet: &Sheet,
    solids: &Lifted,
    time: Heights,
) -> Result<Lifted, Findings> {
    let mut list = plan(sheet, &sheet.parcels);
    list.extend([(Command::Lift, None), (Command::Adopt, None)]);
    let map = solids.map();
    let mut next = 0;
    for (number, &cell) in map.cells(SOLID.into()).iter().enumerate() {
        if cell == next {
            next += 1;
            list.push((stand(dart(number), time, map.object(number)), None));
        }
    }
    lift_and_count(TIME, &mut list);
    run_list(&list, DARTS, TIME).map_err(|stop| match stop.refusal {
        Refusal::TooLarge => {
            let what = too_many("the lift through time", BOX_IN_TIME, " with --time");
            Finding::of_sheet(what).into()
        }
        _ => refused(sheet, &list, stop),
    })
}
