//! Sheet after sheet is tried, and of the first wrong one the smallest that is
//! still wrong is looked for.

use crate::exercise::Exercise;
use crate::program::{Failure, Program};
use crate::smallest::smallest;
use crate::turns::Turns;
use std::io;
use std::sync::mpsc::{Sender, channel};
use std::thread::{available_parallelism, scope};

/// The dimensions of plans that can be lifted.
pub const DIMENSIONS: std::ops::RangeInclusive<usize> = 1..=4;

/// No more sheets than this are tried side by side.
const MOST_THREADS: usize = 8;

/// What is tried.
#[derive(Clone, Copy, Debug, PartialEq, Eq)]
pub struct Plan {
    /// How many sheets.
    pub sheets: usize,
    /// The seed that they are drawn by.
    pub seed: u64,
    /// Their dimension; all of them in turn where none is told.
    pub dimension: Option<usize>,
}

impl Plan {
    /// The dimension of a sheet, and its number among those of that dimension.
    fn sheet(&self, at: usize) -> (usize, usize) {
        let all = DIMENSIONS.count();
        match self.dimension {
            Some(dimension) => (dimension, at),
            None => (DIMENSIONS.start() + at % all, at / all),
        }
    }
}

/// How many sheets of a dimension were right.
#[derive(Clone, Copy, Debug, Default, PartialEq, Eq)]
pub struct Right {
    /// So many.
    pub right: usize,
    /// Of so many.
    pub all: usize,
}

/// A sheet that the program gets wrong.
pub struct Wrong<S> {
    /// The sheet.
    pub sheet: S,
    /// What is wrong, a line each.
    pub told: Vec<String>,
    /// Whether the program, or what it started, did not end in time.
    pub hangs: bool,
}

/// What came of all sheets.
pub struct Marks<S> {
    /// By dimension, from 1 on.
    pub by_dimension: [Right; 4],
    /// So many were not tried, since the program did not end in time too often.
    /// They count as not right.
    pub untried: usize,
    /// The first wrong sheet, by its place from 0 and its dimension, made as
    /// small as was found.
    pub first: Option<(usize, usize, Wrong<S>)>,
}

impl<S> Marks<S> {
    /// Whether all were right.
    pub fn all_right(&self) -> bool {
        self.first.is_none()
    }

    /// Leaves what comes from a place on untried.
    fn leave(&mut self, plan: Plan, from: usize) {
        self.untried = plan.sheets - from;
        for at in from..plan.sheets {
            let (dimension, _) = plan.sheet(at);
            self.by_dimension[dimension - DIMENSIONS.start()].all += 1;
        }
    }

    /// Takes what came of a sheet.
    fn take(
        &mut self,
        at: usize,
        dimension: usize,
        tried: Option<Wrong<S>>,
        progress: &mut impl FnMut(Progress),
    ) {
        let own = &mut self.by_dimension[dimension - DIMENSIONS.start()];
        own.all += 1;
        let Some(found) = tried else {
            own.right += 1;
            return;
        };
        if self.first.is_none() {
            progress(Progress::FirstFound(at, &found.told));
        }
        if self.first.as_ref().is_none_or(|(first, ..)| at < *first) {
            self.first = Some((at, dimension, found));
        }
    }
}

/// How far it is.
#[derive(Clone, Copy, Debug)]
pub enum Progress<'a> {
    /// So many sheets are done, and so many of them are wrong.
    Done(usize, usize),
    /// The wrong sheet that was found first, by its place from 0, and what is
    /// wrong.
    FirstFound(usize, &'a [String]),
    /// So many smaller sheets were tried.
    Smaller(usize),
}

/// Tries a program on one sheet. An error is one of starting the program.
pub fn try_one<E: Exercise>(
    exercise: &E,
    program: &Program,
    sheet: &E::Sheet,
) -> io::Result<Option<Wrong<E::Sheet>>> {
    let ran = program.run(exercise.input(sheet), exercise.most(sheet))?;
    let hangs = matches!(ran, Err(Failure::Hangs(_) | Failure::Held(_)));
    let told = match ran {
        Ok(written) => exercise.judge(sheet, &written).err(),
        Err(failure) => Some(failure.lines()),
    };
    let sheet = sheet.clone();
    Ok(told.map(|told| Wrong { sheet, told, hangs }))
}

/// A sheet that was tried: its place, its dimension, and what came of it.
type Tried<S> = (usize, usize, io::Result<Option<Wrong<S>>>);

/// Tries sheet after sheet, each that nobody else has begun.
fn work<E: Exercise>(
    exercise: &E,
    program: &Program,
    plan: Plan,
    turns: &Turns,
    done: &Sender<Tried<E::Sheet>>,
) {
    while let Some(at) = turns.next() {
        let (dimension, number) = plan.sheet(at);
        let sheet = exercise.sheet(plan.seed, dimension, number);
        let tried = try_one(exercise, program, &sheet);
        match &tried {
            // What can't be started is not started again.
            Err(_) => turns.stop(),
            Ok(Some(wrong)) if wrong.hangs => turns.hung(),
            Ok(_) => {}
        }
        if done.send((at, dimension, tried)).is_err() {
            return;
        }
    }
}

/// Tries a program on all sheets, side by side on all processors, and tells how
/// far it is. What comes of it does not depend on the order, but for how many are
/// tried where the program does not end.
pub fn mark<E: Exercise>(
    exercise: &E,
    program: &Program,
    plan: Plan,
    mut progress: impl FnMut(Progress),
) -> io::Result<Marks<E::Sheet>> {
    let mut marks = Marks {
        by_dimension: Default::default(),
        untried: 0,
        first: None,
    };
    let threads = available_parallelism().map_or(1, |many| many.get());
    let (turns, (send, done)) = (&Turns::new(plan.sheets), channel());
    scope(|scope| {
        for _ in 0..threads.min(MOST_THREADS).min(plan.sheets) {
            let send = send.clone();
            scope.spawn(move || work(exercise, program, plan, turns, &send));
        }
        drop(send);
        let mut all = 0;
        for (at, dimension, tried) in done {
            all += 1;
            marks.take(at, dimension, tried?, &mut progress);
            let right: usize = marks.by_dimension.iter().map(|of| of.right).sum();
            progress(Progress::Done(all, all - right));
        }
        marks.leave(plan, all);
        io::Result::Ok(())
    })?;
    if let Some((at, dimension, found)) = marks.first {
        let small = smallest(exercise, program, found, progress)?;
        marks.first = Some((at, dimension, small));
    }
    Ok(marks)
}
