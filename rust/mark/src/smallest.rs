//! The smallest sheet that a program still gets wrong.

use crate::exercise::Exercise;
use crate::marking::{Progress, Wrong, try_one};
use crate::program::Program;
use std::io;
use std::time::{Duration, Instant};

/// So long a smaller sheet is looked for, if a run may not take longer itself.
const PATIENCE: Duration = Duration::from_secs(30);

/// Takes away what can be taken away while the sheet is still wrong.
pub(crate) fn smallest<E: Exercise>(
    exercise: &E,
    program: &Program,
    mut found: Wrong<E::Sheet>,
    mut progress: impl FnMut(Progress),
) -> io::Result<Wrong<E::Sheet>> {
    let until = Instant::now() + PATIENCE.max(program.limit);
    let mut tries = 0;
    loop {
        let mut changed = false;
        for way in 0..exercise.ways() {
            let mut left = exercise.smaller(&found.sheet, way);
            let mut at = 0;
            while at < left.len() {
                if Instant::now() > until {
                    return Ok(found);
                }
                tries += 1;
                progress(Progress::Smaller(tries));
                let tried = match exercise.is_fit(&left[at]) {
                    true => try_one(exercise, program, &left[at])?,
                    false => None,
                };
                match tried {
                    // What comes next stands at the same place now.
                    Some(smaller) => {
                        (found, changed) = (smaller, true);
                        left = exercise.smaller(&found.sheet, way);
                    }
                    None => at += 1,
                }
            }
        }
        if !changed {
            return Ok(found);
        }
    }
}
