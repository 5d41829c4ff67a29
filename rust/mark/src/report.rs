//! What is printed. All of it is a script, or a list in hexadecimal: the sheet
//! stands there as it is, and all that is told of it behind `#`.

use crate::exercise::Exercise;
use crate::marking::{DIMENSIONS, Marks, Plan, Right};
use crate::turns::MOST_HUNG;

/// The lines for what came of all sheets.
pub fn report<E: Exercise>(exercise: &E, plan: Plan, marks: &Marks<E::Sheet>) -> String {
    let mut lines: Vec<String> = DIMENSIONS
        .zip(&marks.by_dimension)
        .filter(|(_, of)| of.all > 0)
        .map(|(dimension, Right { right, all })| {
            format!("# dimension {dimension}: {right} of {all} sheets right")
        })
        .collect();
    if marks.untried > 0 {
        let (untried, all) = (marks.untried, plan.sheets);
        lines.push(format!(
            "# not tried: {untried} of {all} sheets, after {MOST_HUNG} on which the program did not end in time"
        ));
    }
    match &marks.first {
        None => lines.push("# all sheets are right".to_string()),
        Some((at, dimension, wrong)) => {
            let (number, seed, tool) = (at + 1, plan.seed, exercise.tool());
            lines.push(format!(
                "# the first wrong sheet is number {number}, of dimension {dimension} (seed {seed})"
            ));
            lines.push(format!(
                "# the smallest sheet found that is still wrong, for {tool}, and what differs:"
            ));
            lines.extend(wrong.told.iter().map(|told| format!("# {told}")));
            let shown = exercise.shown(&wrong.sheet);
            lines.extend(shown.lines().map(str::to_string));
        }
    }
    lines.join("\n") + "\n"
}
