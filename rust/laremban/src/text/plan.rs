//! A plan as text, with its spans: what a program reads that lifts plans itself.
//!
//! The first line is `laremban-plan 2 dimension count`, where 2 is the version.
//! A dart's line has its links along axes 0 to the dimension, its coordinates,
//! as many as the dimension, and then for each span of its row, ascending, its
//! low end, its high end and its object. Numbers are decimal, with one blank
//! between them. Version 1 had no objects, and is read no more.
//!
//! ```
//! use laremban::text::plan;
//! use laremban::{Commands, LiftedTables, PlanTables, run};
//!
//! let mut list = Commands::new();
//! list.new_plan(1).darts(2).sew(0, 0, 1).place(1, 0, -4).span(0, 0, 3).span_of(0, 3, 5, 7);
//! let (mut edge, mut replies) = (PlanTables::new(2), list.reply_memory());
//! run(list.bytes(), &mut edge.lend(), &mut LiftedTables::new(0).lend(), &mut replies);
//! let written = plan::write(edge.map(1, 2));
//! assert_eq!(written, "laremban-plan 2 1 2\n1 0 0 0 3 0 3 5 7\n0 1 -4 0 3 0 3 5 7\n");
//!
//! let read = plan::read(&written)?;
//! assert_eq!((read.dimension, read.count), (1, 2));
//! assert_eq!(read.tables.spans, edge.spans);
//! # Ok::<(), laremban::text::Fault>(())
//! ```

use super::row_words;
use super::{Fault, Held, VERSION, What, at, head, number, numbers, put_line, put_row, refused};
use crate::calls::check;
use crate::map::Map;
use crate::span::{self, Span};
use crate::tables::PlanTables;
use crate::widths::{PER_SPAN, SPAN_NUMBERS, SPANS};

/// What the first line begins with.
pub(super) const WORD: &str = "laremban-plan";

/// The text of a plan.
///
/// # Panics
///
/// Where a row has more spans than a row can have, or an object that is no 16-bit
/// number.
pub fn write(plan: Map) -> String {
    let (dimension, count) = (plan.dimension(), plan.count());
    let mut text = format!("{WORD} {VERSION} {dimension} {count}\n");
    for dart in 0..count {
        let row = plan.row(dart).into_iter();
        let spans = row.flat_map(span::numbers).map(i64::from);
        put_line(&mut text, numbers(&plan, dart).chain(spans));
    }
    text
}

/// The plan that a text holds, once [`check`] has accepted it.
///
/// ```
/// use laremban::text::plan;
///
/// let fault = plan::read("laremban-plan 2 1 1\n0 0 0 3 3 7\n").unwrap_err();
/// let told = "line 2: refused by 10 at dart 0: its row of spans has a wrong count, an empty \
///             span, an overlap, a wrong order, or an object that is not 0 to 65535";
/// assert_eq!(fault.to_string(), told);
///
/// let old = plan::read("laremban-plan 1 1 1\n0 0 0 3 5\n").unwrap_err();
/// let told = "line 1: version 1 has no objects, and is read no more: version 2 is wanted";
/// assert_eq!(old.to_string(), told);
/// ```
pub fn read(text: &str) -> Result<Held<PlanTables>, Fault> {
    let mut lines = text.lines();
    let first = lines.next().unwrap_or_default();
    let (dimension, count) = head(first, WORD, What::NoPlan).map_err(at(1))?;
    let mut tables = PlanTables::new(count);
    for dart in 0..count {
        let line = lines.next().ok_or(What::TooFewLines);
        let row = line.and_then(|line| put_dart(&mut tables, dart, dimension, line));
        row.map_err(at(dart + 2))?;
    }
    if lines.next().is_some() {
        return Err(at(count + 2)(What::TooManyLines(count)));
    }
    check(&tables.plan(dimension, count)).map_err(refused)?;
    Ok(Held {
        tables,
        dimension,
        count,
    })
}

/// Writes the rows of a dart to its tables, by its line.
fn put_dart(tables: &mut PlanTables, dart: usize, dimension: u8, line: &str) -> Result<(), What> {
    let words: Vec<&str> = line.split(' ').collect();
    let (row, spans) = match words.split_at_checked(row_words(dimension)) {
        Some((row, spans)) if spans.len().is_multiple_of(PER_SPAN) => (row, spans),
        _ => return Err(What::OtherPlanNumbers(dimension.into())),
    };
    put_row(&mut tables.links, &mut tables.places, dart, row)?;
    let spans = spans.as_chunks::<PER_SPAN>().0;
    if spans.len() > SPANS {
        return Err(What::TooManySpans);
    }
    let row = &mut tables.spans[SPAN_NUMBERS * dart..][..SPAN_NUMBERS];
    // At most eight.
    row[0] = spans.len() as i32;
    for (room, words) in row[1..].as_chunks_mut().0.iter_mut().zip(spans) {
        *room = span::numbers(span_of(words)?);
    }
    Ok(())
}

/// The span that three words tell.
fn span_of(&[lo, hi, object]: &[&str; PER_SPAN]) -> Result<Span, What> {
    let span = Span::new(number(lo)?, number(hi)?);
    Ok(span.of(number(object)?))
}

#[cfg(test)]
mod tests {
    use super::*;
    use crate::refusal::{Refusal, Refused};

    const EDGE: &str =
        "laremban-plan 2 1 3\n1 0 0 -1 2 0 2 3 65535\n0 2 4 -1 2 0 2 3 65535\n2 1 4\n";

    #[test]
    fn a_text_that_is_written_reads_back() {
        let held = read(EDGE).unwrap();
        assert_eq!((held.dimension, held.count), (1, 3));
        assert_eq!(held.tables.spans[..8], [2, -1, 2, 0, 2, 3, 65535, 0]);
        assert_eq!(write(held.tables.map(1, 3)), EDGE);
        assert_eq!(read(EDGE.trim_end()).as_ref(), Ok(&held));
        assert_eq!(read(&EDGE.replace('\n', "\r\n")), Ok(held));
        let full: String = (0..8).map(|i| format!(" {i} {} {i}", i + 1)).collect();
        let full = format!("laremban-plan 2 1 1\n0 0 -7{full}\n");
        assert_eq!(write(read(&full).unwrap().tables.map(1, 1)), full);
        assert_eq!(read("laremban-plan 2 5 0").unwrap().count, 0);
    }

    #[test]
    fn every_fault_has_its_line() {
        let number = |word: &str| What::NoNumber(word.to_string());
        let refused = |refusal, dart| What::Refused(Refused::new(refusal, Some(dart)));
        let nine = " 0 1 7".repeat(9);
        for (lines, line, what) in [
            ("laremban-map 2 1 0", 1, What::NoPlan),
            ("laremban-plan 2 1", 1, What::NoPlan),
            ("laremban-plan 1 1 0", 1, What::OtherVersion(1)),
            ("laremban-plan 3 1 0", 1, What::OtherVersion(3)),
            ("laremban-plan 2 6 0", 1, What::NoDimension),
            ("laremban-plan 2 1 16385", 1, What::TooManyDarts),
            ("laremban-plan 2 1 1", 2, What::TooFewLines),
            ("laremban-plan 2 1 1\n0 0 0\n\n", 3, What::TooManyLines(1)),
            ("laremban-plan 2 1 1\n0 0", 2, What::OtherPlanNumbers(1)),
            ("laremban-plan 2 1 1\n0 0 0 1", 2, What::OtherPlanNumbers(1)),
            (
                "laremban-plan 2 1 1\n0 0 0 1 2",
                2,
                What::OtherPlanNumbers(1),
            ),
            ("laremban-plan 2 1 1\n0 0 0 ", 2, What::OtherPlanNumbers(1)),
            ("laremban-plan 2 1 1\n0 0 0 x 2 7", 2, number("x")),
            (
                "laremban-plan 2 1 1\n0 0 0 0 2147483648 7",
                2,
                number("2147483648"),
            ),
            ("laremban-plan 2 1 1\n0 0 0 0 2 65536", 2, number("65536")),
            ("laremban-plan 2 1 1\n0 0 0 0 2 -1", 2, number("-1")),
            ("laremban-plan 2 1 1\n0 65536 0", 2, number("65536")),
            (
                &format!("laremban-plan 2 1 1\n0 0 0{nine}"),
                2,
                What::TooManySpans,
            ),
            (
                "laremban-plan 2 1 1\n0 1 0",
                2,
                refused(Refusal::LinkBeyond, 0),
            ),
            (
                "laremban-plan 2 1 1\n0 0 0 0 2 7 1 3 7",
                2,
                refused(Refusal::BadRow, 0),
            ),
            (
                "laremban-plan 2 1 2\n1 0 0 0 2 7\n0 1 0",
                2,
                refused(Refusal::RowsDiffer, 0),
            ),
            (
                "laremban-plan 2 1 2\n1 0 0 0 2 7\n0 1 0 0 2 8",
                2,
                refused(Refusal::RowsDiffer, 0),
            ),
        ] {
            let fault = read(lines).expect_err(lines);
            assert_eq!(fault, Fault { line, what }, "{lines:?}");
        }
    }
}
