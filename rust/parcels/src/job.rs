//! One sheet, from its bytes to what is printed.

use crate::lifting::{lift, lift_through_time};
use crate::owners;
use crate::{
    Finding, Findings, Heights, Report, SHEET_BYTES, Sheet, Solids, Source, Store, compare,
};
use std::fs::File;
use std::io::{self, IsTerminal, Read, Write};
use std::panic::{AssertUnwindSafe, catch_unwind};

/// What is asked for of every sheet.
#[derive(Clone, Debug, Default)]
pub struct Wanted {
    /// The time that solids are lifted through.
    pub time: Option<Heights>,
    /// Only totals are printed, and not how far it is.
    pub quiet: bool,
    /// Where lifted maps are written.
    pub store: Option<Store>,
    /// Rows of a table are made.
    pub table: bool,
}

/// What came of a sheet.
#[derive(Clone, Debug, PartialEq, Eq)]
pub struct Outcome {
    /// For standard output: the whole sheet, or nothing where it is bad.
    pub printed: String,
    /// For a table: the rows of the sheet, where they are wanted.
    pub rows: String,
    /// For standard error, a line each: what is wrong, or what is noted.
    pub told: Vec<String>,
    /// Whether all went well.
    pub good: bool,
}

impl Outcome {
    /// Of what can't be lifted.
    pub fn bad(told: Vec<String>) -> Outcome {
        Outcome {
            printed: String::new(),
            rows: String::new(),
            told,
            good: false,
        }
    }
}

/// Lifts a sheet. A fault of this program is told of its sheet too, and stops
/// no other.
pub fn lift_sheet(source: &Source, wanted: &Wanted) -> Outcome {
    let file = source.to_string();
    let lifted = catch_unwind(AssertUnwindSafe(|| lift_source(source, &file, wanted)));
    let lifted = lifted.unwrap_or_else(|_| {
        let what = "a fault of this program, told above";
        Err(Finding::of_sheet(what).into())
    });
    lifted.unwrap_or_else(|faults| {
        let mut told = faults.lines(&file);
        if let (Some(store), Source::File(path)) = (&wanted.store, source) {
            let old = store.put_aside(path);
            told.extend(old.iter().map(|what| format!("{file}: {what}")));
        }
        Outcome::bad(told)
    })
}

fn lift_source(source: &Source, file: &str, wanted: &Wanted) -> Result<Outcome, Findings> {
    let sheet = Sheet::read(&bytes(source)?)?;
    let lifted = lift(&sheet)?;
    let solids = Solids::read(lifted.map());
    let solids = solids.map_err(|fault| Finding::of_sheet(fault.to_string()))?;
    let parcels = compare(&sheet, &solids)?;
    let time = wanted.time.map(|span| {
        let through = lift_through_time(&sheet, &lifted, span)?;
        Ok::<_, Findings>((span, through))
    });
    let time = time.transpose()?;
    let time = time.as_ref().map(|(span, through)| (*span, through));
    if let (Some(store), Source::File(path)) = (&wanted.store, source) {
        let last = time.map_or(&lifted, |(_, through)| through);
        let owners = owners(&sheet, last.map())?;
        store
            .write(path, last, &owners)
            .map_err(Finding::of_sheet)?;
    }
    let report = Report {
        file,
        sheet: &sheet,
        lifted: &lifted,
        solids: &solids,
        parcels: &parcels,
        time,
    };
    let printed = if wanted.quiet {
        report.totals_line()
    } else {
        report.full()
    };
    let notes = [&sheet.notes, &sheet.joined].map(|notes| notes.lines(file));
    let rows = if wanted.table {
        report.rows()
    } else {
        String::new()
    };
    Ok(Outcome {
        printed,
        rows,
        told: notes
            .iter()
            .flatten()
            .map(|note| format!("note: {note}"))
            .collect(),
        good: true,
    })
}

/// The bytes of a sheet, where they are not too many.
fn bytes(source: &Source) -> Result<Vec<u8>, Finding> {
    let read = match source {
        Source::File(path) => File::open(path).and_then(limited),
        Source::StandardInput => {
            if io::stdin().is_terminal() {
                let what = "parcels: reads a sheet from this terminal, up to Ctrl-D";
                // Where standard error is closed there is nobody to tell.
                let _ = writeln!(io::stderr(), "{what}");
            }
            limited(io::stdin().lock())
        }
    };
    let bytes = read.map_err(|error| Finding::of_sheet(error.to_string()))?;
    if bytes.len() > SHEET_BYTES {
        let what = format!("longer than {SHEET_BYTES} bytes");
        return Err(Finding::of_sheet(what));
    }
    Ok(bytes)
}

/// So many bytes as a sheet may have, and one more where there are more.
fn limited(from: impl Read) -> io::Result<Vec<u8>> {
    let mut bytes = Vec::new();
    from.take(SHEET_BYTES as u64 + 1).read_to_end(&mut bytes)?;
    Ok(bytes)
}
