//! `parcels`: lifts sheets of parcels to solids, and tells what they share.
#![forbid(unsafe_code)]

use laremban_parcels::job::{Outcome, Wanted, lift_sheet};
use laremban_parcels::many::in_order;
use laremban_parcels::options::Options;
use laremban_parcels::{Source, Store, Table, sources};
use std::io::{self, ErrorKind, Write};
use std::ops::ControlFlow;
use std::path::PathBuf;
use std::process::ExitCode;
use std::thread::available_parallelism;

const HELP: &str = "parcels [--time LO..HI] [--out FOLDER] [--table FILE] [--quiet] SHEET..
Lifts sheets of parcels to solids. A SHEET is a file, a folder with files *.parcels in it, or
- for standard input.
A line of a sheet is a parcel: name (x y) (x y) (x y).. : lo..hi lo..hi..
Behind lo..hi may stand `of` and the number of the object that it belongs to: 0..3 of 101
Heights of one object that overlap are joined to one, and that is noted.
  --time LO..HI  lifts the solids through that time too, and tells how many cells there are
  --out FOLDER   writes each lifted map as text, to FOLDER/NAME.map, and whose its solids are
  --table FILE   writes solids, walls and floors of all sheets in columns with tabs between them
  --quiet        prints only the totals of each sheet, and not how far it is
  --version      tells which version it is
The exit status is 0 where all went well, 1 where a sheet was bad, 2 where the words are wrong.
docs/FORMATS.md has more.
";

const VERSION: &str = concat!("parcels (Laremban ", env!("CARGO_PKG_VERSION"), ")\n");

const WRONG_USAGE: u8 = 2;

/// Writes to standard output. Who closes it has seen enough, and is told nothing.
fn print(text: &str) -> Result<(), ()> {
    let mut out = io::stdout().lock();
    let printed = out.write_all(text.as_bytes()).and_then(|()| out.flush());
    printed.map_err(|error| {
        if error.kind() != ErrorKind::BrokenPipe {
            tell(&format!("standard output: {error}"));
        }
    })
}

/// What is wrong or noted, behind the program's name.
fn tell(line: &str) {
    tell_progress(&format!("parcels: {line}"));
}

/// A line on standard error; where that is closed there is nobody to tell.
fn tell_progress(line: &str) {
    let _ = writeln!(io::stderr().lock(), "{line}");
}

/// A sheet's name, or what is told where a folder gives none.
fn name(sheet: &Result<Source, String>) -> String {
    sheet.as_ref().map_or_else(String::clone, Source::to_string)
}

/// Lifts all sheets. Whether all were good, and all was printed and written.
fn lift_all(sheets: &[Result<Source, String>], wanted: &Wanted, mut table: Option<Table>) -> bool {
    let threads = available_parallelism().map_or(1, |many| many.get());
    let work = |sheet: &Result<Source, String>| match sheet {
        Ok(source) => lift_sheet(source, wanted),
        Err(told) => Outcome::bad(vec![told.clone()]),
    };
    let (mut failed, mut closed) = (Vec::new(), false);
    in_order(sheets, threads, work, |at, outcome| {
        if !outcome.good {
            failed.push(&sheets[at]);
        }
        outcome.told.iter().for_each(|line| tell(line));
        closed = print(&outcome.printed).is_err();
        if let Some(table) = &mut table {
            table.add(&outcome.rows);
        }
        if sheets.len() > 1 && !wanted.quiet {
            let name = name(&sheets[at]);
            tell_progress(&format!("{} of {} sheets: {name}", at + 1, sheets.len()));
        }
        if closed {
            ControlFlow::Break(())
        } else {
            ControlFlow::Continue(())
        }
    });
    if !failed.is_empty() && sheets.len() > 1 {
        tell_failed(&failed, sheets.len());
    }
    let written = table.is_none_or(|table| finish(table, closed));
    failed.is_empty() && !closed && written
}

/// Ends a table; one that lacks sheets is not left there. Whether it was written.
fn finish(table: Table, closed: bool) -> bool {
    if closed {
        table.give_up();
        return false;
    }
    table.finish().map_err(|told| tell(&told)).is_ok()
}

/// Begins the table that is asked for. It must not be written over a sheet.
fn begin_table(options: &Options, sheets: &[PathBuf]) -> Result<Option<Table>, String> {
    let Some(path) = &options.table else {
        return Ok(None);
    };
    let own = path.canonicalize().ok();
    let over = |sheet: &PathBuf| own.is_some() && sheet.canonicalize().ok() == own;
    if sheets.iter().any(over) {
        return Err(format!("--table: {} is a sheet itself", path.display()));
    }
    Table::create(path).map(Some)
}

/// The sheets that failed once more, where they are found among many lines.
fn tell_failed(failed: &[&Result<Source, String>], sheets: usize) {
    for sheet in failed {
        tell_progress(&format!("failed: {}", name(sheet)));
    }
    tell_progress(&format!("{} of {sheets} sheets failed", failed.len()));
}

/// What is asked for of every sheet, the sheets, and the table.
type Prepared = (Wanted, Vec<Result<Source, String>>, Option<Table>);

/// What the words ask for; or what is wrong with them.
fn prepare(options: &Options) -> Result<Prepared, String> {
    let sheets = sources(&options.named);
    let path = |source: &Source| match source {
        Source::File(path) => Some(path.clone()),
        Source::StandardInput => None,
    };
    let paths: Vec<PathBuf> = sheets.iter().flatten().filter_map(path).collect();
    let store = options
        .out
        .as_ref()
        .map(|folder| Store::new(folder, &paths));
    let wanted = Wanted {
        time: options.time,
        quiet: options.quiet,
        store: store.transpose()?,
        table: options.table.is_some(),
    };
    let table = begin_table(options, &paths)?;
    Ok((wanted, sheets, table))
}

/// A text that is all there is to print.
fn told(text: &str) -> ExitCode {
    ExitCode::from(u8::from(print(text).is_err()))
}

fn main() -> ExitCode {
    let options = match Options::read(std::env::args_os().skip(1)) {
        Ok(options) if options.help => return told(HELP),
        Ok(options) if options.version => return told(VERSION),
        read => read,
    };
    match options.and_then(|options| prepare(&options)) {
        Ok((wanted, sheets, table)) => ExitCode::from(u8::from(!lift_all(&sheets, &wanted, table))),
        Err(told) => {
            tell(&told);
            ExitCode::from(WRONG_USAGE)
        }
    }
}
