//! The rows of a plan's top cells, as far as the accepted commands tell them, so
//! that a long list is not run again for each of its spans.
//!
//! Which darts make a top cell is followed here, and compared with the reply to
//! each span. What a span makes of a row, the proved run says. What is not known so
//! the maps tell.

use crate::joining::brought;
use laremban::{Command, Commands, LiftedTables, Map, PlanTables, Span, run};

/// A top cell: how many darts it has, and their row.
#[derive(Clone, Default)]
struct Cell {
    darts: usize,
    row: Vec<Span>,
}

/// The top cells of a plan. Each stands at one of its darts, and every other of
/// its darts leads there.
#[derive(Default)]
struct Cells {
    towards: Vec<usize>,
    cells: Vec<Cell>,
}

impl Cells {
    fn add_dart(&mut self) {
        let row = Vec::new();
        self.towards.push(self.cells.len());
        self.cells.push(Cell { darts: 1, row });
    }

    /// The dart at which a dart's cell stands.
    fn find(&self, mut dart: usize) -> usize {
        while self.towards[dart] != dart {
            dart = self.towards[dart];
        }
        dart
    }

    /// Makes one cell of two: their rows are the same, or they were not sewn.
    fn unite(&mut self, a: usize, b: usize) {
        let (a, b) = (self.find(a), self.find(b));
        if a != b {
            // The less to the more, so that no way is long.
            let (less, more) = match self.cells[a].darts < self.cells[b].darts {
                true => (a, b),
                false => (b, a),
            };
            self.towards[less] = more;
            self.cells[more].darts += std::mem::take(&mut self.cells[less]).darts;
        }
    }

    /// The cell of a dart, which has so many darts by the reply of a run.
    fn cell(&mut self, dart: u16, darts: usize) -> Option<&mut Cell> {
        let at = self.find(dart.into());
        Some(&mut self.cells[at]).filter(|cell| cell.darts == darts)
    }
}

/// The rows of a plan's top cells; nothing where only the maps tell them.
pub(crate) struct Rows(Option<Cells>);

impl Rows {
    /// Of a plan without darts.
    pub(crate) fn new() -> Rows {
        Rows(Some(Cells::default()))
    }

    /// Of a plan that a run left.
    pub(crate) fn of(plan: &Map) -> Rows {
        let mut cells = Cells::default();
        let mut first = Vec::new();
        for (dart, cell) in plan.cells(plan.dimension()).into_iter().enumerate() {
            cells.add_dart();
            if cell == first.len() {
                first.push(dart);
                cells.cells[dart].row = plan.row(dart);
            }
            cells.unite(first[cell], dart);
        }
        Rows(Some(cells))
    }

    /// The row of a dart, where it is known.
    pub(crate) fn row(&self, dart: u16) -> Option<&[Span]> {
        let cells = self.0.as_ref()?;
        Some(&cells.cells[cells.find(dart.into())].row)
    }

    /// Takes a command that was accepted with a value, by a plan of a dimension.
    pub(crate) fn accept(&mut self, command: Command, value: u16, dimension: u8) {
        if let Command::New { .. } = command {
            *self = Rows::new();
        }
        let known = self.0.as_mut();
        let known = known.and_then(|cells| follow(cells, command, value.into(), dimension));
        if known.is_none() {
            self.0 = None;
        }
    }
}

/// What a command makes of top cells and rows; nothing where it does not tell.
fn follow(cells: &mut Cells, command: Command, value: usize, dimension: u8) -> Option<()> {
    match command {
        Command::Dart => cells.add_dart(),
        Command::Sew { axis, .. } | Command::Unsew { axis, .. } if axis == dimension => {}
        // All darts that it links are of the two top cells, unless some were
        // reached along the last axis.
        Command::Sew { axis, a, b } if value == 2 || axis + 1 == dimension => {
            cells.unite(a.into(), b.into());
        }
        Command::Clear { dart } => cells.cell(dart, value)?.row.clear(),
        Command::Span { .. } | Command::SpanOf { .. } => {
            let (dart, new) = brought(command)?;
            let cell = cells.cell(dart, value)?;
            cell.row = row_with(&cell.row, new)?;
        }
        Command::New { .. } | Command::Place { .. } | Command::Lift | Command::Count { .. } => {}
        // UNSEW parts cells, and ADOPT brings others.
        _ => return None,
    }
    Some(())
}

/// The row that a new span leaves, by the proved run: on a dart alone, with the row
/// as it was.
fn row_with(row: &[Span], new: Span) -> Option<Vec<Span>> {
    let mut list = Commands::new();
    list.new_plan(1).dart();
    for &Span { lo, hi, object, .. } in row.iter().chain([&new]) {
        list.span_of(0, lo, hi, object);
    }
    let (mut plan, mut lifted) = (PlanTables::new(1), LiftedTables::new(0));
    let mut memory = list.reply_memory();
    let (p, l) = (&mut plan.lend(), &mut lifted.lend());
    let ended = run(list.bytes(), p, l, &mut memory);
    (ended.refused == 0).then(|| plan.map(1, 1).row(0))
}
