//! A plan that can be taken apart, written and lifted.

use laremban::naming::Names;
use laremban::{COORDINATES, DARTS, LINKS, LiftedTables, Map, PlanTables, SPAN_NUMBERS};
use laremban::{Span, check, lift, text};

/// A plan: the links, the place and the row of each dart.
#[derive(Clone, Debug, PartialEq, Eq)]
pub struct Sheet {
    /// Its dimension, 1 to 4.
    pub dimension: usize,
    /// The links of each dart, along axes 0 to the dimension.
    pub links: Vec<Vec<usize>>,
    /// The place of each dart.
    pub places: Vec<Vec<i32>>,
    /// The row of spans of each dart.
    pub rows: Vec<Vec<Span>>,
}

/// A lifted map in its tables.
pub struct Lifted {
    tables: LiftedTables,
    dimension: u8,
    count: usize,
}

impl Lifted {
    /// The map, to be read.
    pub fn map(&self) -> Map<'_> {
        self.tables.map(self.dimension, self.count)
    }
}

impl Sheet {
    /// The sheet that a map has.
    pub fn of(map: &Map) -> Sheet {
        let darts = 0..map.count();
        let links = |dart| {
            let axes = 0..=map.dimension();
            axes.map(|axis| map.link(dart, axis)).collect()
        };
        Sheet {
            dimension: map.dimension(),
            links: darts.clone().map(links).collect(),
            places: darts.clone().map(|dart| map.place(dart).to_vec()).collect(),
            rows: darts.map(|dart| map.row(dart)).collect(),
        }
    }

    /// How many darts it has.
    pub fn count(&self) -> usize {
        self.links.len()
    }

    /// Its tables.
    pub fn tables(&self) -> PlanTables {
        let mut tables = PlanTables::new(self.count());
        for dart in 0..self.count() {
            let links = &mut tables.links[LINKS * dart..][..LINKS];
            // Darts are below 16,384.
            links.fill(dart as u16);
            for (link, &to) in links.iter_mut().zip(&self.links[dart]) {
                *link = to as u16;
            }
            tables.places[COORDINATES * dart..][..self.dimension]
                .copy_from_slice(&self.places[dart]);
            let row = &mut tables.spans[SPAN_NUMBERS * dart..][..SPAN_NUMBERS];
            let spans = self.rows[dart].iter();
            let numbers = spans.flat_map(|span| [span.lo, span.hi, span.object.into()]);
            row[0] = self.rows[dart].len() as i32;
            for (room, number) in row[1..].iter_mut().zip(numbers) {
                *room = number;
            }
        }
        tables
    }

    /// Its dimension as calls have it.
    pub(crate) fn byte(&self) -> u8 {
        self.dimension as u8
    }

    /// What is done with the map in its tables.
    pub fn with_map<T>(&self, look: impl FnOnce(&Map) -> T) -> T {
        look(&self.tables().map(self.byte(), self.count()))
    }

    /// Which cell of an axis each dart belongs to.
    pub fn cells(&self, axis: usize) -> Vec<usize> {
        self.with_map(|map| map.cells(axis))
    }

    /// The names of the darts of its lift.
    pub fn names(&self) -> Names {
        self.with_map(Names::of)
    }

    /// Its text, which is what a program reads.
    pub fn text(&self) -> String {
        self.with_map(|map| text::plan::write(*map))
    }

    /// Its lift by the proved code; nothing where the check or the lift refuses.
    pub fn lifted(&self) -> Option<Lifted> {
        let (mut tables, count) = (self.tables(), self.count());
        check(&tables.plan(self.byte(), count)).ok()?;
        let room = self.names().count();
        if room > DARTS {
            return None;
        }
        let mut lifted = LiftedTables::new(room);
        let count = lift(&mut tables.plan(self.byte(), count), &mut lifted.lend()).ok()?;
        Some(Lifted {
            tables: lifted,
            dimension: self.byte() + 1,
            count: count.into(),
        })
    }

    /// The same sheet with dart `order[d]` for dart d.
    pub fn renumbered(&self, order: &[usize]) -> Sheet {
        let mut other = self.clone();
        for dart in 0..self.count() {
            let to = order[dart];
            other.links[to] = self.links[dart].iter().map(|&link| order[link]).collect();
            other.places[to].clone_from(&self.places[dart]);
            other.rows[to].clone_from(&self.rows[dart]);
        }
        other
    }

    /// What is left of it where only some darts are kept. Links to others are
    /// free then.
    pub fn kept(&self, keep: &[bool]) -> Sheet {
        let darts: Vec<usize> = (0..self.count()).filter(|&dart| keep[dart]).collect();
        let mut number = vec![None; self.count()];
        for (to, &dart) in darts.iter().enumerate() {
            number[dart] = Some(to);
        }
        let links = |dart: &usize| {
            let links = self.links[*dart].iter();
            let own = number[*dart].unwrap_or(0);
            links.map(|&link| number[link].unwrap_or(own)).collect()
        };
        Sheet {
            dimension: self.dimension,
            links: darts.iter().map(links).collect(),
            places: darts
                .iter()
                .map(|&dart| self.places[dart].clone())
                .collect(),
            rows: darts.iter().map(|&dart| self.rows[dart].clone()).collect(),
        }
    }

    /// Gives every dart of each cell what is drawn for the cell.
    pub fn by_cells<T: Clone>(cells: &[usize], mut drawn: impl FnMut(usize) -> T) -> Vec<T> {
        let many = cells.iter().map(|cell| cell + 1).max().unwrap_or(0);
        let each: Vec<T> = (0..many).map(&mut drawn).collect();
        cells.iter().map(|&cell| each[cell].clone()).collect()
    }
}

/// The lowest dart of each cell.
pub fn firsts(cells: &[usize]) -> Vec<usize> {
    let mut next = 0;
    let darts = cells.iter().enumerate();
    darts
        .filter(|&(_, &cell)| {
            let first = cell == next;
            next += usize::from(first);
            first
        })
        .map(|(dart, _)| dart)
        .collect()
}
