//! The commands that build a sheet, and the sheet that commands build.

use crate::sheet::{Sheet, firsts};
use laremban::{Commands, LiftedTables, PlanTables, run, sizes};
use laremban_script::words_of_bytes;

/// Room for the plan and the lifted map of a list; what is larger is refused.
const ROOM: usize = 1_024;

impl Sheet {
    /// The plan that a list of commands leaves. Those that are refused leave it
    /// as it was.
    pub fn of_commands(list: &Commands) -> Sheet {
        let (mut plan, mut lifted) = (PlanTables::new(ROOM), LiftedTables::new(ROOM));
        let mut memory = list.reply_memory();
        let (p, l) = (&mut plan.lend(), &mut lifted.lend());
        let ended = run(list.bytes(), p, l, &mut memory);
        let size = sizes(list.bytes(), &memory, ended).plan;
        Sheet::of(&plan.map(size.dimension, size.count))
    }

    /// The commands that build its darts and links: axis by axis, since links
    /// along the axes far below an axis are what a pair is linked by.
    pub fn links_list(&self) -> Commands {
        let mut list = Commands::new();
        list.new_plan(self.byte()).darts(self.count());
        for axis in 0..=self.dimension {
            let far: Vec<usize> = (0..axis.saturating_sub(1)).collect();
            let orbits = self.with_map(|map| map.orbits(&far));
            let mut sewn = vec![false; self.count()];
            for (dart, links) in self.links.iter().enumerate() {
                let to = links[axis];
                if to != dart && !sewn[orbits[dart]] {
                    sewn[orbits[dart]] = true;
                    sewn[orbits[to]] = true;
                    list.sew(axis as u8, dart as u16, to as u16);
                }
            }
        }
        list
    }

    /// The commands that build it.
    pub fn commands(&self) -> Commands {
        let mut list = self.links_list();
        let (corners, tops) = (self.cells(0), self.cells(self.dimension));
        for dart in firsts(&corners) {
            for (axis, &coordinate) in self.places[dart].iter().enumerate() {
                if coordinate != 0 {
                    list.place(dart as u16, axis as u8, coordinate);
                }
            }
        }
        for dart in firsts(&tops) {
            for span in &self.rows[dart] {
                match span.object {
                    0 => list.span(dart as u16, span.lo, span.hi),
                    object => list.span_of(dart as u16, span.lo, span.hi, object),
                };
            }
        }
        list
    }

    /// The script that builds and lifts it.
    pub fn script(&self) -> String {
        words_of_bytes(self.commands().lift().bytes())
    }

    /// Whether its commands build it again, and its lift fits.
    pub fn is_buildable(&self) -> bool {
        Sheet::of_commands(&self.commands()) == *self && self.lifted().is_some()
    }
}
