//! The maps as they stood before a command.
//!
//! A run tells only how it ended, so that the maps in its midst are those of a
//! shorter run. A refused command leaves both maps as they were, and so does one
//! that only looks: the accepted edits and lifts alone make the same maps, in
//! tables with no more rows than they need.

#[cfg(test)]
mod tests;

use crate::rows::Rows;
use laremban::naming::Names;
use laremban::{
    Command, Commands, Kind, LiftedTables, Map, Plan, PlanTables, Side, Size, Sizes, Span, run,
};

/// What all reruns and looks for words together may cost, in darts: some
/// seconds.
pub(crate) const PATIENCE: usize = 1_000_000_000;

/// Both maps in their tables.
pub(crate) struct Maps {
    plan: PlanTables,
    lifted: LiftedTables,
    sizes: Sizes,
}

impl Maps {
    /// A side's map, to be read.
    pub(crate) fn map(&self, side: Side) -> Map<'_> {
        let Sizes { plan, lifted } = self.sizes;
        match side {
            Side::Plan => self.plan.map(plan.dimension, plan.count),
            Side::Lifted => self.lifted.map(lifted.dimension, lifted.count),
        }
    }

    /// The plan, to be read.
    pub(crate) fn plan(&self) -> Map<'_> {
        self.map(Side::Plan)
    }

    /// The plan, to be lent to a call.
    pub(crate) fn lend(&mut self) -> Plan<'_> {
        let size = self.sizes.plan;
        self.plan.plan(size.dimension, size.count)
    }
}

/// An accepted command, and what it costs to run it again.
struct Edit {
    command: Command,
    cost: usize,
}

/// What the plan has to do with the edits up to the last LIFT.
#[derive(Clone, Copy)]
enum Since {
    /// It was edited on, if at all.
    Continued,
    /// It was begun anew.
    Anew,
    /// It was adopted from that LIFT.
    Adopted,
}

/// What was accepted so far, as far as it still matters, and the maps that it
/// makes.
pub(crate) struct History {
    edits: Vec<Edit>,
    /// What a run of the edits costs.
    cost: usize,
    /// How many edits there are up to the last LIFT, itself too.
    up_to_lift: usize,
    since_lift: Since,
    /// The plan's size when the last LIFT was taken.
    lifted_plan: Size,
    sizes: Sizes,
    /// The most darts that each side had.
    most: Sizes,
    /// What is left of the patience.
    left: usize,
    /// The maps, where nothing was accepted since they were made.
    maps: Option<Maps>,
    /// The plan's rows, as far as the accepted commands tell them.
    rows: Rows,
    /// The names of the lifted darts, where they were asked for since the last
    /// LIFT.
    names: Option<Names>,
}

impl History {
    /// Nothing was accepted yet, and reruns for words may cost so much in all.
    pub(crate) fn new(patience: usize) -> History {
        History {
            edits: Vec::new(),
            cost: 0,
            up_to_lift: 0,
            since_lift: Since::Continued,
            lifted_plan: Size::default(),
            sizes: Sizes::default(),
            most: Sizes::default(),
            left: patience,
            maps: None,
            rows: Rows::new(),
            names: None,
        }
    }

    /// The sizes of both maps.
    pub(crate) fn sizes(&self) -> Sizes {
        self.sizes
    }

    /// Takes a command that was accepted.
    pub(crate) fn accept(&mut self, command: Command, value: u16) {
        let kind = command.kind();
        match kind {
            Kind::WritesPlan | Kind::WritesLifted => {}
            Kind::Looks | Kind::EndsRun => return,
        }
        self.rows.accept(command, value, self.sizes.plan.dimension);
        self.sizes = self.sizes.after(command, value);
        self.most.plan.count = self.most.plan.count.max(self.sizes.plan.count);
        self.most.lifted.count = self.most.lifted.count.max(self.sizes.lifted.count);
        self.forget(command);
        // Of most commands the value is how many darts are written.
        let cost = match command {
            Command::Dart => 1,
            _ => 1 + usize::from(value),
        };
        self.edits.push(Edit { command, cost });
        self.cost += cost;
        match command {
            Command::New { .. } => self.since_lift = Since::Anew,
            Command::Adopt => self.since_lift = Since::Adopted,
            // Every other command that writes the plan edits it on.
            _ => {}
        }
        if kind == Kind::WritesLifted {
            self.since_lift = Since::Continued;
            self.up_to_lift = self.edits.len();
            self.lifted_plan = self.sizes.plan;
            self.names = None;
        }
        self.maps = None;
    }

    /// Drops what no longer matters once a command is accepted: NEW leaves
    /// nothing of the plan, and LIFT nothing of the lift before it, unless the
    /// plan was made from that.
    fn forget(&mut self, command: Command) {
        let lift = self.up_to_lift;
        let dropped = match (command.kind(), self.since_lift) {
            (Kind::WritesLifted, Since::Continued) => lift.saturating_sub(1)..lift,
            (Kind::WritesLifted, Since::Anew) => 0..lift,
            _ if matches!(command, Command::New { .. }) => lift..self.edits.len(),
            _ => return,
        };
        let costs = self.edits.drain(dropped).map(|edit| edit.cost);
        self.cost -= costs.sum::<usize>();
    }

    /// The maps, made again where they have changed.
    pub(crate) fn maps(&mut self) -> &mut Maps {
        let (edits, most, sizes) = (&self.edits, self.most, self.sizes);
        self.maps.get_or_insert_with(|| rerun(edits, most, sizes))
    }

    /// The lifted map with the names of its darts. They come from the plan as it
    /// was when the last LIFT was taken, whatever became of it since: the edits up
    /// to there are never forgotten.
    pub(crate) fn named(&mut self) -> (Map<'_>, &Names) {
        let (edits, most, size) = (&self.edits, self.most, self.lifted_plan);
        let names = self.names.get_or_insert_with(|| {
            let sizes = Sizes {
                plan: size,
                lifted: Size::default(),
            };
            Names::of(&rerun(&edits[..self.up_to_lift], most, sizes).plan())
        });
        let sizes = self.sizes;
        let maps = self.maps.get_or_insert_with(|| rerun(edits, most, sizes));
        (maps.map(Side::Lifted), names)
    }

    /// The maps, as long as patience lasts; a look at them costs so much.
    pub(crate) fn patient_maps(&mut self, look: usize) -> Option<&mut Maps> {
        let rows = self.most.plan.count + self.most.lifted.count;
        let again = match self.maps {
            None => self.cost + rows,
            Some(_) => 0,
        };
        self.left = self.left.checked_sub(again + look)?;
        Some(self.maps())
    }

    /// The row of a dart of the plan, by the accepted commands, or where these do
    /// not tell it by the maps, as long as patience lasts.
    pub(crate) fn row(&mut self, dart: u16) -> Option<&[Span]> {
        if self.rows.row(dart).is_none() {
            let plan = self.patient_maps(self.sizes.plan.count)?.plan();
            self.rows = Rows::of(&plan);
        }
        self.rows.row(dart)
    }
}

/// The maps that edits make, all of which are accepted.
fn rerun(edits: &[Edit], most: Sizes, sizes: Sizes) -> Maps {
    let list: Commands = edits.iter().map(|edit| edit.command).collect();
    let mut plan = PlanTables::new(most.plan.count);
    let mut lifted = LiftedTables::new(most.lifted.count);
    let mut memory = list.reply_memory();
    let ended = run(
        list.bytes(),
        &mut plan.lend(),
        &mut lifted.lend(),
        &mut memory,
    );
    assert_eq!(ended.refused, 0, "an edit is refused that was accepted");
    Maps {
        plan,
        lifted,
        sizes,
    }
}
