//! The plan's tables lent in the middle of rubbish, so that whatever is written
//! beside them shows.

use proved::Tables;
pub use proved::lent::*;
use reference::cases::Plan;
use reference::random::Random;
use reference::raws::litter_u16;

/// The plan's four tables, lent.
pub struct LentPlan {
    pub links: Lent<u16>,
    pub places: Lent<i32>,
    pub spans: Lent<i32>,
    pub work: Lent<u16>,
    pub dimension: u8,
    pub count: usize,
}

impl LentPlan {
    pub fn new(random: &mut Random, plan: &Plan) -> LentPlan {
        let work = litter_u16(random, plan.work);
        LentPlan {
            links: lend16(random, &plan.links),
            places: lend32(random, &plan.places),
            spans: lend32(random, &plan.spans),
            work: lend16(random, &work),
            dimension: plan.dimension,
            count: plan.count,
        }
    }

    pub fn tables(&mut self) -> Tables<'_> {
        let (links, places) = (self.links.part(), self.places.part());
        let (spans, work) = (self.spans.part(), self.work.part_mut());
        Tables::new(links, places, spans, work, self.dimension, self.count)
    }

    /// Nothing was written at all.
    pub fn is_untouched(&self) -> bool {
        self.is_untouched_but_work() && self.work.is_untouched_behind(0)
    }

    /// Nothing was written but numbers of work.
    pub fn is_untouched_but_work(&self) -> bool {
        self.links.is_untouched_behind(0)
            && self.places.is_untouched_behind(0)
            && self.spans.is_untouched_behind(0)
            && self.work.is_untouched_behind(self.work.part().len())
    }
}
