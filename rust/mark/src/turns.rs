//! Which sheet comes next, where several are tried side by side.

use std::sync::atomic::{AtomicUsize, Ordering};

/// After so many sheets on which the program did not end in time no other is
/// tried: each takes as long as a run may take.
pub(crate) const MOST_HUNG: usize = 5;

/// Hands out sheets by their places, one after the other.
pub(crate) struct Turns {
    sheets: usize,
    next: AtomicUsize,
    hung: AtomicUsize,
}

impl Turns {
    /// So many sheets, none of which is tried so far.
    pub(crate) fn new(sheets: usize) -> Turns {
        Turns {
            sheets,
            next: AtomicUsize::new(0),
            hung: AtomicUsize::new(0),
        }
    }

    /// The first that nobody else has begun. All before it are begun then.
    pub(crate) fn next(&self) -> Option<usize> {
        let at = self.next.fetch_add(1, Ordering::Relaxed);
        (at < self.sheets).then_some(at)
    }

    /// No other is begun.
    pub(crate) fn stop(&self) {
        self.next.store(self.sheets, Ordering::Relaxed);
    }

    /// The program did not end in time on one of them.
    pub(crate) fn hung(&self) {
        if self.hung.fetch_add(1, Ordering::Relaxed) + 1 >= MOST_HUNG {
            self.stop();
        }
    }
}
