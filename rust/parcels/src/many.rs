//! Many jobs side by side, with their results taken in order.

use std::collections::BTreeMap;
use std::ops::ControlFlow;
use std::sync::{Condvar, Mutex, MutexGuard, PoisonError};
use std::thread;

/// So many results for each thread may wait for an earlier one: no more memory
/// is held than they need.
const AHEAD: usize = 4;

/// How far the threads are.
struct State<R> {
    next: usize,
    taken: usize,
    stopped: bool,
    done: BTreeMap<usize, R>,
}

struct Shared<R> {
    state: Mutex<State<R>>,
    changed: Condvar,
}

impl<R> Shared<R> {
    fn lock(&self) -> MutexGuard<'_, State<R>> {
        self.state.lock().unwrap_or_else(PoisonError::into_inner)
    }

    /// Waits until something holds of the state.
    fn wait(&self, until: impl Fn(&State<R>) -> bool) -> MutexGuard<'_, State<R>> {
        let wait = self.changed.wait_while(self.lock(), |state| !until(state));
        wait.unwrap_or_else(PoisonError::into_inner)
    }

    /// The next item that a thread is to work on.
    fn next(&self, items: usize, ahead: usize) -> Option<usize> {
        let free = |state: &State<R>| state.next >= items || state.next < state.taken + ahead;
        let mut state = self.wait(|state| state.stopped || free(state));
        let own = state.next;
        state.next += 1;
        (own < items && !state.stopped).then_some(own)
    }

    fn hand_in(&self, own: usize, result: R) {
        self.lock().done.insert(own, result);
        self.changed.notify_all();
    }

    /// The result of an item, once it is there.
    fn result(&self, own: usize) -> Option<R> {
        let mut state = self.wait(|state| state.done.contains_key(&own));
        state.taken = own + 1;
        self.changed.notify_all();
        state.done.remove(&own)
    }

    fn stop(&self) {
        self.lock().stopped = true;
        self.changed.notify_all();
    }
}

/// Works on items by so many threads, and takes the results one by one in the
/// order of the items, until one of them ends it. `work` must not panic.
///
/// ```
/// use laremban_parcels::many::in_order;
/// use std::ops::ControlFlow;
///
/// let mut squares = Vec::new();
/// in_order(&[3, 1, 2], 2, |x| x * x, |_, square| {
///     squares.push(square);
///     ControlFlow::Continue(())
/// });
/// assert_eq!(squares, [9, 1, 4]);
/// ```
pub fn in_order<T: Sync, R: Send>(
    items: &[T],
    threads: usize,
    work: impl Fn(&T) -> R + Sync,
    mut take: impl FnMut(usize, R) -> ControlFlow<()>,
) {
    let threads = threads.clamp(1, items.len().max(1));
    let shared = Shared {
        state: Mutex::new(State {
            next: 0,
            taken: 0,
            stopped: false,
            done: BTreeMap::new(),
        }),
        changed: Condvar::new(),
    };
    thread::scope(|scope| {
        for _ in 0..threads {
            scope.spawn(|| {
                while let Some(own) = shared.next(items.len(), AHEAD * threads) {
                    shared.hand_in(own, work(&items[own]));
                }
            });
        }
        for own in 0..items.len() {
            let taken = shared.result(own).map(|result| take(own, result));
            if taken.is_none_or(|flow| flow.is_break()) {
                shared.stop();
                return;
            }
        }
    });
}

#[cfg(test)]
mod tests {
    use super::*;
    use std::sync::atomic::{AtomicUsize, Ordering};
    use std::time::Duration;

    #[test]
    fn results_come_in_order_and_none_runs_far_ahead() {
        let items: Vec<usize> = (0..200).collect();
        let begun = AtomicUsize::new(0);
        let work = |&item: &usize| {
            begun.fetch_add(1, Ordering::SeqCst);
            if item == 0 {
                thread::sleep(Duration::from_millis(50));
            }
            item
        };
        let mut taken = Vec::new();
        in_order(&items, 3, work, |at, item| {
            assert!(begun.load(Ordering::SeqCst) <= at + 1 + 3 * AHEAD);
            taken.push(item);
            ControlFlow::Continue(())
        });
        assert_eq!(taken, items);
    }

    #[test]
    fn it_ends_when_a_result_ends_it() {
        let items: Vec<usize> = (0..1_000).collect();
        let mut many = 0;
        in_order(
            &items,
            4,
            |&item| item,
            |_, item| {
                many += 1;
                if item == 5 {
                    ControlFlow::Break(())
                } else {
                    ControlFlow::Continue(())
                }
            },
        );
        assert_eq!(many, 6);
        in_order(
            &[],
            4,
            |&item: &usize| item,
            |_, _| ControlFlow::Continue(()),
        );
    }
}
