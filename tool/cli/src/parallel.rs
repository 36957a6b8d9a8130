//! Work on all cores.

use rayon::prelude::*;
use rayon::{ThreadPool, ThreadPoolBuilder};
use std::thread::available_parallelism;

/// Bytes of a thread's stack; a call of the engine needs half of them at most.
const STACK: usize = 2 << 20;

/// What is made of each item, in order; one behind the other where the
/// system gives no threads.
pub fn on_all_cores<I: Sync, T: Send>(items: &[I], make: impl Fn(&I) -> T + Sync) -> Vec<T> {
    let cores = available_parallelism().map_or(1, usize::from);
    match threads(cores.min(items.len()), STACK) {
        Some(threads) => threads.install(|| items.par_iter().map(&make).collect()),
        None => items.iter().map(make).collect(),
    }
}

/// None where one is enough, or the system gives none.
fn threads(count: usize, stack: usize) -> Option<ThreadPool> {
    if count < 2 {
        return None;
    }
    let builder = ThreadPoolBuilder::new().num_threads(count);
    builder.stack_size(stack).build().ok()
}

#[cfg(test)]
mod tests {
    use super::*;

    #[test]
    fn results_are_in_the_order_of_the_items() {
        for items in [0, 1, 2, 100] {
            let numbers: Vec<usize> = (0..items).collect();
            let doubled = on_all_cores(&numbers, |number| 2 * number);
            assert_eq!(doubled, (0..items).map(|i| 2 * i).collect::<Vec<_>>());
        }
    }

    #[test]
    fn threads_that_the_system_does_not_give_are_done_without() {
        assert!(threads(2, STACK).is_some());
        // more than any address space has
        assert!(threads(2, 1 << 56).is_none());
    }
}
