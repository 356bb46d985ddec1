//! The parts of the comparison, on as many threads as there are processors.

use std::collections::BTreeMap;
use std::num::NonZero;
use std::sync::atomic::{AtomicUsize, Ordering};
use std::sync::mpsc::{self, Sender};
use std::thread;

use crate::tally::Tally;

/// Compares one thing, on cases that it draws by itself: the same, whatever else runs.
pub type Part = fn(&mut Tally);

/// Runs all parts. What they say is shown in their order, whichever ends first.
pub fn run(parts: &[Part], seed: u64, times: u64) -> Tally {
    let threads = thread::available_parallelism().map_or(1, NonZero::get);
    let next = AtomicUsize::new(0);
    let (ended, endings) = mpsc::channel();
    thread::scope(|scope| {
        for _ in 0..threads.min(parts.len()) {
            let (next, ended) = (&next, ended.clone());
            scope.spawn(move || work(parts, next, &ended, seed, times));
        }
        drop(ended);
        let mut total = Tally::new(seed, times);
        let mut waiting = BTreeMap::new();
        let mut shown = 0;
        for (part, tally) in endings {
            waiting.insert(part, tally);
            while let Some(tally) = waiting.remove(&shown) {
                print!("{}", tally.said);
                total.add(&tally);
                shown += 1;
            }
        }
        total
    })
}

/// Takes one part after the other that nobody has begun.
fn work(parts: &[Part], next: &AtomicUsize, ended: &Sender<(usize, Tally)>, seed: u64, times: u64) {
    loop {
        let part = next.fetch_add(1, Ordering::Relaxed);
        let Some(compare) = parts.get(part) else {
            return;
        };
        let mut tally = Tally::new(seed, times);
        compare(&mut tally);
        // The other end waits for every part.
        let _ = ended.send((part, tally));
    }
}
