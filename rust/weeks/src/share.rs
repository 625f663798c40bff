//! Work for all processors.

use std::sync::atomic::{AtomicU64, Ordering};
use std::{iter, panic, thread};

use crate::tally::Tally;

/// Shares the jobs 0 up to `jobs` out among the processors, each job to
/// whichever is free, and gives what each has made of its own. Panics if one
/// does.
pub fn share_out<T: Send>(
    jobs: u64,
    work: impl Fn(&mut dyn Iterator<Item = u64>) -> T + Sync,
) -> Vec<T> {
    let next = AtomicU64::new(0);
    let worker = || {
        let _stop = StopOthers { next: &next, jobs };
        let job = || Some(next.fetch_add(1, Ordering::Relaxed));
        work(&mut iter::from_fn(job).take_while(|&job| job < jobs))
    };
    let workers = thread::available_parallelism().map_or(1, usize::from);
    thread::scope(|scope| {
        let running: Vec<_> = (0..workers).map(|_| scope.spawn(worker)).collect();
        let ended = running.into_iter().map(|worker| worker.join());
        ended
            .map(|made| made.unwrap_or_else(|fault| panic::resume_unwind(fault)))
            .collect()
    })
}

/// Lets the other workers come to their end, too, when this one fails.
struct StopOthers<'a> {
    next: &'a AtomicU64,
    jobs: u64,
}

impl Drop for StopOthers<'_> {
    fn drop(&mut self) {
        if thread::panicking() {
            self.next.store(self.jobs, Ordering::Relaxed);
        }
    }
}

/// Plays so many weeks, shared out, and gives all counts and the number of
/// calls. `play` is handed what its processor holds, such as the engine's
/// memory, which `held` makes, and the week's number; it gives the number of
/// calls.
pub fn count_weeks<E>(
    weeks: u64,
    held: impl Fn() -> E + Sync,
    play: impl Fn(&mut E, &mut Tally, u64) -> usize + Sync,
) -> (Tally, usize) {
    let counts = share_out(weeks, |jobs| {
        let (mut engine, mut tally) = (held(), Tally::default());
        let calls: usize = jobs.map(|week| play(&mut engine, &mut tally, week)).sum();
        (tally, calls)
    });
    let (mut all, mut calls) = (Tally::default(), 0);
    for (tally, played) in counts {
        all.join(tally);
        calls += played;
    }
    (all, calls)
}
