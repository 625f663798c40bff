//! The benchmark's loops over shards and clusters: the engine's calls with
//! their words at hand, the reference's with their fields.

use std::time::{Duration, Instant};

use engine::{Call, answer_code, play};
use plankeeper::Ledger;
use plankeeper::boundary::Memory;
use reference::{Cluster, LIMITS, Record, Shard};

/// A week for a lone shard, if it has a number, or for a cluster. What each
/// side is handed is prepared beforehand.
pub struct Week {
    /// The lone shard's number.
    pub shard: Option<u8>,
    /// The reference's calls.
    pub records: Vec<Record>,
    /// The engine's.
    pub calls: Vec<Call>,
}

impl Week {
    /// The week of these calls.
    pub fn new(shard: Option<u8>, records: Vec<Record>) -> Self {
        let calls = records.iter().map(Call::from).collect();
        Week {
            shard,
            records,
            calls,
        }
    }
}

/// All answers' codes in their order, folded into one number, and the time for
/// the calls. Making the ledgers is not counted.
pub type Run = (u64, Duration);

/// Plays the week so many times with the engine, each time from empty.
pub fn engine_run(week: &Week, rounds: usize) -> Run {
    match week.shard {
        Some(number) => held_run(&mut engine::shard(number), &week.calls, rounds),
        None => held_run(&mut engine::cluster(), &week.calls, rounds),
    }
}

/// The same with the reference.
pub fn reference_run(week: &Week, rounds: usize) -> Run {
    let records = &week.records;
    match week.shard {
        Some(number) => {
            let fresh = |shard: &mut Shard| *shard = Shard::new(number, LIMITS);
            let play = |shard: &mut Shard, record: &Record| answer_code(shard.play(record));
            run(
                &mut Shard::new(number, LIMITS),
                records,
                rounds,
                fresh,
                play,
            )
        }
        None => {
            let fresh = |cluster: &mut Cluster| *cluster = Cluster::new(LIMITS);
            let play = |cluster: &mut Cluster, record: &Record| answer_code(cluster.play(record));
            run(&mut Cluster::new(LIMITS), records, rounds, fresh, play)
        }
    }
}

fn held_run<M: Memory>(ledger: &mut Ledger<M>, calls: &[Call], rounds: usize) -> Run {
    run(ledger, calls, rounds, Ledger::renew, code)
}

/// Makes the engine's call and gives its answer's code.
#[inline]
pub(crate) fn code<M: Memory>(ledger: &mut Ledger<M>, call: &Call) -> u32 {
    plankeeper::answer_code(&play(ledger, call))
}

#[inline(always)]
fn run<L, C>(
    ledger: &mut L,
    calls: &[C],
    rounds: usize,
    fresh: impl Fn(&mut L),
    play: impl Fn(&mut L, &C) -> u32,
) -> Run {
    let (mut fold, mut time) = (0, Duration::ZERO);
    for _ in 0..rounds {
        fresh(ledger);
        let start = Instant::now();
        for call in calls {
            fold = folded(fold, play(ledger, call));
        }
        time += start.elapsed();
    }
    (fold, time)
}

/// Another order of the answers gives another number.
pub(crate) fn folded(fold: u64, code: u32) -> u64 {
    fold.wrapping_mul(31).wrapping_add(code.into())
}
