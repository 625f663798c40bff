//! Time for a call on a cluster by its kind.
//!
//! A call that changes something cannot be repeated where it stands, and
//! putting the state back takes longer than the call: a cluster has 76,928
//! bytes. So calls are timed where they stand: a week is cut into runs of calls
//! of one kind (all first mints are one run, most other runs are a call or
//! two), and the clock is read before and after each run. A clock may go in
//! steps longer than a call, so the times of all runs of a kind are summed up,
//! where the steps even out, and the least sum of many rounds is kept.
//!
//! What a pair of readings adds is found by playing the same week as one run:
//! the difference, shared out evenly among the runs, is subtracted. So all
//! kinds together take what the week takes without readings; a kind of short
//! calls that stand alone may seem some nanoseconds longer or shorter than it
//! is, since the processor works on a call and on a reading at once.

use std::array;
use std::ops::Range;
use std::time::{Duration, Instant};

use engine::answer_code;
use reference::{Answer, Cluster, Done, LIMITS, Record};

use crate::ledgers::{Week, code, folded};

/// Kinds of calls, in the order of the table.
pub const KINDS: [&str; 10] = [
    "mint",
    "mint refused",
    "register done",
    "register refused",
    "vote fresh",
    "vote bringing",
    "vote again",
    "vote refused",
    "turn",
    "turn refused",
];

/// The times of each kind's calls in all.
type Times = [Duration; KINDS.len()];

/// Calls of one kind, by its place among [`KINDS`], one behind the other.
type Runs = [(usize, Range<usize>)];

/// Calls of one kind.
#[derive(Clone, Copy, Default)]
pub struct Kind {
    /// How many.
    pub calls: usize,
    /// Their times in all, the engine's and the reference's.
    pub times: [Duration; 2],
}

/// Plays the cluster's weeks in so many rounds on both sides, in turn, and
/// gives the counts and times of each kind. Nothing if the answers differ.
pub fn kinds(weeks: &[Week], rounds: usize) -> Option<[Kind; KINDS.len()]> {
    let mut all = [Kind::default(); KINDS.len()];
    let mut cluster = engine::cluster();
    for week in weeks {
        assert_eq!(week.shard, None, "the weeks are a cluster's");
        let runs = runs(&week.records);
        let mut engine = |runs: &Runs| {
            cluster.renew();
            time(&week.calls, runs, |call| code(&mut cluster, call))
        };
        let mut reference = |runs: &Runs| {
            let mut cluster = Cluster::new(LIMITS);
            time(&week.records, runs, |record| {
                answer_code(cluster.play(record))
            })
        };
        let mut least = [Least::NONE; 2];
        for _ in 0..rounds {
            let [ours, expected] = &mut least;
            if ours.round(&runs, &mut engine) != expected.round(&runs, &mut reference) {
                return None;
            }
        }
        let [ours, expected] = least.map(|least| least.times(&runs));
        for (number, kind) in all.iter_mut().enumerate() {
            kind.calls += runs_of(number, &runs).map(Range::len).sum::<usize>();
            kind.times[0] += ours[number];
            kind.times[1] += expected[number];
        }
    }
    Some(all)
}

/// The least times of one side: of each kind with the week cut into runs, and
/// of the whole week.
struct Least {
    cut: Times,
    whole: Duration,
}

impl Least {
    const NONE: Least = Least {
        cut: [Duration::MAX; KINDS.len()],
        whole: Duration::MAX,
    };

    /// Plays the week both ways and gives its answers' codes, folded.
    fn round(&mut self, runs: &Runs, play: &mut dyn FnMut(&Runs) -> (u64, Times)) -> u64 {
        let (fold, times) = play(runs);
        self.cut = array::from_fn(|kind| self.cut[kind].min(times[kind]));
        let calls = runs.iter().map(|(_, range)| range.len()).sum();
        let (again, [whole, ..]) = play(&[(0, 0..calls)]);
        assert_eq!(again, fold, "the week again");
        self.whole = self.whole.min(whole);
        fold
    }

    /// Each kind's time without what the readings add.
    fn times(&self, runs: &Runs) -> Times {
        let added = self.cut.iter().sum::<Duration>().saturating_sub(self.whole);
        array::from_fn(|kind| {
            let share = added * runs_of(kind, runs).count() as u32 / runs.len() as u32;
            self.cut[kind].saturating_sub(share)
        })
    }
}

/// Makes the calls once, gives each kind's time and folds the answers' codes.
#[inline(always)]
fn time<C>(calls: &[C], runs: &Runs, mut play: impl FnMut(&C) -> u32) -> (u64, Times) {
    let (mut fold, mut times) = (0, Times::default());
    for (kind, range) in runs {
        let start = Instant::now();
        for call in &calls[range.clone()] {
            fold = folded(fold, play(call));
        }
        times[*kind] += start.elapsed();
    }
    (fold, times)
}

/// The week's runs.
fn runs(records: &[Record]) -> Vec<(usize, Range<usize>)> {
    let mut cluster = Cluster::new(LIMITS);
    let mut runs: Vec<(usize, Range<usize>)> = Vec::new();
    for (place, record) in records.iter().enumerate() {
        let kind = kind(record, cluster.play(record));
        match runs.last_mut() {
            Some((last, range)) if *last == kind => range.end += 1,
            _ => runs.push((kind, place..place + 1)),
        }
    }
    runs
}

fn runs_of(kind: usize, runs: &Runs) -> impl Iterator<Item = &Range<usize>> {
    let runs = runs.iter().filter(move |(number, _)| *number == kind);
    runs.map(|(_, range)| range)
}

fn kind(record: &Record, answer: Answer) -> usize {
    match (record, answer) {
        (Record::Mint { .. }, Ok(_)) => 0,
        (Record::Mint { .. }, Err(_)) => 1,
        (Record::Register { .. }, Ok(_)) => 2,
        (Record::Register { .. }, Err(_)) => 3,
        (Record::Vote { .. }, Ok(Done::Brought { .. })) => 5,
        (Record::Vote { .. }, Ok(Done::Again(_))) => 6,
        (Record::Vote { .. }, Ok(_)) => 4,
        (Record::Vote { .. }, Err(_)) => 7,
        (Record::Turn { .. }, Ok(_)) => 8,
        (Record::Turn { .. }, Err(_)) => 9,
    }
}
