//! Time for a question for findings, of every transaction that a week has left
//! known at a shard of its cluster.

use std::hint::black_box;
use std::time::{Duration, Instant};

use engine::{UNSET, findings_words, play};
use plankeeper::boundary::{FINDINGS_WORDS, Memory};
use reference::{Cluster, LIMITS};

use crate::kinds::Kind;
use crate::ledgers::Week;

/// A shard, and the number of a transaction that it knows.
type Question = (u8, u32);

/// Asks both sides after each of the cluster's weeks, so many times in turn, and
/// gives how many questions there are and the least times. Nothing if the
/// answers differ.
pub fn findings(weeks: &[Week], rounds: usize) -> Option<Kind> {
    let mut all = Kind::default();
    let mut ours = engine::cluster();
    for week in weeks {
        ours.renew();
        for call in &week.calls {
            let _ = play(&mut ours, call);
        }
        let mut expected = Cluster::new(LIMITS);
        for record in &week.records {
            let _ = expected.play(record);
        }
        let questions = questions(&expected);
        if !questions
            .iter()
            .all(|&asked| agree(&ours, &expected, asked))
        {
            return None;
        }
        let mut least = [Duration::MAX; 2];
        for _ in 0..rounds {
            least[0] = least[0].min(time(&questions, |(shard, number)| {
                let mut words = [0; FINDINGS_WORDS];
                black_box(ours.memory().findings(shard.into(), number, &mut words));
                black_box(words);
            }));
            least[1] = least[1].min(time(&questions, |(shard, number)| {
                let _ = black_box(expected.findings(shard, number));
            }));
        }
        all.calls += questions.len();
        all.times[0] += least[0];
        all.times[1] += least[1];
    }
    Some(all)
}

/// Every transaction known at every shard.
fn questions(cluster: &Cluster) -> Vec<Question> {
    let shards = cluster.shards().iter();
    let questions = shards.flat_map(|shard| {
        let known = shard.known().iter();
        known.map(|known| (shard.number(), known.transaction.number))
    });
    questions.collect()
}

/// Whether both answer alike.
fn agree(ours: &plankeeper::Cluster, expected: &Cluster, (shard, number): Question) -> bool {
    let mut words = [UNSET; FINDINGS_WORDS];
    let code = ours.memory().findings(shard.into(), number, &mut words);
    let expected = expected.findings(shard, number);
    (code, words) == findings_words(expected, [UNSET; FINDINGS_WORDS])
}

/// The time for all questions, once.
#[inline(always)]
fn time(questions: &[Question], ask: impl Fn(Question)) -> Duration {
    let start = Instant::now();
    for &question in questions {
        ask(black_box(question));
    }
    start.elapsed()
}
