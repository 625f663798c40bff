//! The benchmark's loops over shards and clusters give one fold, and every call
//! is of one kind.

use bench::findings::findings;
use bench::kinds::kinds;
use bench::ledgers::{Week, engine_run, reference_run};
use engine::answer_code;
use reference::{Cluster, LIMITS};
use weeks::{Rng, SEED, cluster_week, shard_week};

fn check(number: u64, week: &Week) {
    for rounds in [0, 1, 3] {
        let (expected, _) = reference_run(week, rounds);
        let (answer, _) = engine_run(week, rounds);
        assert_eq!(
            answer, expected,
            "seed {SEED:#x}, week {number}, {rounds} rounds"
        );
    }
}

#[test]
fn folds_of_shard_weeks() {
    for week in 0..100 {
        let (number, records) = shard_week(&mut Rng::new(SEED, week));
        check(week, &Week::new(Some(number), records));
    }
}

#[test]
fn folds_of_cluster_weeks() {
    for week in 0..100 {
        let records = cluster_week(&mut Rng::new(SEED, week));
        check(week, &Week::new(None, records));
    }
}

/// The fold is that of all answers, in their order.
#[test]
fn a_fold_has_every_answer() {
    let records = cluster_week(&mut Rng::new(SEED, 0));
    let mut cluster = Cluster::new(LIMITS);
    let codes = records
        .iter()
        .map(|record| answer_code(cluster.play(record)));
    let fold = codes.fold(0_u64, |fold, code| {
        fold.wrapping_mul(31).wrapping_add(code.into())
    });
    let mut week = Week::new(None, records);
    assert_eq!(engine_run(&week, 1).0, fold);
    // Another call's answer is another fold.
    week.calls.rotate_left(1);
    assert_ne!(engine_run(&week, 1).0, fold);
}

#[test]
fn kinds_of_calls() {
    let mut weeks: Vec<Week> = (0..20)
        .map(|week| Week::new(None, cluster_week(&mut Rng::new(SEED, week))))
        .collect();
    let counted = kinds(&weeks, 2).expect("the answers agree");
    assert!(counted.iter().all(|kind| kind.calls > 0));
    let calls: usize = weeks.iter().map(|week| week.calls.len()).sum();
    assert_eq!(counted.iter().map(|kind| kind.calls).sum::<usize>(), calls);
    // Other answers are noticed.
    weeks[0].calls.rotate_left(1);
    assert!(kinds(&weeks, 1).is_none());
}

/// Every transaction that is known at the end of a week is asked for.
#[test]
fn questions_for_findings() {
    let mut weeks: Vec<Week> = (0..20)
        .map(|week| Week::new(None, cluster_week(&mut Rng::new(SEED, week))))
        .collect();
    let asked = findings(&weeks, 2).expect("the answers agree");
    let known = weeks.iter().map(|week| {
        let mut cluster = Cluster::new(LIMITS);
        for record in &week.records {
            let _ = cluster.play(record);
        }
        let shards = cluster.shards().iter();
        shards.map(|shard| shard.known().len()).sum::<usize>()
    });
    assert_eq!(asked.calls, known.sum::<usize>());
    // Other findings are noticed.
    weeks[0].calls.clear();
    assert!(findings(&weeks, 1).is_none());
}
