//! Queries, asked after every call of the shard that received it.

use std::collections::BTreeSet;

use differential::{
    FOUND, Player, Questions, Rng, SEED, Shards, check_cluster, check_lone, check_none,
    check_other, full_shard_week, shards,
};
use reference::{Finding, Outcome, Record, SHARDS, Shard};
use weeks::{
    ClusterStyle, Giver, Tally, Turns, cluster_week, cluster_week_of, count_weeks, given_by,
    never_given_by, receiver, shard_week,
};

const WEEKS: u64 = 2_200;
/// From this week on, shards run full.
const FULL: u64 = 1_900;
/// How often each kind of state has to be met by a query.
const LEAST: u64 = 3_000;

const STATES: [&str; 14] = [
    "not turned",
    "turned",
    "no token",
    "a token not pledged",
    "a token pledged",
    "a made token",
    "127 tokens",
    "128 tokens",
    "no transaction",
    "a transaction that waits",
    "a transaction committed",
    "a transaction aborted",
    "a transaction aborted early",
    "32 transactions",
];

/// Findings that are told of.
const TOLD: [&str; 5] = [
    "an input found available",
    "an input not held",
    "an input of another owner",
    "an input of another amount",
    "an input that was pledged",
];

/// Shards that there are not.
const NONE: [u32; 10] = [8, 9, 15, 127, 255, 256, 257, 263, 1 << 31, u32::MAX];

/// Counts what the queries of this shard tell.
fn count(tally: &mut Tally, shard: &Shard) {
    let [tokens, known] = [shard.tokens().len(), shard.known().len()];
    let pledged = shard.tokens().iter().any(|token| token.pledge.is_some());
    let free = shard.tokens().iter().any(|token| token.pledge.is_none());
    let made = shard.tokens().iter().any(|token| token.creator != 0);
    let decided = |outcome| shard.known().iter().any(|known| known.outcome() == outcome);
    // Some vote is missing, and the outcome tells of an abort all the same.
    let early = shard.known().iter().any(|known| {
        let mut shards = known.transaction.shards();
        let missing = shards.any(|shard| known.heard[usize::from(shard)].is_none());
        missing && known.outcome() == Outcome::Abort
    });
    let met = [
        !shard.is_turned(),
        shard.is_turned(),
        tokens == 0,
        free,
        pledged,
        made,
        tokens == 127,
        tokens == 128,
        known == 0,
        decided(Outcome::Wait),
        decided(Outcome::Commit),
        decided(Outcome::Abort),
        early,
        known == 32,
    ];
    let met = STATES.iter().zip(met).filter(|&(_, met)| met);
    for (label, _) in met {
        tally.add(label);
    }
    count_told(tally, shard);
}

/// Counts which findings they tell.
fn count_told(tally: &mut Tally, shard: &Shard) {
    let findings = shard.known().iter().flat_map(|known| known.findings);
    let told = findings.flatten().map(|finding| match finding {
        Finding::Available => 0,
        Finding::NotHeld => 1,
        Finding::OtherOwner => 2,
        Finding::OtherAmount => 3,
        Finding::Pledged(_) => 4,
    });
    for kind in BTreeSet::from_iter(told) {
        tally.add(TOLD[kind]);
    }
}

/// Plays the week on a cluster and asks its shards.
fn ask_cluster(
    cluster: &mut plankeeper::Cluster,
    tally: &mut Tally,
    week: u64,
    records: &[Record],
) -> usize {
    let mut player = Player::cluster(week, cluster);
    for (call, record) in records.iter().enumerate() {
        player.call(record);
        // A call for no shard: any is asked.
        let place = usize::from(receiver(record)) % SHARDS;
        player.ask(|ours, reference| {
            let expected = &reference.shards()[place];
            check_cluster(ours, expected);
            let (none, questions) = (NONE[call % NONE.len()], Questions::of(Some(expected)));
            check_none(ours, none, &questions);
            count(tally, expected);
            questions.count_found(tally, Some(expected));
            questions.count_found(tally, None);
        });
    }
    player.ask(|ours, reference| {
        for shard in reference.shards() {
            check_cluster(ours, shard);
        }
    });
    records.len()
}

/// Plays the week on a lone shard and asks it.
fn ask_shard(
    shards: &mut Shards,
    tally: &mut Tally,
    week: u64,
    (number, records): (u8, Vec<Record>),
) -> usize {
    let mut player = Player::shard(week, &mut shards[usize::from(number)]);
    let others = (0..8).filter(|&other| other != u32::from(number));
    let others: Vec<u32> = others.chain(NONE).collect();
    for (call, record) in records.iter().enumerate() {
        player.call(record);
        player.ask(|ours, expected| {
            check_lone(ours, expected);
            check_other(ours, others[call % others.len()], expected);
            count(tally, expected);
            Questions::of(Some(expected)).count_found(tally, Some(expected));
        });
    }
    records.len()
}

/// A week without damage in which a shard or two run full.
fn full_cluster_week(rng: &mut Rng) -> Vec<Record> {
    let calls = 400;
    let style = ClusterStyle {
        calls,
        shards: 1 + rng.below(2),
        mints: 120 + rng.below(9),
        amounts: 60,
        new: 20,
        due: 50,
        left_out: rng.pick(&[0, 8]),
        damage: None,
        turns: Turns::random(rng, calls),
    };
    cluster_week_of(rng, style)
}

/// Fails if a kind of state was not met often enough, or an answer to a question
/// for findings.
fn report(title: &str, tally: &Tally) {
    tally.report(title, &STATES, LEAST);
    tally.check(title, &TOLD, LEAST);
    tally.check(title, &FOUND, LEAST);
    tally.check(title, &given_by(&[Giver::Findings]), LEAST);
    tally.check_never(title, &never_given_by(&[Giver::Findings]));
}

#[test]
fn queries_of_a_cluster() {
    let (tally, calls) = count_weeks(WEEKS, engine::cluster, |cluster, tally, week| {
        let rng = &mut Rng::new(SEED, week);
        let records = if week < FULL {
            cluster_week(rng)
        } else {
            full_cluster_week(rng)
        };
        ask_cluster(cluster, tally, week, &records)
    });
    report(
        &format!("queries of a cluster, after {calls} calls"),
        &tally,
    );
}

#[test]
fn queries_of_a_shard() {
    let (tally, calls) = count_weeks(WEEKS, shards, |shards, tally, week| {
        let rng = &mut Rng::new(SEED, week);
        let calls = if week < FULL {
            shard_week(rng)
        } else {
            full_shard_week(rng)
        };
        ask_shard(shards, tally, week, calls)
    });
    report(&format!("queries of a shard, after {calls} calls"), &tally);
}
