//! Weeks of a cluster.

use differential::{Player, Rng, SEED};
use engine::{answer_code, cluster};
use reference::decode;
use weeks::{
    BROUGHT, BROUGHT_LATER, CLUSTER_EVENTS, EARLY_ABORTS, Giver, SHARD_EVENTS, TURNS, cluster_week,
    count_weeks, finding_labels, given_by, never_given_by, second_cause_labels,
};

const WEEKS: u64 = 83_000;
const CALLS: usize = 20_000_000;
/// How often each kind of answer and event has to be met.
const LEAST: u64 = 1_000;

#[test]
fn random_weeks_of_a_cluster() {
    let (tally, calls) = count_weeks(WEEKS, cluster, |cluster, tally, week| {
        let records = cluster_week(&mut Rng::new(SEED, week));
        let mut player = Player::cluster(week, cluster);
        let mut events = tally.week();
        for record in &records {
            let played = player.call(record);
            let after = player.reference().shards();
            events.call(record, played.answer, played.before, after);
        }
        player.compare_states();
        records.len()
    });
    assert!(calls >= CALLS, "{calls} calls only");
    let title = format!("a cluster, {calls} calls in {WEEKS} weeks");
    tally.report(&title, &given_by(&[Giver::Cluster]), LEAST);
    // What is held off is sent again and again, and one no often lets another
    // through. Shards that are turned meet others that are not, and votes that
    // bring a transaction come from those that a vote has brought it to.
    let often = [
        "REFUSED 17",
        "brought by the vote of one that was brought",
        "committed, brought to two of its shards or more",
        "not too full, another aborted early",
        "not held off, another aborted early",
        "committed, turned at some of its shards",
        "aborted, turned at some of its shards",
    ];
    tally.check(&title, &often, 10 * LEAST);
    tally.check(&title, &SHARD_EVENTS, LEAST);
    tally.check(&title, &EARLY_ABORTS, LEAST);
    tally.check(&title, &TURNS, 10 * LEAST);
    tally.check(&title, &BROUGHT, 10 * LEAST);
    tally.check(&title, &BROUGHT_LATER, LEAST);
    tally.check(&title, &CLUSTER_EVENTS, LEAST);
    tally.check(&title, &finding_labels(), 10 * LEAST);
    tally.check(&title, &second_cause_labels(), LEAST);
    tally.check_never(&title, &never_given_by(&[Giver::Cluster]));
}

/// Document 01's example. The answers and ends are the document's, not only
/// the reference's.
#[test]
fn worked_example() {
    let bytes = program::example();
    let mut rest = &bytes[..];
    let mut cluster = cluster();
    let mut player = Player::cluster(0, &mut cluster);
    let (mut answers, mut totals) = (Vec::new(), Vec::new());
    while let Some(record) = decode(rest) {
        answers.push(answer_code(player.call(&record).answer));
        totals.push(player.engine().total());
        rest = reference::rest(rest);
    }
    assert_eq!(answers, [100, 100, 210, 210, 301, 301, 401]);
    assert_eq!(totals, [3, 5, 5, 5, 4, 5, 5]);
    let ends = player.states().iter().flat_map(|state| {
        let tokens = state.tokens.iter();
        tokens.map(|token| (state.number, token.creator, token.index))
    });
    assert!(ends.eq([(0, 5, 1), (1, 5, 0)]), "{:?}", player.states());
}
