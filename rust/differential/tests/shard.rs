//! Weeks of a lone shard.

use differential::{Player, Rng, SEED, Shards, full_shard_week, shards};
use reference::Record;
use weeks::{
    BROUGHT, BROUGHT_LATER, EARLY_ABORTS, Giver, Playable, SHARD_EVENTS, TURNS, Tally, count_weeks,
    finding_labels, given_by, never_given_by, second_cause_labels, shard_week,
};

const WEEKS: u64 = 61_000;
const CALLS: usize = 10_000_000;
const FULL_WEEKS: u64 = 4_000;
/// Weeks in which the shard runs full are numbered from here.
const FULL: u64 = 1_000_000;
/// How often each kind of answer and event has to be met.
const LEAST: u64 = 10_000;

/// Plays the week and gives the number of calls.
fn play(
    shards: &mut Shards,
    tally: &mut Tally,
    week: u64,
    number: u8,
    records: &[Record],
) -> usize {
    let mut player = Player::shard(week, &mut shards[usize::from(number)]);
    let mut events = tally.week();
    for record in records {
        let played = player.call(record);
        let after = player.reference().shards();
        events.call(record, played.answer, played.before, after);
    }
    records.len()
}

#[test]
fn random_weeks_of_a_shard() {
    let (tally, calls) = count_weeks(WEEKS, shards, |shards, tally, week| {
        let (number, records) = shard_week(&mut Rng::new(SEED, week));
        play(shards, tally, week, number, &records)
    });
    assert!(calls >= CALLS, "{calls} calls only");
    let title = format!("a shard, {calls} calls in {WEEKS} weeks");
    tally.report(&title, &given_by(&[Giver::Shard]), LEAST);
    tally.check(&title, &SHARD_EVENTS, LEAST);
    tally.check(&title, &EARLY_ABORTS, LEAST);
    tally.check(&title, &TURNS, LEAST);
    tally.check(&title, &BROUGHT, LEAST);
    tally.check(&title, &BROUGHT_LATER, LEAST / 10);
    tally.check(&title, &finding_labels(), LEAST);
    tally.check(&title, &second_cause_labels(), LEAST / 20);
    tally.check_never(&title, &never_given_by(&[Giver::Shard]));
}

/// Weeks without damage that soon reach both limits.
#[test]
fn weeks_of_a_full_shard() {
    let (tally, calls) = count_weeks(FULL_WEEKS, shards, |shards, tally, week| {
        let week = FULL + week;
        let (number, records) = full_shard_week(&mut Rng::new(SEED, week));
        play(shards, tally, week, number, &records)
    });
    let labels = [
        "REFUSED 9",
        "REFUSED 10",
        "127 tokens held",
        "128 tokens held",
        "32 transactions known",
        "freed space used again",
        "not too full, another aborted early",
        "vote refused with 9",
        "vote refused with 10",
    ];
    let title = format!("a full shard, {calls} calls in {FULL_WEEKS} weeks");
    tally.report(&title, &labels, LEAST);
}

/// Every number a shard can have, and records for every other.
#[test]
fn shards_of_every_number() {
    let mut shards = shards();
    for number in 0..8 {
        let mut tally = Tally::default();
        // The same week, whichever shard it was made for.
        let (_, records) = shard_week(&mut Rng::new(SEED, 3));
        play(&mut shards, &mut tally, 3, number, &records);
        let mint = |receiver| Record::Mint {
            receiver,
            index: 5,
            owner: 1,
            amount: 1,
        };
        let mints: Vec<Record> = (0..=255).map(mint).collect();
        play(&mut shards, &mut tally, 3, number, &mints);
        assert!(tally.count("OPENED") >= 1, "shard {number}");
        let turns = (0..=255).map(|receiver| Record::Turn { receiver });
        play(&mut shards, &mut tally, 3, number, &Vec::from_iter(turns));
        assert!(tally.count("TURNED") >= 1, "shard {number}");
    }
}
