//! Damaged and random calls among true ones, as bytes and as words: the answer
//! and the whole state are compared after each, and a refused call has changed
//! no word.

use differential::{
    BYTE_DAMAGES, Player, Rng, SEED, WORD_DAMAGES, encode, shards, spoiled_bytes, spoiled_words,
};
use plankeeper::boundary::Memory;
use reference::{Answer, Record, Refusal};
use weeks::{Giver, Playable, Tally, cluster_week, count_weeks, given_by, label, shard_week};

/// Weeks for bytes, for words at a cluster and for words at a lone shard: a
/// damaged call before each true one.
const BYTE_WEEKS: u64 = 4_300;
const CLUSTER_WEEKS: u64 = 4_200;
const SHARD_WEEKS: u64 = 6_200;
/// As many damaged calls have to be made in each way.
const CALLS: usize = 1_000_000;
/// How often each answer has to be met, and a damaged call that is carried out.
const LEAST: u64 = 1_000;
/// How often each damage has to be met.
const EACH_DAMAGE: u64 = 50_000;

/// Counts a damaged call and a true one.
fn count(tally: &mut Tally, damage: &'static str, damaged: Answer, call: Answer) {
    tally.add(damage);
    if damaged.is_ok() {
        tally.add("damaged, carried out");
    }
    for answer in [damaged, call] {
        tally.add(label(answer));
    }
}

/// Every answer that one of these gives has to be met, and every damage.
fn report(title: &str, (tally, calls): (Tally, usize), givers: &[Giver], damages: &[&str]) {
    assert!(calls >= CALLS, "{calls} damaged calls only");
    let title = format!("{calls} {title}");
    tally.report(&title, &given_by(givers), LEAST);
    tally.check(&title, &["damaged, carried out"], LEAST);
    tally.check(&title, damages, EACH_DAMAGE);
}

#[test]
fn a_million_damaged_records() {
    let counts = count_weeks(BYTE_WEEKS, engine::cluster, |cluster, tally, week| {
        let rng = &mut Rng::new(SEED, week);
        let records = cluster_week(rng);
        let mut player = Player::cluster(week, cluster);
        for record in &records {
            let (damage, bytes) = spoiled_bytes(rng, record);
            let (damaged, _, _) = player.apply(&bytes);
            let (played, _, _) = player.apply(&encode(record));
            count(tally, damage, damaged.answer, played.answer);
        }
        player.compare_states();
        records.len()
    });
    let givers = [Giver::Reader, Giver::Cluster];
    report("damaged records", counts, &givers, &BYTE_DAMAGES);
}

/// Plays the week with a damaged call before each true one. Gives the number of
/// damaged calls.
fn play<M: Memory, R: Playable>(
    mut player: Player<M, R>,
    tally: &mut Tally,
    rng: &mut Rng,
    records: &[Record],
) -> usize {
    for record in records {
        let (damage, words, wide) = spoiled_words(rng, record);
        let damaged = player.call_words(words).answer;
        if wide {
            assert_eq!(damaged, Err(Refusal::OutOfRange), "{words:?}");
            tally.add("words too wide");
        }
        count(tally, damage, damaged, player.call(record).answer);
    }
    player.compare_states();
    records.len()
}

#[test]
fn a_million_damaged_calls_of_a_cluster() {
    let counts = count_weeks(CLUSTER_WEEKS, engine::cluster, |cluster, tally, week| {
        let rng = &mut Rng::new(SEED, week);
        let records = cluster_week(rng);
        play(Player::cluster(week, cluster), tally, rng, &records)
    });
    let damages = [&WORD_DAMAGES[..], &["words too wide"]].concat();
    let title = "damaged calls of a cluster";
    report(title, counts, &[Giver::Cluster], &damages);
}

#[test]
fn a_million_damaged_calls_of_a_shard() {
    let counts = count_weeks(SHARD_WEEKS, shards, |shards, tally, week| {
        let rng = &mut Rng::new(SEED, week);
        let (number, records) = shard_week(rng);
        let player = Player::shard(week, &mut shards[usize::from(number)]);
        play(player, tally, rng, &records)
    });
    let damages = [&WORD_DAMAGES[..], &["words too wide"]].concat();
    let title = "damaged calls of a shard";
    report(title, counts, &[Giver::Shard], &damages);
}
