//! Weeks of a cluster as bytes, record by record.

use differential::{ClusterPlayer, Player, Rng, SEED};
use engine::{Call, cluster, play};
use plankeeper::boundary::Memory;
use program::{DAMAGES, encode_all, input};
use reference::{Answer, Record};
use weeks::{Giver, Tally, cluster_week, count_weeks, given_by, label};

const WEEKS: u64 = 8_000;
const INPUTS: u64 = 100_000;

/// Hands the records at the front of the bytes over, one after the other,
/// until none is left. Gives their number; `each` sees the player after each
/// of them, the answer, and the record if it could be read.
fn hand_over(
    player: &mut ClusterPlayer,
    tally: &mut Tally,
    mut bytes: &[u8],
    mut each: impl FnMut(&ClusterPlayer, Answer, Option<Record>),
) -> usize {
    let mut records = 0;
    while !bytes.is_empty() {
        let (played, record, rest) = player.apply(bytes);
        tally.add(label(played.answer));
        each(player, played.answer, record);
        bytes = rest;
        records += 1;
    }
    player.compare_states();
    records
}

/// Each record is handed over as bytes to one cluster, as fields to another:
/// both are left with the same words, those that are not in use too.
#[test]
fn weeks_as_bytes_and_as_fields() {
    let clusters = || (cluster(), cluster());
    let (tally, calls) = count_weeks(WEEKS, clusters, |(bytes, fields), tally, week| {
        let records = cluster_week(&mut Rng::new(SEED, week));
        let (stretch, _) = encode_all(&records);
        fields.renew();
        let mut left = records.iter();
        let player = &mut Player::cluster(week, bytes);
        let handed = hand_over(player, tally, &stretch, |player, answer, read| {
            let record = left.next().expect("as many records");
            assert!(
                read.is_none_or(|read| read == *record),
                "fields; week {week}"
            );
            // Fields that the reader refuses make calls that are refused.
            let ours = engine::answer(play(fields, &Call::from(record)));
            assert_eq!(ours, answer, "by fields; week {week}");
            let same = player.engine().memory().words() == fields.memory().words();
            assert!(same, "bytes and fields leave other words; week {week}");
        });
        assert_eq!(handed, records.len(), "records; week {week}");
        handed
    });
    let title = format!("weeks as bytes, {calls} records");
    tally.report(&title, &given_by(&[Giver::Cluster]), 1000);
}

/// Weeks whose bytes were spoiled in every way, up to the first record that
/// takes all that is left.
#[test]
fn damaged_bytes() {
    let (tally, calls) = count_weeks(INPUTS, cluster, |cluster, tally, case| {
        let input = input(case, case.is_multiple_of(4));
        tally.add(input.damage);
        let player = &mut Player::cluster(case, cluster);
        hand_over(player, tally, &input.bytes, |_, _, _| ())
    });
    let title = format!("damaged bytes, {calls} records in {INPUTS} inputs");
    tally.report(&title, &given_by(&[Giver::Reader, Giver::Cluster]), 1000);
    tally.check(&title, &DAMAGES, 1000);
}
