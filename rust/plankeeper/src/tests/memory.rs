//! The words of the memory by hand.

use super::story::{
    AMOUNT, OWNER, UNSET, cluster_story, mint, register, shard_stories, transaction, turn, yes,
};
use crate::boundary::{ClusterMemory, Memory, ShardMemory};
use crate::{Cluster, Ledger, Record, Shard, Transaction};

/// A cluster in memory that was not empty before.
fn cluster() -> Cluster {
    Ledger::on(ClusterMemory::new_over(UNSET))
}

fn shard(number: u8) -> Shard {
    Ledger::on(ShardMemory::new_over(number.into(), UNSET))
}

/// The words of one shard in a cluster.
fn words_of(cluster: &Cluster, number: usize) -> &[u32] {
    &cluster.memory().words()[2404 * number..][..2404]
}

fn play_story(cluster: &mut Cluster) {
    for (record, _) in cluster_story() {
        let _ = cluster.play(&record);
    }
}

/// A known transaction: what was heard, and what was found. Places behind the last
/// finding are as an available one's.
type Known = (Transaction, [u32; 8], [u32; 8]);

/// One finding or none, and it is available.
const ALL_AVAILABLE: [u32; 8] = [1, 0, 1, 0, 1, 0, 1, 0];

/// The words by hand of a shard that is not turned: its number, the indices
/// given, the tokens, and the transactions with what was heard and found.
fn check_shard(words: &[u32], number: u32, given: &[usize], tokens: &[[u32; 5]], known: &[Known]) {
    let front = [number, tokens.len() as u32, known.len() as u32, 0];
    assert_eq!(words[..4], front, "number, counts, not turned");
    let flags = (0..128).filter(|index| words[4 + index] != 0);
    assert_eq!(flags.collect::<Vec<_>>(), given, "indices given");
    assert_eq!(words[132..132 + 5 * tokens.len()], *tokens.as_flattened());
    let known = known.iter().flat_map(|(transaction, heard, found)| {
        transaction.words().iter().chain(heard).chain(found)
    });
    let known: Vec<u32> = known.copied().collect();
    assert_eq!(words[772..772 + known.len()], known, "transactions known");
}

#[test]
fn words_after_new() {
    for number in 0..8 {
        for shard in [shard(number), Shard::new(number)] {
            check_shard(shard.memory().words(), number.into(), &[], &[], &[]);
            assert_eq!(shard.total(), 0);
            assert_eq!(shard.number(), number);
        }
    }
    for (number, taken) in [(8, 8), (255, 255), (256, 255), (u32::MAX, 255)] {
        let shard = Ledger::on(ShardMemory::new(number));
        check_shard(shard.memory().words(), taken.into(), &[], &[], &[]);
        assert_eq!(shard.number(), taken);
    }
    for mut cluster in [cluster(), Cluster::new(), Cluster::default()] {
        for renewed in [false, true] {
            for number in 0..8 {
                let words = words_of(&cluster, number);
                check_shard(words, number as u32, &[], &[], &[]);
            }
            assert_eq!(cluster.total(), 0, "renewed: {renewed}");
            play_story(&mut cluster);
            assert_ne!(cluster.total(), 0);
            cluster.renew();
        }
    }
}

/// A renewed shard is as one just made, and keeps its number.
#[test]
fn renewed_shards() {
    for (number, told) in shard_stories() {
        let mut shard = shard(number);
        for _ in 0..2 {
            for (record, code) in &told {
                assert_eq!(crate::answer_code(&shard.play(record)), *code);
            }
            assert_ne!(shard.total(), 0);
            shard.renew();
            check_shard(shard.memory().words(), number.into(), &[], &[], &[]);
        }
    }
}

/// A clone has the same words and goes its own way.
#[test]
fn clones() {
    let mut cluster = cluster();
    cluster.play(&mint(1, 0)).expect("the token is given");
    let clone = cluster.clone();
    assert_eq!(clone.memory().words(), cluster.memory().words());
    cluster.play(&mint(1, 1)).expect("the token is given");
    assert_eq!((clone.total(), cluster.total()), (1000, 2000));
}

/// Shards 1 and 2 call by call: two tokens opened at one and one at the other,
/// a transaction over both, registered, decided and heard again.
#[test]
fn words_after_calls() {
    let both = transaction(0x0506_0708, &[(1, 127)], &[2]);
    let first = [0, 127, OWNER, AMOUNT, 0];
    let second = [0, 64, OWNER, AMOUNT, 0];
    let pledged = [0, 127, OWNER, AMOUNT, 0x0506_0708];
    let other = [0, 0, OWNER, AMOUNT, 0];
    let made = [0x0506_0708, 0, OWNER + 1, AMOUNT, 0];
    let one_yes = (both, [0, 2, 0, 0, 0, 0, 0, 0], ALL_AVAILABLE);
    let two_yes = (both, [0, 0, 2, 0, 0, 0, 0, 0], ALL_AVAILABLE);
    let both_yes = (both, [0, 2, 2, 0, 0, 0, 0, 0], ALL_AVAILABLE);
    type Words<'a> = (&'a [usize], &'a [[u32; 5]], &'a [Known]);
    let opened: Words = (&[64, 127], &[first, second], &[]);
    let waiting: Words = (&[64, 127], &[pledged, second], &[one_yes]);
    let committed: Words = (&[64, 127], &[second], &[both_yes]);
    let other_waiting: Words = (&[0], &[other], &[two_yes]);
    let other_committed: Words = (&[0], &[other, made], &[both_yes]);
    let steps: [(Record, Words, Words); 9] = [
        (mint(1, 127), (&[127], &[first], &[]), (&[], &[], &[])),
        (mint(1, 64), opened, (&[], &[], &[])),
        (mint(1, 64), opened, (&[], &[], &[])),
        (mint(2, 0), opened, (&[0], &[other], &[])),
        (register(1, both), waiting, (&[0], &[other], &[])),
        (register(2, both), waiting, other_waiting),
        (yes(2, 1, both), committed, other_waiting),
        (yes(1, 2, both), committed, other_committed),
        (yes(2, 1, both), committed, other_committed),
    ];
    let mut cluster = cluster();
    let mut shards = [1, 2].map(shard);
    for (call, (record, one, two)) in steps.iter().enumerate() {
        let _ = cluster.play(record);
        // Each lone shard takes the calls that are its own.
        for shard in &mut shards {
            let _ = shard.play(record);
        }
        println!("call {call}: {record:?}");
        for (number, (given, tokens, known)) in [(1, one), (2, two)] {
            let words = words_of(&cluster, number);
            check_shard(words, number as u32, given, tokens, known);
            let lone = &shards[number - 1];
            check_shard(lone.memory().words(), number as u32, given, tokens, known);
            let held = tokens.iter().map(|token| u64::from(token[3]));
            assert_eq!(lone.total(), held.sum());
            assert_eq!(cluster.total_at(number as u8), lone.total());
        }
        for number in [0, 3, 4, 5, 6, 7] {
            let words = words_of(&cluster, number);
            check_shard(words, number as u32, &[], &[], &[]);
        }
        let totals = shards.each_ref().map(Ledger::total);
        assert_eq!(cluster.total(), totals[0] + totals[1]);
    }
}

/// A vote brings its transaction to shard 1, alone and in a cluster: what a
/// registration and a vote would leave.
#[test]
fn words_after_a_bringing() {
    let three = transaction(6, &[(1, 1), (3, 0)], &[2, 2]);
    let mints = [mint(1, 0), mint(1, 1)];
    let bringing = [register(2, three), yes(2, 1, three)];
    let apart = [register(2, three), register(1, three), yes(2, 1, three)];
    let free = [0, 0, OWNER, AMOUNT, 0];
    let pledged = [0, 1, OWNER, AMOUNT, 6];
    for calls in [&bringing[..], &apart] {
        let (mut cluster, mut shard) = (cluster(), shard(1));
        for record in mints.iter().chain(calls) {
            cluster.play(record).expect("it is carried out");
            let alone = shard.play(record);
            assert_eq!(alone.is_ok(), record.receiver() == 1);
        }
        let heard = [(three, [0, 2, 2, 0, 0, 0, 0, 0], ALL_AVAILABLE)];
        for words in [words_of(&cluster, 1), shard.memory().words()] {
            check_shard(words, 1, &[0, 1], &[free, pledged], &heard);
        }
    }
}

#[test]
fn the_last_words_of_a_full_shard() {
    let mut cluster = cluster();
    play_story(&mut cluster);
    let words = words_of(&cluster, 7);
    assert_eq!(words[..4], [7, 128, 32, 0]);
    assert!(words[4..132].iter().all(|&flag| flag != 0));
    assert_eq!(words[767..772], [0, 127, OWNER, AMOUNT, 0]);
    let last = transaction(131, &[(7, 31)], &[6]);
    assert_eq!(words[2353..2388], *last.words());
    assert_eq!(words[2388..2396], [0, 0, 0, 0, 0, 0, 0, 2]);
    assert_eq!(words[2396..], ALL_AVAILABLE);
}

/// Four findings of one transaction, each of another kind, in input order: the
/// first input is pledged to transaction 3, the second has another owner, the
/// third is not held, the last has another amount.
#[test]
fn the_words_of_findings() {
    let mut words = *transaction(5, &[(1, 0), (1, 1), (1, 9), (1, 2)], &[2, 2, 2, 2]).words();
    words[3 + 5 + 3] += 1;
    words[3 + 15 + 4] += 1;
    words[25] += 1;
    let four = Transaction::from_words(words);
    let pledging = transaction(3, &[(1, 0)], &[2]);
    let (mut cluster, mut shard) = (cluster(), shard(1));
    let mints = [0, 1, 2].map(|index| mint(1, index));
    for record in mints
        .iter()
        .chain(&[register(1, pledging), register(1, four)])
    {
        cluster.play(record).expect("it is carried out");
        shard.play(record).expect("it is carried out");
    }
    let pledged = [0, 0, OWNER, AMOUNT, 3];
    let free = [1, 2].map(|index| [0, index, OWNER, AMOUNT, 0]);
    let known = [
        (pledging, [0, 2, 0, 0, 0, 0, 0, 0], ALL_AVAILABLE),
        (four, [0, 1, 0, 0, 0, 0, 0, 0], [5, 3, 3, 0, 2, 0, 4, 0]),
    ];
    let tokens = [pledged, free[0], free[1]];
    for words in [words_of(&cluster, 1), shard.memory().words()] {
        check_shard(words, 1, &[0, 1, 2], &tokens, &known);
    }
}

/// The places of the words that the call changes, each with what it was and what
/// it is.
fn changed<M: Memory>(ledger: &mut Ledger<M>, record: &Record) -> Vec<(usize, u32, u32)> {
    let before = ledger.memory().words().as_ref().to_vec();
    ledger.play(record).expect("it is carried out");
    let after = ledger.memory().words().as_ref();
    let places = 0..before.len();
    places
        .filter(|&place| before[place] != after[place])
        .map(|place| (place, before[place], after[place]))
        .collect()
}

/// A turn changes its own word and the pledges of what was aborted. Transaction 5
/// has bound a token for nothing, 6 waits, and the third token is free.
#[test]
fn words_of_a_turn() {
    let vain = transaction(5, &[(1, 0), (1, 9)], &[1, 1]);
    let waits = transaction(6, &[(1, 1)], &[2]);
    let (mut cluster, mut shard) = (cluster(), shard(1));
    let mut records = Vec::from([0, 1, 2].map(|index| mint(1, index)));
    records.extend([register(1, vain), register(1, waits)]);
    for record in &records {
        cluster.play(record).expect("it is carried out");
        shard.play(record).expect("it is carried out");
    }
    let lone = changed(&mut shard, &turn(1));
    assert_eq!(lone, [(3, 0, 1), (132 + 4, 5, 0)]);
    let member = lone
        .into_iter()
        .map(|(place, was, is)| (2404 + place, was, is));
    assert!(member.eq(changed(&mut cluster, &turn(1))));
    // A shard that holds nothing, and the last one.
    assert_eq!(changed(&mut cluster, &turn(0)), [(3, 0, 1)]);
    assert_eq!(changed(&mut cluster, &turn(7)), [(7 * 2404 + 3, 0, 1)]);
}
