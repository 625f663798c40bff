//! Words wider than their fields.

use super::story::{AMOUNT, BYTES, OWNER, Told, cluster_story, shard_stories, transaction};
use crate::boundary::{
    Memory, TransactionWords, write_mint, write_register, write_turn, write_vote,
};
use crate::{Cluster, Ledger, Record, Shard};

/// What goes beyond a byte, wherever it stands.
const EXCESSES: [u32; 4] = [1 << 8, 1 << 16, 1 << 31, u32::MAX << 8];

/// The words with that at one of these places too wide for its field, in every
/// way.
fn widened<const N: usize>(words: [u32; N], places: &[usize]) -> impl Iterator<Item = [u32; N]> {
    places.iter().flat_map(move |&place| {
        EXCESSES.map(|excess| {
            let mut wide = words;
            wide[place] |= excess;
            wide
        })
    })
}

fn wide_transactions(words: TransactionWords) -> impl Iterator<Item = TransactionWords> {
    widened(words, &BYTES)
}

/// The codes of the call with one word too wide, in every way.
fn wide_codes<M: Memory>(memory: &mut M, record: &Record) -> Vec<u32> {
    match *record {
        Record::Mint {
            receiver,
            index,
            owner,
            amount,
        } => widened([receiver.into(), index.into()], &[0, 1])
            .map(|[receiver, index]| memory.mint(receiver, index, owner, amount))
            .collect(),
        Record::Register {
            receiver,
            transaction,
        } => {
            let (receiver, words) = (receiver.into(), *transaction.words());
            let receivers = widened([receiver], &[0]).map(|[receiver]| (receiver, words));
            let transactions = wide_transactions(words).map(|wide| (receiver, wide));
            let calls = receivers.chain(transactions);
            calls
                .map(|(receiver, words)| memory.register(receiver, &words))
                .collect()
        }
        Record::Vote {
            receiver,
            sender,
            verdict,
            transaction,
        } => {
            let words = *transaction.words();
            let head = [receiver.into(), sender.into(), verdict as u32];
            let heads = widened(head, &[0, 1, 2]).map(|head| (head, words));
            let transactions = wide_transactions(words).map(|wide| (head, wide));
            let calls = heads.chain(transactions);
            calls
                .map(|([receiver, sender, verdict], words)| {
                    memory.deliver(receiver, sender, verdict, &words)
                })
                .collect()
        }
        Record::Turn { receiver } => widened([receiver.into()], &[0])
            .map(|[receiver]| memory.turn(receiver))
            .collect(),
    }
}

/// Before each call of the story, tries it with words too wide: refusal 3, and
/// all words are as they were.
fn check_story<M: Memory>(ledger: &mut Ledger<M>, told: &[Told]) {
    for (record, code) in told {
        let before = ledger.memory().words().as_ref().to_vec();
        let codes = wide_codes(ledger.memory_mut(), record);
        let ways = match record {
            Record::Mint { .. } => 2,
            Record::Register { .. } => 15,
            Record::Vote { .. } => 17,
            Record::Turn { .. } => 1,
        };
        assert_eq!(codes, vec![3; 4 * ways], "{record:?}");
        let after = ledger.memory().words().as_ref();
        assert!(after == before, "{record:?}, widened, changed something");
        assert_eq!(crate::answer_code(&ledger.play(record)), *code);
    }
}

#[test]
fn wide_words_are_refused_by_a_cluster() {
    check_story(&mut Cluster::new(), &cluster_story());
}

#[test]
fn wide_words_are_refused_by_a_shard() {
    for (number, told) in shard_stories() {
        check_story(&mut Shard::new(number), &told);
    }
}

#[test]
fn wide_words_are_refused_by_the_writers() {
    let four = [(0, 3), (1, 2), (2, 1), (3, 0)];
    let narrow = *transaction(5, &four, &[4, 5, 6, 7]).words();
    let out = &mut [0xEE; 110];
    for wide in wide_transactions(narrow) {
        assert_eq!(write_register(1, &wide, out), 3000);
        assert_eq!(write_vote(1, 2, 1, &wide, out), 3000);
    }
    for [receiver] in widened([1], &[0]) {
        assert_eq!(write_register(receiver, &narrow, out), 3000);
        assert_eq!(write_turn(receiver, out), 3000);
    }
    for [receiver, sender, verdict] in widened([1, 2, 1], &[0, 1, 2]) {
        let answer = write_vote(receiver, sender, verdict, &narrow, out);
        assert_eq!(answer, 3000);
    }
    for [receiver, index] in widened([1, 2], &[0, 1]) {
        let answer = write_mint(receiver, index, OWNER, AMOUNT, out);
        assert_eq!(answer, 3000);
    }
    assert_eq!(*out, [0xEE; 110]);
    assert_eq!(write_register(1, &narrow, out), 100);
    assert_eq!(write_vote(1, 2, 1, &narrow, out), 102);
    assert_eq!(write_mint(1, 2, OWNER, AMOUNT, out), 11);
    assert_eq!(write_turn(1, out), 2);
}
