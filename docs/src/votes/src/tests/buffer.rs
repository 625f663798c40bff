//! What the buffer holds.

use std::collections::BTreeSet;

use plankeeper::{Record, Transaction, records};

use crate::buffer::{Buffer, VOTE, VOTES};

/// Names of fields, each with a number that it has.
type Met = BTreeSet<(&'static str, u32)>;

#[test]
fn as_many_votes_as_the_buffer_holds_and_no_two_alike() {
    let buffer = Buffer::new();
    let (votes, rest) = buffer.votes().as_chunks::<VOTE>();
    assert_eq!((votes.len(), VOTES, rest.len()), (642, 642, 0));
    assert_eq!(votes.iter().collect::<BTreeSet<_>>().len(), 642);
    assert_eq!(votes.as_flattened().len() + 52, 64 * 1024);
}

#[test]
fn all_are_accepted_and_every_sort_is_met() {
    let mut met = Met::new();
    let (mut numbers, mut amounts) = (BTreeSet::new(), BTreeSet::new());
    for record in records(Buffer::new().votes()) {
        let Ok(Record::Vote {
            receiver,
            sender,
            verdict,
            transaction,
        }) = record
        else {
            panic!("{record:?}")
        };
        met.insert(("receiver", receiver.into()));
        met.insert(("sender", sender.into()));
        met.insert(("verdict", verdict as u32));
        see(&mut met, &transaction);
        numbers.insert(transaction.number());
        amounts.extend(transaction.inputs().map(|input| input.amount));
        amounts.extend(transaction.outputs().map(|output| output.amount));
    }
    assert_eq!(met, expected());
    assert_eq!(numbers.len(), VOTES);
    assert!(amounts.len() > 3 * VOTES, "{}", amounts.len());
}

fn see(met: &mut Met, transaction: &Transaction) {
    met.insert(("inputs", transaction.input_count().into()));
    met.insert(("outputs", transaction.output_count().into()));
    for input in transaction.inputs() {
        let token = input.token;
        met.insert(("input's shard", token.shard.into()));
        match token.creator {
            0 => met.insert(("opening's half of indices", (token.index / 64).into())),
            _ => met.insert(("made token's index", token.index.into())),
        };
    }
    for output in transaction.outputs() {
        met.insert(("output's shard", output.shard.into()));
    }
}

fn expected() -> Met {
    let ranges = [
        ("receiver", 0..=7),
        ("sender", 0..=7),
        ("verdict", 0..=1),
        ("inputs", 1..=4),
        ("outputs", 1..=4),
        ("input's shard", 0..=7),
        ("opening's half of indices", 0..=1),
        ("made token's index", 0..=3),
        ("output's shard", 0..=7),
    ];
    let numbers = ranges.into_iter();
    numbers
        .flat_map(|(name, range)| range.map(move |number| (name, number)))
        .collect()
}
