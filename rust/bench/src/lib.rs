//! The benchmarks' loops with the reference, for comparison with the engine's
//! own: here its reader; in [`ledgers`] and [`kinds`] the calls on shards and
//! clusters, for both, and in [`findings`] the questions for findings.

#![forbid(unsafe_code)]

pub mod findings;
pub mod kinds;
pub mod ledgers;

use reference::{Reading, Record};

/// The loop of `engine::probes::read_votes`, calling the reference reader.
#[inline(never)]
pub fn read_votes(bytes: &[u8], records: usize) -> u64 {
    sum(bytes, records, reference::read)
}

/// The same with the reader made part of the loop, so that fields the sum does
/// not need are checked but never stored.
#[inline(never)]
pub fn read_votes_inlined(bytes: &[u8], records: usize) -> u64 {
    sum(bytes, records, reference::read_inline)
}

#[inline(always)]
fn sum(bytes: &[u8], records: usize, read: impl Fn(&[u8]) -> Reading) -> u64 {
    let mut sum = 0_u64;
    let mut at = 0;
    for _ in 0..records {
        let reading = read(&bytes[at..]);
        sum = sum.wrapping_add(match reading.outcome {
            Ok(Record::Vote {
                receiver,
                sender,
                verdict,
                transaction,
            }) => {
                u64::from(receiver)
                    + u64::from(sender)
                    + u64::from(verdict)
                    + u64::from(transaction.number)
                    + u64::from(transaction.outputs[1].owner)
                    + u64::from(transaction.inputs[1].amount)
            }
            Ok(Record::Register { receiver, .. } | Record::Turn { receiver }) => receiver.into(),
            Ok(Record::Mint { amount, .. }) => amount.into(),
            Err(refusal) => 1_000_000 + u64::from(refusal.number()),
        });
        at += reading.taken;
        if at == bytes.len() {
            at = 0;
        }
    }
    sum
}
