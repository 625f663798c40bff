//! What tests and benchmarks alone ask: the library `probes`. Any words and any
//! bytes may be handed to it.

use reference::{Refusal, Transaction};

use crate::places::TransactionWords;
use crate::words::to_words;

// What these declarations say is trusted: a function touches no more than the
// words and bytes handed to it, changes nothing and keeps nothing.
unsafe extern "C" {
    /// The first of 3, 4 and 5 that fits, where shards have so many genesis
    /// indices; 0 for none.
    pub safe fn probe_cause(genesis: u32, transaction: &TransactionWords) -> u32;

    /// 1 where the shard takes part in the transaction, 0 where it does not.
    pub safe fn probe_takes_part(shard: u32, transaction: &TransactionWords) -> u32;

    /// 1 where every field of the two agrees, 0 where one does not.
    pub safe fn probe_same(a: &TransactionWords, b: &TransactionWords) -> u32;

    /// The pointer must be valid for the length.
    fn probe_read_votes(bytes: *const u8, length: usize, records: usize) -> u64;
}

/// The first of the refusals 3, 4 and 5 that fits, where shards have `genesis`
/// genesis indices.
pub fn cause(genesis: u8, transaction: &Transaction) -> Option<Refusal> {
    match probe_cause(genesis.into(), &to_words(transaction)) {
        0 => None,
        number @ 3..=5 => Refusal::from_number(number as u8),
        odd => panic!("the engine answered {odd} to a question for a cause"),
    }
}

/// Whether the shard is that of a used input or output (document 01: among the
/// swap's pantries).
pub fn takes_part(shard: u8, transaction: &Transaction) -> bool {
    truth(probe_takes_part(shard.into(), &to_words(transaction)))
}

/// Whether every field agrees, unused slots too.
pub fn same(a: &Transaction, b: &Transaction) -> bool {
    truth(probe_same(&to_words(a), &to_words(b)))
}

/// The benchmark's loop: reads `records` records, again from the front
/// whenever nothing is left, and sums up some of their fields.
pub fn read_votes(bytes: &[u8], records: usize) -> u64 {
    // SAFETY: pointer and length are those of a live slice.
    unsafe { probe_read_votes(bytes.as_ptr(), bytes.len(), records) }
}

fn truth(answer: u32) -> bool {
    match answer {
        0 => false,
        1 => true,
        _ => panic!("the engine answered {answer} to a yes-or-no question"),
    }
}
