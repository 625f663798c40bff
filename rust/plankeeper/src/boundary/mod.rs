//! The library's functions one by one, made safe: words and bytes in, numbers
//! out. The types at the crate's root are easier to use and say the same; this
//! module is for words that those types cannot hold, and for programs that
//! keep words themselves.
//!
//! A word is a `u32`. Any words and any bytes may be handed in: what stands for
//! nothing is refused, and a refused call changes nothing. A word above 255
//! where a field is a byte stands for 255, which no field allows.
//!
//! The answer to a call is one number, which [`answer_from_code`] explains:
//!
//! | | |
//! |---|---|
//! | below 100 | refused, with that number of document 01's table |
//! | 100 | the genesis token is given |
//! | 200 + 10 × verdict + outcome | registered; verdict 1 for yes, 0 for no |
//! | 300 + outcome | a vote heard for the first time |
//! | 400 + outcome | a vote that was heard before |
//! | 500 | the shard is turned |
//! | 600 + 10 × verdict + outcome | a vote has brought its transaction; the verdict is the receiver's own |
//!
//! A question for findings is answered with a refusal's number, or with 700 and
//! how many there are, 0 to 4.
//!
//! The outcome is 0 wait, 1 commit or 2 abort. 200, 201, 212, 600 and 601 are
//! never given: a shard that votes no aborts at once, and one that votes yes
//! when it is asked to register has then heard no other vote.
//!
//! # Why this is safe
//!
//! This is the crate's only module with unsafe code. The library's calls are
//! proved for memory that the library itself has made a ledger of and that
//! nobody else has written to since. [`ClusterMemory`] and [`ShardMemory`] see
//! to that: they own the words, hand them to the library before anything else,
//! and let nobody but the library change them. What is trusted beyond the proof
//! are the declarations of the functions in this module.
//!
//! [`answer_from_code`]: crate::answer_from_code

mod cluster;
mod codec;
mod raw;
mod shard;
#[cfg(test)]
mod tests;

pub use cluster::ClusterMemory;
pub use codec::{read, taken, write_mint, write_register, write_turn, write_vote};
pub use shard::ShardMemory;

/// Words of a cluster's memory.
pub const CLUSTER_WORDS: usize = 19_232;
/// Words of a lone shard's memory.
pub const SHARD_WORDS: usize = 2404;
/// Words of a transaction.
pub const TRANSACTION_WORDS: usize = 35;
/// Words of what was read of a record.
pub const READING_WORDS: usize = 42;
/// Words of a token that a shard holds.
pub const TOKEN_WORDS: usize = 5;
/// Words of a transaction that a shard knows.
pub const KNOWN_WORDS: usize = 43;
/// Words of what a shard has found of a transaction's inputs there.
pub const FINDINGS_WORDS: usize = 8;

/// A cluster's memory.
pub type ClusterWords = [u32; CLUSTER_WORDS];
/// A lone shard's memory.
pub type ShardWords = [u32; SHARD_WORDS];
/// A transaction: its number, the count of its inputs, the count of its
/// outputs, four inputs of five words (shard, creator, index, owner, amount)
/// and four outputs of three (shard, owner, amount). Slots beyond a count must
/// be all zero, or the transaction is refused.
pub type TransactionWords = [u32; TRANSACTION_WORDS];
/// What was read of a record: kind (1 register, 2 vote, 3 mint, 4 turn),
/// receiver, sender, verdict, index, owner, amount, and the transaction. Fields
/// that the kind does not have are 0.
pub type ReadingWords = [u32; READING_WORDS];
/// A token that a shard holds: creator, index, owner, amount, and the number of
/// the transaction that it is pledged to (0 for none).
pub type TokenWords = [u32; TOKEN_WORDS];
/// A transaction that a shard knows: its words, and the verdict heard from each
/// shard 0 to 7 (0 none, 1 no, 2 yes).
pub type KnownWords = [u32; KNOWN_WORDS];
/// What a shard has found of a transaction's inputs there, in their order: for
/// each of them what was found (1 available, 2 not held, 3 other owner, 4 other
/// amount, 5 pledged) and the number of the transaction that it was pledged to (0
/// unless 5); zeros behind the last.
pub type FindingsWords = [u32; FINDINGS_WORDS];

/// The calls that a cluster's memory and a lone shard's have in common. Each
/// answers with a code.
pub trait Memory: sealed::Sealed {
    /// The array that the words stand in.
    type Words: AsRef<[u32]>;

    /// The words, to be looked at: the shards of a cluster one behind the
    /// other, or those of a lone shard.
    fn words(&self) -> &Self::Words;

    /// Empties the ledger and keeps the memory.
    fn renew(&mut self);

    /// Gives the receiving shard a genesis token (document 01: opening).
    fn mint(&mut self, receiver: u32, index: u32, owner: u32, amount: u32) -> u32;

    /// Asks the receiving shard to register the transaction and to vote on it.
    fn register(&mut self, receiver: u32, transaction: &TransactionWords) -> u32;

    /// Hands the sending shard's vote to the receiving one: the verdict is 1
    /// for yes and 0 for no. A cluster sees to it that the sender has given
    /// that vote; a lone shard hears any. To a shard that does not know the
    /// number it brings the transaction, which is registered there first.
    fn deliver(
        &mut self,
        receiver: u32,
        sender: u32,
        verdict: u32,
        transaction: &TransactionWords,
    ) -> u32;

    /// Turns the receiving shard: from now on an abort there ends its pledges.
    fn turn(&mut self, receiver: u32) -> u32;

    /// What the shard has found of the inputs there when it registered the
    /// transaction of this number: answers with 700 and how many, and fills the
    /// words; or with 3 for a shard that there is not, at a lone one also for
    /// another one, or for number 0, or with 18 for a number that is not known
    /// there, and the words are as they were.
    fn findings(&self, shard: u32, number: u32, findings: &mut FindingsWords) -> u32;

    /// The sum of the amounts held.
    fn total(&self) -> u64;
}

/// Keeps [`Memory`] to the two types here, so that it can grow.
mod sealed {
    pub trait Sealed {}
    impl Sealed for super::ClusterMemory {}
    impl Sealed for super::ShardMemory {}
}

/// So many words, each with this value. They are never on the stack.
fn filled<const WORDS: usize>(word: u32) -> Box<[u32; WORDS]> {
    let words = vec![word; WORDS].into_boxed_slice();
    words.try_into().expect("as many words as were asked for")
}

/// Without it, too little memory might be lent.
fn check_words(library: usize, here: usize) {
    assert_eq!(
        library, here,
        "the library linked asks for another number of words"
    );
}
