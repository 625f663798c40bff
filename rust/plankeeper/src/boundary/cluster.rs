//! A cluster's memory.
//!
//! SAFETY, for every call here: the library made a cluster of the words, and
//! nobody else has written to them since.

use super::{
    CLUSTER_WORDS, ClusterWords, FindingsWords, KnownWords, Memory, TokenWords, TransactionWords,
    check_words, filled, raw,
};

/// A cluster's words, which the library alone changes. There is no pointer in
/// them: a clone is a cluster of its own with the same contents.
#[derive(Clone)]
pub struct ClusterMemory {
    words: Box<ClusterWords>,
}

impl ClusterMemory {
    /// The memory of a fresh cluster.
    pub fn new() -> Self {
        Self::new_over(0)
    }

    /// The same, in memory whose words all had this value before. It is no
    /// matter to the library what they were; tests show that.
    pub fn new_over(word: u32) -> Self {
        check_words(raw::plankeeper_words(), CLUSTER_WORDS);
        let mut memory = ClusterMemory {
            words: filled(word),
        };
        memory.renew();
        memory
    }

    /// Reads the record at the front of the bytes and carries it out. Where it
    /// cannot be read, it is refused with 1 to 5.
    #[inline]
    pub fn apply(&mut self, bytes: &[u8]) -> u32 {
        // SAFETY: besides, pointer and length are those of a live slice.
        unsafe { raw::plankeeper_apply(&mut self.words, bytes.as_ptr(), bytes.len()) }
    }

    /// How many tokens the shard holds, 0 to 128; a shard above 7 is an empty
    /// one, here and below.
    pub fn held_count(&self, shard: u32) -> usize {
        unsafe { raw::plankeeper_held_count(&self.words, shard) }
    }

    /// The `k`-th token that the shard holds, from 0: answers 1 and fills the
    /// words; 0 and zeros where there is none.
    pub fn token_at(&self, shard: u32, k: usize, token: &mut TokenWords) -> u32 {
        unsafe { raw::plankeeper_token_at(&self.words, shard, k, token) }
    }

    /// How many transactions the shard knows, 0 to 32.
    pub fn known_count(&self, shard: u32) -> usize {
        unsafe { raw::plankeeper_known_count(&self.words, shard) }
    }

    /// The `k`-th transaction that the shard knows, from 0, in the order of
    /// registration: answers with its outcome there (0 wait, 1 commit, 2
    /// abort) and fills the words; 3 and zeros where there is none.
    pub fn known_at(&self, shard: u32, k: usize, known: &mut KnownWords) -> u32 {
        unsafe { raw::plankeeper_known_at(&self.words, shard, k, known) }
    }

    /// The outcome at the shard of the transaction that it knows by that
    /// number: 0 wait, 1 commit, 2 abort; 3 where it knows no such number.
    pub fn outcome_of(&self, shard: u32, number: u32) -> u32 {
        unsafe { raw::plankeeper_outcome_of(&self.words, shard, number) }
    }

    /// Whether the shard is turned: 1, or 0 where it is not.
    pub fn is_turned(&self, shard: u32) -> u32 {
        unsafe { raw::plankeeper_is_turned(&self.words, shard) }
    }

    /// The sum of the amounts that the shard holds.
    pub fn total_at(&self, shard: u32) -> u64 {
        unsafe { raw::plankeeper_total_at(&self.words, shard) }
    }
}

impl Default for ClusterMemory {
    fn default() -> Self {
        ClusterMemory::new()
    }
}

impl Memory for ClusterMemory {
    type Words = ClusterWords;

    fn words(&self) -> &ClusterWords {
        &self.words
    }

    fn renew(&mut self) {
        raw::plankeeper_new(&mut self.words);
    }

    #[inline]
    fn mint(&mut self, receiver: u32, index: u32, owner: u32, amount: u32) -> u32 {
        unsafe { raw::plankeeper_mint(&mut self.words, receiver, index, owner, amount) }
    }

    #[inline]
    fn register(&mut self, receiver: u32, transaction: &TransactionWords) -> u32 {
        unsafe { raw::plankeeper_register(&mut self.words, receiver, transaction) }
    }

    #[inline]
    fn deliver(
        &mut self,
        receiver: u32,
        sender: u32,
        verdict: u32,
        transaction: &TransactionWords,
    ) -> u32 {
        unsafe { raw::plankeeper_deliver(&mut self.words, receiver, sender, verdict, transaction) }
    }

    #[inline]
    fn turn(&mut self, receiver: u32) -> u32 {
        unsafe { raw::plankeeper_turn(&mut self.words, receiver) }
    }

    fn findings(&self, shard: u32, number: u32, findings: &mut FindingsWords) -> u32 {
        unsafe { raw::plankeeper_findings(&self.words, shard, number, findings) }
    }

    fn total(&self) -> u64 {
        unsafe { raw::plankeeper_total(&self.words) }
    }
}
