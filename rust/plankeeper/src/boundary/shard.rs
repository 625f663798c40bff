//! A lone shard's memory.
//!
//! SAFETY, for every call here: the library made a shard of the words, and
//! nobody else has written to them since.

use super::{
    FindingsWords, KnownWords, Memory, SHARD_WORDS, ShardWords, TokenWords, TransactionWords,
    check_words, filled, raw,
};

/// A lone shard's words, which the library alone changes. There is no pointer
/// in them: a clone is a shard of its own with the same contents.
#[derive(Clone)]
pub struct ShardMemory {
    number: u32,
    words: Box<ShardWords>,
}

impl ShardMemory {
    /// The memory of an empty shard with this number. One above 7 is taken, but
    /// every call on such a shard is refused; one above 255 stands for 255.
    pub fn new(number: u32) -> Self {
        Self::new_over(number, 0)
    }

    /// The same, in memory whose words all had this value before. It is no
    /// matter to the library what they were; tests show that.
    pub fn new_over(number: u32, word: u32) -> Self {
        check_words(raw::plankeeper_shard_words(), SHARD_WORDS);
        let mut memory = ShardMemory {
            number: number.min(u8::MAX.into()),
            words: filled(word),
        };
        memory.renew();
        memory
    }

    /// The shard's number.
    pub fn number(&self) -> u32 {
        self.number
    }

    /// How many tokens are held, 0 to 128.
    pub fn held_count(&self) -> usize {
        unsafe { raw::plankeeper_shard_held_count(&self.words) }
    }

    /// The `k`-th token held, from 0: answers 1 and fills the words; 0 and
    /// zeros where there is none.
    pub fn token_at(&self, k: usize, token: &mut TokenWords) -> u32 {
        unsafe { raw::plankeeper_shard_token_at(&self.words, k, token) }
    }

    /// How many transactions are known, 0 to 32.
    pub fn known_count(&self) -> usize {
        unsafe { raw::plankeeper_shard_known_count(&self.words) }
    }

    /// The `k`-th transaction known, from 0, in the order of registration:
    /// answers with its outcome (0 wait, 1 commit, 2 abort) and fills the
    /// words; 3 and zeros where there is none.
    pub fn known_at(&self, k: usize, known: &mut KnownWords) -> u32 {
        unsafe { raw::plankeeper_shard_known_at(&self.words, k, known) }
    }

    /// The outcome of the transaction known by that number: 0 wait, 1 commit,
    /// 2 abort; 3 where no such number is known.
    pub fn outcome_of(&self, number: u32) -> u32 {
        unsafe { raw::plankeeper_shard_outcome_of(&self.words, number) }
    }

    /// Whether the shard is turned: 1, or 0 where it is not.
    pub fn is_turned(&self) -> u32 {
        unsafe { raw::plankeeper_shard_is_turned(&self.words) }
    }
}

impl Memory for ShardMemory {
    type Words = ShardWords;

    fn words(&self) -> &ShardWords {
        &self.words
    }

    fn renew(&mut self) {
        raw::plankeeper_shard_new(&mut self.words, self.number);
    }

    #[inline]
    fn mint(&mut self, receiver: u32, index: u32, owner: u32, amount: u32) -> u32 {
        unsafe { raw::plankeeper_shard_mint(&mut self.words, receiver, index, owner, amount) }
    }

    #[inline]
    fn register(&mut self, receiver: u32, transaction: &TransactionWords) -> u32 {
        unsafe { raw::plankeeper_shard_register(&mut self.words, receiver, transaction) }
    }

    #[inline]
    fn deliver(
        &mut self,
        receiver: u32,
        sender: u32,
        verdict: u32,
        transaction: &TransactionWords,
    ) -> u32 {
        let words = &mut self.words;
        unsafe { raw::plankeeper_shard_hear(words, receiver, sender, verdict, transaction) }
    }

    #[inline]
    fn turn(&mut self, receiver: u32) -> u32 {
        unsafe { raw::plankeeper_shard_turn(&mut self.words, receiver) }
    }

    fn findings(&self, shard: u32, number: u32, findings: &mut FindingsWords) -> u32 {
        unsafe { raw::plankeeper_shard_findings(&self.words, shard, number, findings) }
    }

    fn total(&self) -> u64 {
        unsafe { raw::plankeeper_shard_total(&self.words) }
    }
}
