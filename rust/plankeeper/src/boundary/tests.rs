//! Nothing is touched around the words that are handed in.

use super::{
    CLUSTER_WORDS, ClusterMemory, ClusterWords, FINDINGS_WORDS, KNOWN_WORDS, Memory, READING_WORDS,
    SHARD_WORDS, ShardMemory, ShardWords, TOKEN_WORDS, TransactionWords, raw, read,
};
use crate::tests::story::{Told, UNSET, cluster_story, encode, shard_stories};
use crate::{Record, Shard};

/// Words on each side that nobody may touch.
const GUARD: usize = 4096;

/// Memory between guards.
struct Guarded<const WORDS: usize>(Vec<u32>);

impl<const WORDS: usize> Guarded<WORDS> {
    fn new() -> Self {
        Guarded(vec![UNSET; GUARD + WORDS + GUARD])
    }

    fn words(&mut self) -> &mut [u32; WORDS] {
        let (words, _) = self.0[GUARD..].split_first_chunk_mut().expect("all words");
        words
    }

    fn check(&self, after: &str) {
        let (before, rest) = self.0.split_at(GUARD);
        let mut guards = before.iter().chain(&rest[WORDS..]);
        assert!(guards.all(|&word| word == UNSET), "after {after}");
    }

    /// An answer that fills all words, and touches no others.
    fn fill(&mut self, what: &str, answer: impl FnOnce(&mut [u32; WORDS])) {
        self.words().fill(UNSET);
        answer(self.words());
        assert!(!self.words().contains(&UNSET), "all words are set");
        self.check(what);
    }
}

/// The calls of a cluster or of a shard, as they are exported.
struct Calls<W> {
    mint: unsafe extern "C" fn(&mut W, u32, u32, u32, u32) -> u32,
    register: unsafe extern "C" fn(&mut W, u32, &TransactionWords) -> u32,
    deliver: unsafe extern "C" fn(&mut W, u32, u32, u32, &TransactionWords) -> u32,
    turn: unsafe extern "C" fn(&mut W, u32) -> u32,
    total: unsafe extern "C" fn(&W) -> u64,
}

const CLUSTER: Calls<ClusterWords> = Calls {
    mint: raw::plankeeper_mint,
    register: raw::plankeeper_register,
    deliver: raw::plankeeper_deliver,
    turn: raw::plankeeper_turn,
    total: raw::plankeeper_total,
};

const SHARD: Calls<ShardWords> = Calls {
    mint: raw::plankeeper_shard_mint,
    register: raw::plankeeper_shard_register,
    deliver: raw::plankeeper_shard_hear,
    turn: raw::plankeeper_shard_turn,
    total: raw::plankeeper_shard_total,
};

impl<const WORDS: usize> Calls<[u32; WORDS]> {
    /// Makes the calls on memory that the library made a ledger of.
    fn check(&self, guarded: &mut Guarded<WORDS>, told: &[Told]) {
        for (record, expected) in told {
            // SAFETY: the library made a ledger of the words.
            let code = unsafe { self.call(guarded.words(), record) };
            assert_eq!(code, *expected);
            guarded.check("a call");
        }
        // SAFETY: as above.
        unsafe { (self.total)(guarded.words()) };
        guarded.check("the total");
    }

    unsafe fn call(&self, words: &mut [u32; WORDS], record: &Record) -> u32 {
        // SAFETY: the caller's.
        unsafe {
            match *record {
                Record::Mint {
                    receiver,
                    index,
                    owner,
                    amount,
                } => (self.mint)(words, receiver.into(), index.into(), owner, amount),
                Record::Register {
                    receiver,
                    ref transaction,
                } => (self.register)(words, receiver.into(), transaction.words()),
                Record::Vote {
                    receiver,
                    sender,
                    verdict,
                    ref transaction,
                } => {
                    let (receiver, sender) = (receiver.into(), sender.into());
                    (self.deliver)(words, receiver, sender, verdict as u32, transaction.words())
                }
                Record::Turn { receiver } => (self.turn)(words, receiver.into()),
            }
        }
    }
}

#[test]
fn the_library_asks_for_as_many_words() {
    assert_eq!(raw::plankeeper_words(), 19_232);
    assert_eq!(raw::plankeeper_shard_words(), 2404);
}

#[test]
fn nothing_around_a_cluster_is_touched() {
    let mut guarded = Guarded::<CLUSTER_WORDS>::new();
    raw::plankeeper_new(guarded.words());
    guarded.check("new");
    for (record, expected) in cluster_story() {
        let bytes = encode(&record);
        let words = guarded.words();
        // SAFETY: the library made a cluster of the words.
        let code = unsafe { raw::plankeeper_apply(words, bytes.as_ptr(), bytes.len()) };
        assert_eq!(code, expected);
        guarded.check("a record");
    }
    raw::plankeeper_new(guarded.words());
    CLUSTER.check(&mut guarded, &cluster_story());
}

#[test]
fn nothing_around_a_shard_is_touched() {
    for (number, told) in shard_stories() {
        let mut guarded = Guarded::<SHARD_WORDS>::new();
        raw::plankeeper_shard_new(guarded.words(), number.into());
        guarded.check("new");
        SHARD.check(&mut guarded, &told);
    }
}

#[test]
fn nothing_around_a_reading_is_touched() {
    let mut guarded = Guarded::<READING_WORDS>::new();
    for (record, _) in cluster_story() {
        let bytes = encode(&record);
        for length in [0, 1, bytes.len() - 1, bytes.len()] {
            guarded.fill("a reading", |words| {
                read(&bytes[..length], words);
            });
        }
    }
}

/// Asks this memory for findings: where the number is known there, all words are
/// set, and where the question is refused, none.
fn check_found<M: Memory>(memory: &M, known: bool, shard: u32, number: u32) {
    let mut guarded = Guarded::<FINDINGS_WORDS>::new();
    let mut code = 0;
    if known {
        guarded.fill("findings", |words| {
            code = memory.findings(shard, number, words);
        });
        assert!(matches!(code, 700..=704), "{number} at {shard}: {code}");
    } else {
        code = memory.findings(shard, number, guarded.words());
        assert!(matches!(code, 3 | 18), "{number} at {shard}: {code}");
        assert_eq!(*guarded.words(), [UNSET; FINDINGS_WORDS]);
        guarded.check("a refused question");
    }
}

#[test]
fn nothing_around_findings_is_touched() {
    let numbers = [0, 5, 6, 8, 11, 12, 21, 131, u32::MAX];
    let mut cluster = ClusterMemory::new();
    for (record, _) in cluster_story() {
        cluster.apply(&encode(&record));
    }
    for shard in 0..=8 {
        for number in numbers {
            let known = cluster.outcome_of(shard, number) != 3;
            check_found(&cluster, known, shard, number);
        }
    }
    for (number, told) in shard_stories() {
        let mut shard = Shard::new(number);
        for (record, _) in &told {
            let _ = shard.play(record);
        }
        for other in 0..=8 {
            for asked in numbers {
                let known = other == number && shard.outcome(asked).is_some();
                check_found(shard.memory(), known, other.into(), asked);
            }
        }
    }
}

#[test]
fn nothing_around_a_query_is_touched() {
    let mut token = Guarded::<TOKEN_WORDS>::new();
    let mut known = Guarded::<KNOWN_WORDS>::new();
    let mut cluster = ClusterMemory::new();
    let mut shard = ShardMemory::new(7);
    for (record, _) in cluster_story() {
        cluster.apply(&encode(&record));
    }
    for number in 0..=8 {
        for k in (0..130).chain([usize::MAX]) {
            token.fill("a token", |words| {
                cluster.token_at(number, k, words);
            });
            known.fill("a transaction", |words| {
                cluster.known_at(number, k, words);
            });
        }
    }
    for index in 0..128 {
        shard.mint(7, index, 1, 1);
        for k in [0, index as usize, index as usize + 1] {
            token.fill("a lone shard's token", |words| {
                shard.token_at(k, words);
            });
            known.fill("a lone shard's transaction", |words| {
                shard.known_at(k, words);
            });
        }
    }
}
