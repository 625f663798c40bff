//! The functions as the static library exports them. A cluster, a shard or a
//! transaction passes as one pointer to its words, bytes as a pointer and then
//! their length.
//!
//! What these declarations say of the functions is trusted: a function touches
//! no more than the words and bytes handed to it, changes only what is handed
//! in as `&mut` or `*mut`, and keeps nothing after the call. Those that take
//! any words are safe. A call on a shard or a cluster is proved for memory
//! that the library made one of and that nobody else has written to since (its
//! contract's `requires`), and for no other; where bytes are handed in, the
//! pointer must be valid for the length, and a `*mut` one not aliased.

use super::{
    ClusterWords, FindingsWords, KnownWords, ReadingWords, ShardWords, TokenWords, TransactionWords,
};

// A cluster.
unsafe extern "C" {
    pub safe fn plankeeper_words() -> usize;

    pub safe fn plankeeper_new(cluster: &mut ClusterWords);

    pub fn plankeeper_total(cluster: &ClusterWords) -> u64;

    pub fn plankeeper_apply(cluster: &mut ClusterWords, bytes: *const u8, length: usize) -> u32;

    pub fn plankeeper_mint(
        cluster: &mut ClusterWords,
        receiver: u32,
        index: u32,
        owner: u32,
        amount: u32,
    ) -> u32;

    pub fn plankeeper_register(
        cluster: &mut ClusterWords,
        receiver: u32,
        transaction: &TransactionWords,
    ) -> u32;

    pub fn plankeeper_deliver(
        cluster: &mut ClusterWords,
        receiver: u32,
        sender: u32,
        verdict: u32,
        transaction: &TransactionWords,
    ) -> u32;

    pub fn plankeeper_turn(cluster: &mut ClusterWords, receiver: u32) -> u32;

    pub fn plankeeper_held_count(cluster: &ClusterWords, shard: u32) -> usize;

    pub fn plankeeper_token_at(
        cluster: &ClusterWords,
        shard: u32,
        k: usize,
        token: &mut TokenWords,
    ) -> u32;

    pub fn plankeeper_known_count(cluster: &ClusterWords, shard: u32) -> usize;

    pub fn plankeeper_known_at(
        cluster: &ClusterWords,
        shard: u32,
        k: usize,
        known: &mut KnownWords,
    ) -> u32;

    pub fn plankeeper_outcome_of(cluster: &ClusterWords, shard: u32, number: u32) -> u32;

    pub fn plankeeper_findings(
        cluster: &ClusterWords,
        shard: u32,
        number: u32,
        findings: &mut FindingsWords,
    ) -> u32;

    pub fn plankeeper_total_at(cluster: &ClusterWords, shard: u32) -> u64;

    pub fn plankeeper_is_turned(cluster: &ClusterWords, shard: u32) -> u32;
}

// A lone shard.
unsafe extern "C" {
    pub safe fn plankeeper_shard_words() -> usize;

    pub safe fn plankeeper_shard_new(shard: &mut ShardWords, number: u32);

    pub fn plankeeper_shard_total(shard: &ShardWords) -> u64;

    pub fn plankeeper_shard_mint(
        shard: &mut ShardWords,
        receiver: u32,
        index: u32,
        owner: u32,
        amount: u32,
    ) -> u32;

    pub fn plankeeper_shard_register(
        shard: &mut ShardWords,
        receiver: u32,
        transaction: &TransactionWords,
    ) -> u32;

    pub fn plankeeper_shard_hear(
        shard: &mut ShardWords,
        receiver: u32,
        sender: u32,
        verdict: u32,
        transaction: &TransactionWords,
    ) -> u32;

    pub fn plankeeper_shard_turn(shard: &mut ShardWords, receiver: u32) -> u32;

    pub fn plankeeper_shard_held_count(shard: &ShardWords) -> usize;

    pub fn plankeeper_shard_token_at(shard: &ShardWords, k: usize, token: &mut TokenWords) -> u32;

    pub fn plankeeper_shard_known_count(shard: &ShardWords) -> usize;

    pub fn plankeeper_shard_known_at(shard: &ShardWords, k: usize, known: &mut KnownWords) -> u32;

    pub fn plankeeper_shard_outcome_of(shard: &ShardWords, number: u32) -> u32;

    pub fn plankeeper_shard_findings(
        s: &ShardWords,
        shard: u32,
        number: u32,
        findings: &mut FindingsWords,
    ) -> u32;

    pub fn plankeeper_shard_is_turned(shard: &ShardWords) -> u32;
}

// Records.
unsafe extern "C" {
    pub fn plankeeper_read(bytes: *const u8, length: usize, fields: &mut ReadingWords) -> u32;

    pub fn plankeeper_taken(bytes: *const u8, length: usize) -> usize;

    pub fn plankeeper_write_register(
        receiver: u32,
        transaction: &TransactionWords,
        out: *mut u8,
        room: usize,
    ) -> u64;

    pub fn plankeeper_write_vote(
        receiver: u32,
        sender: u32,
        verdict: u32,
        transaction: &TransactionWords,
        out: *mut u8,
        room: usize,
    ) -> u64;

    pub fn plankeeper_write_mint(
        receiver: u32,
        index: u32,
        owner: u32,
        amount: u32,
        out: *mut u8,
        room: usize,
    ) -> u64;

    pub fn plankeeper_write_turn(receiver: u32, out: *mut u8, room: usize) -> u64;
}
