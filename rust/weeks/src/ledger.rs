//! What the reference's lone shard and its cluster have in common.

use std::slice;

use reference::{Answer, Cluster, Findings, Record, Refusal, Shard};

/// The reference's lone shard or its cluster.
pub trait Playable {
    /// Makes the call that the record's fields stand for.
    fn play(&mut self, record: &Record) -> Answer;
    /// What the shard's registration of the transaction with this number found.
    fn findings(&self, shard: u8, number: u32) -> Result<Findings, Refusal>;
    /// The sum of the amounts held.
    fn total(&self) -> u64;
    /// The lone shard, or all eight.
    fn shards(&self) -> &[Shard];
}

impl Playable for Shard {
    fn play(&mut self, record: &Record) -> Answer {
        Shard::play(self, record)
    }

    fn findings(&self, shard: u8, number: u32) -> Result<Findings, Refusal> {
        Shard::findings(self, shard, number)
    }

    fn total(&self) -> u64 {
        Shard::total(self)
    }

    fn shards(&self) -> &[Shard] {
        slice::from_ref(self)
    }
}

impl Playable for Cluster {
    fn play(&mut self, record: &Record) -> Answer {
        Cluster::play(self, record)
    }

    fn findings(&self, shard: u8, number: u32) -> Result<Findings, Refusal> {
        Cluster::findings(self, shard, number)
    }

    fn total(&self) -> u64 {
        Cluster::total(self)
    }

    fn shards(&self) -> &[Shard] {
        Cluster::shards(self)
    }
}
