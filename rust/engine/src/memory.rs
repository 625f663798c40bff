//! Ledgers in memory that held something before, and their words by shards.

use plankeeper::boundary::{ClusterMemory, Memory, ShardMemory};
use plankeeper::{Cluster, Ledger, Shard};

use crate::places::ShardWords;

/// Stands in all words before the engine makes a ledger of them: it has to
/// set whatever it will look at.
pub const UNSET: u32 = 0xA5A5_A5A5;

/// A cluster of empty shards.
pub fn cluster() -> Cluster {
    Ledger::on(ClusterMemory::new_over(UNSET))
}

/// An empty shard with this number.
pub fn shard(number: u8) -> Shard {
    Ledger::on(ShardMemory::new_over(number.into(), UNSET))
}

/// The words of the ledger's shards: a lone shard's own, or those of all eight.
pub fn shards<M: Memory>(ledger: &Ledger<M>) -> &[ShardWords] {
    ledger.memory().words().as_ref().as_chunks().0
}
