//! What the shards hold and know at the end of the week.

use std::array;

use plankeeper::{Cluster, Known, Token};

/// What a shard holds and knows.
pub struct ShardState {
    /// The tokens, in the order in which they stand in its memory.
    pub tokens: Vec<Token>,
    /// The transactions, in the order of their registration.
    pub known: Vec<Known>,
    /// The sum of the amounts.
    pub total: u64,
    /// Whether it is turned.
    pub turned: bool,
}

impl ShardState {
    /// Whether there is nothing to tell of it: it holds no token, knows no
    /// transaction and is not turned.
    pub fn is_blank(&self) -> bool {
        self.tokens.is_empty() && self.known.is_empty() && !self.turned
    }
}

/// Asks every shard.
pub fn shards(cluster: &Cluster) -> [ShardState; 8] {
    array::from_fn(|shard| {
        let shard = shard as u8;
        ShardState {
            tokens: cluster.tokens(shard).collect(),
            known: cluster.transactions(shard).collect(),
            total: cluster.total_at(shard),
            turned: cluster.is_turned(shard),
        }
    })
}
