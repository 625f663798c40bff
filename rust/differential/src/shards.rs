//! Lone shards for many weeks, and weeks that fill one.

use std::array;

use plankeeper::Shard;
use reference::{Record, SHARDS};
use weeks::{ShardStyle, Turns, shard_week_of};

use crate::Rng;

/// The engine's memory: a lone shard of every number.
pub type Shards = [Shard; SHARDS];

/// Empty shards.
pub fn shards() -> Shards {
    array::from_fn(|number| engine::shard(number as u8))
}

/// A week without damage that soon reaches both limits: the shard's number and
/// the calls.
pub fn full_shard_week(rng: &mut Rng) -> (u8, Vec<Record>) {
    let calls = 400;
    let style = ShardStyle {
        calls,
        mints: 120 + rng.below(9),
        amounts: 60,
        local: 3,
        here: rng.pick(&[3, 5, 7]),
        damage: None,
        yes: 14,
        brought: rng.pick(&[0, 4]),
        turns: Turns::random(rng, calls),
    };
    shard_week_of(rng, style)
}
