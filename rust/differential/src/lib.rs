//! Records and weeks of calls to try, and the comparison of the proved engine
//! with the reference on each of them.

#![forbid(unsafe_code)]

mod compare;
mod fields;
mod generate;
mod ledger;
mod queries;
mod samples;
mod shards;
mod spoil;

pub use compare::{
    Case, check_cause, check_read, check_same, check_shard, check_transaction, check_write,
    codec_answers, numbered,
};
pub use fields::{FIELDS, Field, encode};
pub use generate::{damage, damage_byte, damage_transaction, record, transaction, vote};
pub use ledger::{ClusterPlayer, Played, Player, ShardPlayer, view};
pub use queries::{FOUND, Questions, check_cluster, check_lone, check_none, check_other};
pub use samples::{
    base, mints_at_their_edges, records_with_every_front, sample_records, sample_transactions,
};
pub use shards::{Shards, full_shard_week, shards};
pub use spoil::{BYTE_DAMAGES, WORD_DAMAGES, spoiled_bytes, spoiled_words};
pub use weeks::{Rng, SEED};
