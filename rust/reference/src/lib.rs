//! Independent implementation of the record codec, of one shard's ledger, of the
//! cluster of eight and of the listing, written from documents 01 and 02 alone.
//! The proved engine is compared with it through the C boundary, and the proved
//! program through its output.
//!
//! The code speaks the field's language: a pantry is a shard, a round a
//! cluster, a swap a transaction, a household an owner, portions an amount, an
//! opening a mint.

#![forbid(unsafe_code)]
#![warn(missing_docs)]

mod cluster;
mod finding;
mod listing;
mod record;
mod refusal;
mod shard;
mod transaction;

pub use cluster::Cluster;
pub use finding::{Finding, Findings};
pub use listing::{list, listing};
pub use record::{
    MINT_LENGTH, REGISTER_LENGTH, Reading, Record, TURN_LENGTH, VOTE_LENGTH, decode, encode, read,
    read_inline, rest, write,
};
pub use refusal::Refusal;
pub use shard::{Answer, Done, Known, LIMITS, Limits, Outcome, Shard, Token, Verdict};
pub use transaction::{
    GENESIS, Input, MAX_AMOUNT, MAX_SHARD, Output, SHARDS, SLOTS, TokenId, Transaction, cause,
    takes_part,
};
