//! The crate `plankeeper` beside the reference, for tests and benchmarks: calls
//! by words where its types cannot say them, its answers in the reference's
//! types, the state that the memory's words tell of, and the probes.
//!
//! The types are the reference's, so that the answers of both can be compared
//! by `==`; nothing the reference computes is used here.

#![deny(unsafe_code)]
#![warn(missing_docs)]

mod answers;
mod calls;
mod codec;
mod findings;
mod memory;
pub mod places;
#[allow(unsafe_code)]
pub mod probes;
mod state;
mod views;
mod words;

pub use answers::{answer, answer_code, outcome_code};
pub use calls::{Call, Words, play};
pub use codec::{reading, write};
pub use findings::{findings, findings_words};
pub use memory::{UNSET, cluster, shard, shards};
pub use state::State;
pub use views::{tokens, transactions};
pub use words::{from_words, to_words};

#[cfg(test)]
mod tests;
