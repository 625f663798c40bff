//! Weeks of calls to try on a shard or a cluster, in random and in all orders,
//! demand 3's clauses, the local step of a registration, and what the tests of
//! all crates count with: the table of answers and the tallies. Needs the
//! reference only, not the proved engine.

#![forbid(unsafe_code)]
#![warn(missing_docs)]

mod answers;
mod brought;
mod case;
mod clauses;
mod cluster;
mod events;
mod findings;
mod ledger;
pub mod local;
mod orders;
mod registration;
mod rng;
mod shard;
mod share;
mod tally;
mod transactions;
mod week;

pub use answers::{
    ACCEPTED, CAUSES, Cause, DONE, Giver, Reply, carried_out, changes_nothing, given_by, label,
    never_given_by, refused, registering, replies, shown_for,
};
pub use brought::{BROUGHT, BROUGHT_LATER};
pub use case::Case;
pub use clauses::{Clauses, View, views};
pub use cluster::{ClusterStyle, cluster_week, cluster_week_of};
pub use events::{Before, CLUSTER_EVENTS, EARLY_ABORTS, Events, SHARD_EVENTS, TURNS};
pub use findings::{finding_labels, second_cause_labels};
pub use ledger::Playable;
pub use orders::{Scenario, scenarios};
pub use registration::{Registration, registration_labels};
pub use rng::Rng;
pub use shard::{ShardStyle, shard_week, shard_week_of};
pub use share::{count_weeks, share_out};
pub use tally::Tally;
pub use transactions::{Part, amounts_between, part, receiver};
pub use week::Turns;

/// Start of every random sequence; a failure prints it with the case's number.
pub const SEED: u64 = 0x5EED_0001;
