//! A week that a person can see: one page with eight lanes, one for each
//! pantry, a row for each record, and what the pantries hold and know at the
//! end.
//!
//! [`reading`] gathers what is shown and decides nothing: the lines are the
//! proved listing program's, and the tokens, votes, outcomes and findings are
//! what the proved library answers through the interface for planners; only
//! what a refused record says is its text. [`drawing`] makes the page of it.
//!
//! The people of the trade look at it, so the page speaks document 01's words
//! (pantry, swap, household, portions); the code speaks of shards,
//! transactions, owners and amounts.

#![forbid(unsafe_code)]
#![warn(missing_docs)]

pub mod drawing;
pub mod reading;

pub use drawing::{page, picture};
pub use reading::{Mismatch, Week};
