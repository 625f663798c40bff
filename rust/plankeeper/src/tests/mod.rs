//! What is fixed by hand: codes and words.

mod answers;
mod codec;
mod findings;
mod memory;
mod queries;
mod refusals;
pub mod story;
mod transactions;
mod widths;
