//! Questions about a week: each is a module, and [`Question`] has the words that
//! they are asked by.
//!
//! House stewards ask, so the answers speak document 01's words (pantry, swap,
//! household, portions); the code speaks of shards, transactions, owners and
//! amounts. What is answered is what the proved library tells.

#![forbid(unsafe_code)]
#![warn(missing_docs)]

mod cause;
mod found;
mod question;
mod week;
pub mod why;

pub use cause::cause;
pub use found::{Found, found, words};
pub use question::{QUESTIONS, Question};
pub use week::{Played, Week};
