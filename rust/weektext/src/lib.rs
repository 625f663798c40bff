//! Weeks of records as text that people write and read: one record a line, a
//! swap's fields once. The text speaks document 01's words (pantry, swap,
//! household, portions, opening), because those who keep pantries write weeks;
//! the code speaks of shards, transactions, owners, amounts and mints.
//!
//! ```text
//! # two households exchange dinners
//! opening pantry 0 position 0 household 10 portions 3
//! opening pantry 1 position 0 household 20 portions 2
//!
//! swap 5
//!   take pantry 0 opening 0 household 10 portions 3
//!   take pantry 1 opening 0 household 20 portions 2
//!   give pantry 1 household 10 portions 3
//!   give pantry 0 household 20 portions 2
//!
//! register 5 at 0
//! vote yes on 5 from 1 to 0
//! turn pantry 0
//! bytes 01 ff
//! ```
//!
//! Every byte sequence has a text, and [`records`] of [`text()`] gives the same
//! bytes. [`entries`] has the records one by one, as the listing counts them.

#![forbid(unsafe_code)]
#![warn(missing_docs)]

mod entries;
mod error;
mod lines;
mod parse;
mod show;
mod words;

pub use entries::{Carried, Entry, entries, entries_of_text};
pub use error::Error;
pub use parse::records;
pub use show::text;
