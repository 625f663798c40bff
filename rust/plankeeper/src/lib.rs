//! A transaction engine for up to eight shards that hold tokens, as a library.
//!
//! A transaction destroys tokens at some shards and makes new ones at others.
//! Each of its shards registers it, pledges the tokens it finds available,
//! votes, hears the other shards' votes and decides alone: abort as soon as it
//! has heard one no, its own included, and commit once it has heard all votes
//! and each is yes. Whatever the order in which votes arrive, no two shards
//! decide one transaction differently, and none changes its decision. What an
//! aborted transaction has pledged stays pledged, or comes free at a shard that
//! is turned: each shard is turned when its caller says so.
//!
//! The engine itself is a static library whose functions were compiled only
//! after a machine had checked proofs of what they do: for every input and
//! every refusal, which answer they give and which state they leave. This crate
//! is a safe layer over it. It keeps the memory, gives names to numbers and
//! adds no rules of its own.
//!
//! # The words
//!
//! The engine follows a specification, cited here as document 01, that speaks
//! of households that swap portions of food:
//!
//! | here | document 01 |
//! |---|---|
//! | shard, cluster | pantry, round |
//! | transaction | swap |
//! | owner, amount | household, portions |
//! | genesis token, mint | opening token, opening |
//! | creator, index | making swap, position |
//!
//! # A small example
//!
//! Two owners exchange what they hold at two shards:
//!
//! ```
//! use plankeeper::{Answer, Cluster, Input, Outcome, Output, TokenId, Transaction, Verdict};
//!
//! let mut cluster = Cluster::new();
//!
//! // At shard 0 owner 10 holds 3, at shard 1 owner 20 holds 2.
//! cluster.mint(0, 0, 10, 3)?;
//! cluster.mint(1, 0, 20, 2)?;
//!
//! // Transaction 5 takes both tokens and makes two others, the other way round.
//! let genesis = |shard| TokenId { shard, creator: 0, index: 0 };
//! let transaction = Transaction::new(5)
//!     .input(Input { token: genesis(0), owner: 10, amount: 3 })
//!     .input(Input { token: genesis(1), owner: 20, amount: 2 })
//!     .output(Output { shard: 1, owner: 10, amount: 3 })
//!     .output(Output { shard: 0, owner: 20, amount: 2 });
//!
//! // Each shard registers it and votes; neither can decide alone.
//! let (verdict, outcome) = (Verdict::Yes, Outcome::Wait);
//! let registered = Answer::Registered { verdict, outcome };
//! assert_eq!(cluster.register(0, &transaction)?, registered);
//! assert_eq!(cluster.register(1, &transaction)?, registered);
//!
//! // The votes arrive. Between the two decisions the sum held is not whole.
//! let heard = cluster.deliver(0, 1, Verdict::Yes, &transaction)?;
//! assert_eq!(heard.to_string(), "HEARD COMMIT");
//! assert_eq!(cluster.total(), 4);
//! cluster.deliver(1, 0, Verdict::Yes, &transaction)?;
//! let again = cluster.deliver(1, 0, Verdict::Yes, &transaction)?;
//! assert_eq!(again, Answer::Again(Outcome::Commit));
//! assert_eq!(cluster.total(), 5);
//!
//! let held = cluster.tokens(0).next().expect("shard 0 holds a token");
//! assert_eq!(held.id, TokenId { shard: 0, creator: 5, index: 1 });
//! assert_eq!((held.owner, held.amount), (20, 2));
//! # Ok::<(), plankeeper::Refusal>(())
//! ```
//!
//! A shard that nobody has asked to register a transaction comes to know it by
//! the first vote on it that is delivered there: see
//! [`deliver`](Ledger::deliver).
//!
//! Which token has spoiled a transaction, [`findings`](Ledger::findings) tells:
//! a shard keeps what it found of each input there when it registered it.
//!
//! Calls may also come as bytes: [`Record`] writes them, [`read`] and
//! [`records`] read them, [`Cluster::apply`] reads one and makes its call. The
//! example `planner` plays a file of records and shows what each shard holds.
//!
//! # Linking
//!
//! The library is `target/staticlib/libengine.a` in the repository that this
//! crate is part of; `tools/library engine` in the repository's root makes it.
//! Elsewhere the environment variable `PLANKEEPER_LIB` names the folder that it
//! stands in. It is linked into the program, which needs nothing else to run.
//! While it is missing, cargo says so: `cargo doc` and `cargo check` pass, a build
//! stops.
//!
//! # Panics
//!
//! No arguments make a function of this crate panic. It panics only if another
//! library is linked than this crate was written for: one that asks for another
//! number of words, or that answers with a number that stands for nothing.

#![deny(unsafe_code)]
#![warn(missing_docs)]

mod answer;
#[allow(unsafe_code)]
pub mod boundary;
mod cluster;
mod defect;
mod finding;
mod ledger;
mod query;
mod reading;
mod record;
mod refusal;
mod shard;
#[cfg(test)]
mod tests;
mod transaction;

pub use answer::{Answer, Outcome, Verdict, answer_code, answer_from_code};
pub use cluster::Cluster;
pub use finding::{Finding, Findings};
pub use ledger::Ledger;
pub use query::{Known, Token};
pub use reading::{Reading, Records, read, records};
pub use record::{Record, written_from_code};
pub use refusal::Refusal;
pub use shard::Shard;
pub use transaction::{Input, Output, TokenId, Transaction};

/// The program in Rust that the repository's README shows is a test.
#[cfg(doctest)]
#[doc = include_str!("../../../README.md")]
struct Readme;
