//! What a shard finds of a transaction's inputs when it registers it (document
//! 02, slip 2).

use crate::transaction::SLOTS;

/// What was found of one input. The first that fits counts, in this order, but
/// for the one in front, which is what is left where no other fits.
#[derive(Clone, Copy, Debug, PartialEq, Eq, Hash)]
pub enum Finding {
    /// The token is held with that owner and that amount, and is pledged to no
    /// transaction.
    Available,
    /// No token of that name is held.
    NotHeld,
    /// The token has another owner (document 02: other household).
    OtherOwner,
    /// The token has another amount (document 02: other portions).
    OtherAmount,
    /// The token is pledged to the transaction of this number.
    Pledged(u32),
}

/// One for each input at a shard, in input order; nothing behind the last.
pub type Findings = [Option<Finding>; SLOTS];
