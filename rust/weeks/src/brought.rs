//! What happens with votes that bring their transactions, and with those that
//! would: counted beside the other events of a week.

use reference::{Record, Refusal, Transaction, Verdict};

use crate::tally::Tally;

/// What votes bring to a shard that does not know the number, and what keeps
/// them from it. Tokens that come free are counted one by one.
pub const BROUGHT: [&str; 12] = [
    "brought by a yes, own no",
    "brought by a no, own no",
    "brought, freed by its own no",
    "brought, freed by the no that brought it",
    "brought, the same vote again",
    "brought, registered too late",
    "brought, later committed",
    "brought, later aborted",
    "vote refused with 7",
    "vote refused with 9",
    "vote refused with 10",
    "vote refused with 17",
];

/// Votes that were refused, and then have brought their transactions after all.
/// (9 is for the week: no transaction is forgotten.)
pub const BROUGHT_LATER: [&str; 2] = [
    "vote refused with 10, later brought",
    "vote refused with 17, later brought",
];

/// The votes of a week that have brought their transactions, and those that
/// were refused.
#[derive(Default)]
pub(crate) struct Bringing {
    brought: Vec<Record>,
    refused: Vec<(Record, Refusal)>,
}

impl Bringing {
    /// A call was refused, and has left all as it was.
    pub fn refuse(&mut self, tally: &mut Tally, call: &Record, refusal: Refusal) {
        let label = match (call, refusal) {
            (Record::Vote { .. }, Refusal::NumberTaken) => "vote refused with 7",
            (Record::Vote { .. }, Refusal::TransactionsFull) => "vote refused with 9",
            (Record::Vote { .. }, Refusal::TokensFull) => "vote refused with 10",
            (Record::Vote { .. }, Refusal::HeldOff) => "vote refused with 17",
            (
                &Record::Register {
                    receiver,
                    ref transaction,
                },
                Refusal::KnownAlready,
            ) if self.is_brought(receiver, transaction) => "brought, registered too late",
            _ => return,
        };
        tally.add(label);
        self.refused.push((*call, refusal));
    }

    /// The vote has brought its transaction, on which the receiver itself votes
    /// so.
    pub fn bring(&mut self, tally: &mut Tally, vote: &Record, own: Verdict) {
        let said_yes = matches!(vote, Record::Vote { verdict: 1, .. });
        match (own, said_yes) {
            (Verdict::Yes, _) => {}
            (Verdict::No, true) => tally.add("brought by a yes, own no"),
            (Verdict::No, false) => tally.add("brought by a no, own no"),
        }
        let refused = self.refused.iter().rfind(|(refused, _)| refused == vote);
        match refused.map(|(_, refusal)| refusal) {
            Some(Refusal::TokensFull) => tally.add("vote refused with 10, later brought"),
            Some(Refusal::HeldOff) => tally.add("vote refused with 17, later brought"),
            _ => {}
        }
        self.brought.push(*vote);
    }

    /// Whether this very vote has brought its transaction before.
    pub fn has_brought(&self, vote: &Record) -> bool {
        self.brought.contains(vote)
    }

    /// Whether a vote has brought the transaction to this shard.
    pub fn is_brought(&self, shard: u8, transaction: &Transaction) -> bool {
        self.shards(transaction).any(|brought| brought == shard)
    }

    /// The shards that votes have brought the transaction to.
    pub fn shards(&self, transaction: &Transaction) -> impl Iterator<Item = u8> {
        self.brought.iter().filter_map(move |vote| match vote {
            Record::Vote {
                receiver,
                transaction: brought,
                ..
            } if brought == transaction => Some(*receiver),
            _ => None,
        })
    }
}
