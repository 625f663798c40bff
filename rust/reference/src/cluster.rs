//! The cluster of eight shards (document 01: a round).

use std::array;

use crate::finding::Findings;
use crate::shard::{Answer, Limits, Shard};
use crate::transaction::{SHARDS, Transaction};
use crate::{Record, Refusal, Refusal::*};

/// Eight shards, each changed only by the calls it receives.
#[derive(Clone, Debug, PartialEq, Eq, Hash)]
pub struct Cluster {
    shards: [Shard; SHARDS],
}

impl Cluster {
    /// A cluster of empty shards.
    pub fn new(limits: Limits) -> Self {
        Cluster {
            shards: array::from_fn(|number| Shard::new(number as u8, limits)),
        }
    }

    /// The shards, by number.
    pub fn shards(&self) -> &[Shard; SHARDS] {
        &self.shards
    }

    /// The sum of the amounts held in all shards (document 01: TOTAL).
    pub fn total(&self) -> u64 {
        self.shards.iter().map(Shard::total).sum()
    }

    /// Makes the call that the record's fields stand for.
    pub fn play(&mut self, record: &Record) -> Answer {
        match *record {
            Record::Register {
                receiver,
                ref transaction,
            } => self.register(receiver, transaction),
            Record::Vote {
                receiver,
                sender,
                verdict,
                ref transaction,
            } => self.deliver(receiver, sender, verdict, transaction),
            Record::Mint {
                receiver,
                index,
                owner,
                amount,
            } => self.mint(receiver, index, owner, amount),
            Record::Turn { receiver } => self.turn(receiver),
        }
    }

    /// Gives a shard a genesis token (document 01: opening).
    pub fn mint(&mut self, receiver: u8, index: u8, owner: u32, amount: u32) -> Answer {
        self.shard(receiver)?.mint(receiver, index, owner, amount)
    }

    /// Registers a transaction at one of its shards (document 01:
    /// registration).
    pub fn register(&mut self, receiver: u8, transaction: &Transaction) -> Answer {
        self.shard(receiver)?.register(receiver, transaction)
    }

    /// Hands one shard's vote to another (document 01: vote delivery). A vote
    /// that its sender has not given is refused before the receiver looks; so
    /// no shard's own vote comes to it on a number that it does not know.
    pub fn deliver(
        &mut self,
        receiver: u8,
        sender: u8,
        verdict: u8,
        transaction: &Transaction,
    ) -> Answer {
        let shard = self.shard(receiver)?;
        let verdict = shard.check_vote(receiver, sender, verdict, transaction)?;
        let given = self.shard(sender)?.vote_given(transaction);
        if given != Some(verdict) {
            return Err(VoteNotGiven);
        }
        self.shard(receiver)?.note(sender, verdict, transaction)
    }

    /// Turns one shard to the rule that an abort ends its pledges (document 02,
    /// slip 4). The others stay as they are: shards may turn at different times.
    pub fn turn(&mut self, receiver: u8) -> Answer {
        self.shard(receiver)?.turn(receiver)
    }

    /// What one shard's registration of the transaction with this number found
    /// of its inputs there (document 02, slip 2: a steward's call).
    pub fn findings(&self, shard: u8, number: u32) -> Result<Findings, Refusal> {
        let asked = self.shards.get(usize::from(shard)).ok_or(OutOfRange)?;
        asked.findings(shard, number)
    }

    fn shard(&mut self, number: u8) -> Result<&mut Shard, Refusal> {
        self.shards.get_mut(usize::from(number)).ok_or(OutOfRange)
    }
}
