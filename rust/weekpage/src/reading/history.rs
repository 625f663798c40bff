//! The transactions of a week, and what became of each.

use std::collections::HashMap;

use ask::Found;
use plankeeper::{Answer, Cluster, Known, Outcome, Refusal, Transaction, Verdict};
use weektext::Carried;

use super::end::ShardState;
use super::rows::{Subject, unavailable};

/// What became of a transaction that a record of the week has carried.
pub struct History {
    /// Its fields in the words of a week's text, whatever they are.
    pub carried: Carried,
    /// It as the library has read it; nothing where no record that carries it
    /// could be read.
    pub transaction: Option<Transaction>,
    /// The step of its last registration, by a call of its own or by a vote.
    pub registered: Option<usize>,
    /// The records about it that were refused, in their order.
    pub refused: Vec<Refused>,
    /// What each of its shards, in their order, knows of it at the end; nothing
    /// where it could not be read.
    pub at: Vec<AtShard>,
}

/// A record that was refused.
pub struct Refused {
    /// Its step.
    pub step: usize,
    /// The shard that it was for; nothing where it could not be read.
    pub shard: Option<u8>,
    /// Why.
    pub refusal: Refusal,
}

/// What a shard knows of a transaction at the end.
pub struct AtShard {
    /// The shard.
    pub shard: u8,
    /// The votes heard there and the outcome, where it knows the transaction.
    pub known: Option<Known>,
    /// The inputs that made it vote no.
    pub spoilers: Vec<Found>,
}

/// How a transaction has ended.
#[derive(Clone, Copy, Debug, PartialEq, Eq)]
pub enum End {
    /// Some shard has decided commit.
    Committed,
    /// Some shard has decided abort.
    Aborted,
    /// It is known, and no shard has decided.
    Undecided,
    /// No shard knows it.
    Unknown,
}

impl History {
    /// Its number.
    pub fn number(&self) -> u32 {
        self.carried.number
    }

    /// Its label in a week's text. Two transactions are the same only if every
    /// field agrees, so there may be more than one of a number.
    pub fn name(&self) -> &str {
        &self.carried.label
    }

    /// How it has ended.
    pub fn end(&self) -> End {
        let mut outcomes = self.outcomes().peekable();
        if outcomes.peek().is_none() {
            return End::Unknown;
        }
        let decided = outcomes.find(|&outcome| outcome != Outcome::Wait);
        match decided {
            Some(Outcome::Commit) => End::Committed,
            Some(Outcome::Abort) => End::Aborted,
            _ => End::Undecided,
        }
    }

    /// What the shards that know it have decided.
    fn outcomes(&self) -> impl Iterator<Item = Outcome> {
        let known = self.at.iter().filter_map(|at| at.known.as_ref());
        known.map(|known| known.outcome)
    }
}

impl AtShard {
    /// What the shard, which knows these transactions, knows of this one.
    fn new(cluster: &Cluster, shard: u8, known: &[Known], transaction: &Transaction) -> Self {
        let known = known.iter().find(|known| known.transaction == *transaction);
        let mut at = AtShard {
            shard,
            known: known.copied(),
            spoilers: Vec::new(),
        };
        if at.vote() == Some(Verdict::No) {
            at.spoilers = unavailable(cluster, shard, transaction);
        }
        at
    }

    /// Its own vote, where it has given one.
    pub fn vote(&self) -> Option<Verdict> {
        let known = self.known.as_ref()?;
        known.heard[usize::from(self.shard)]
    }
}

/// The transactions carried so far.
#[derive(Default)]
pub(super) struct Gathered {
    histories: Vec<History>,
    /// Their places by the bytes of their fields.
    places: HashMap<[u8; 98], usize>,
}

impl Gathered {
    /// Notes a record that carries a transaction, and gives its place. Where the
    /// record could not be read it has no subject.
    pub(super) fn note(
        &mut self,
        step: usize,
        carried: Carried,
        subject: Option<Subject<'_>>,
        answer: Result<Answer, Refusal>,
    ) -> usize {
        let place = self.place(carried);
        let history = &mut self.histories[place];
        if let Some(subject) = subject {
            history.transaction = Some(*subject.transaction);
        }
        match answer {
            Ok(Answer::Registered { .. } | Answer::Brought { .. }) => {
                history.registered = Some(step)
            }
            Ok(_) => {}
            Err(refusal) => history.refused.push(Refused {
                step,
                shard: subject.map(|subject| subject.receiver),
                refusal,
            }),
        }
        place
    }

    fn place(&mut self, carried: Carried) -> usize {
        *self.places.entry(carried.fields).or_insert_with(|| {
            self.histories.push(History {
                carried,
                transaction: None,
                registered: None,
                refused: Vec::new(),
                at: Vec::new(),
            });
            self.histories.len() - 1
        })
    }

    /// All of them, with what the shards know at the end.
    pub(super) fn ended(self, cluster: &Cluster, shards: &[ShardState; 8]) -> Vec<History> {
        let mut histories = self.histories;
        for history in &mut histories {
            if let Some(transaction) = &history.transaction {
                let at = shards_of(transaction).map(|shard| {
                    let known = &shards[usize::from(shard)].known;
                    AtShard::new(cluster, shard, known, transaction)
                });
                history.at = at.collect();
            }
        }
        histories
    }
}

/// The places of the transactions that shards know, by shard and number.
pub(super) fn numbered(histories: &[History]) -> HashMap<(u8, u32), usize> {
    let known = histories.iter().enumerate().flat_map(|(place, history)| {
        let known = history.at.iter().filter(|at| at.known.is_some());
        known.map(move |at| ((at.shard, history.number()), place))
    });
    known.collect()
}

/// The shards of its inputs and outputs, in their order.
fn shards_of(transaction: &Transaction) -> impl Iterator<Item = u8> + use<'_> {
    let takes_part = |shard: &u8| {
        let mut inputs = transaction.inputs();
        let mut outputs = transaction.outputs();
        inputs.any(|input| input.token.shard == *shard)
            || outputs.any(|output| output.shard == *shard)
    };
    (0..8).filter(takes_part)
}
