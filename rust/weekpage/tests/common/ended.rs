//! How a week has ended, by the reference and by demand 3's clauses.

use reference::{Cluster, Done, Finding, Known, Outcome, Refusal, Transaction, Verdict};
use weeks::{Clauses, receiver, views};

use crate::carried::carried;
use crate::common::cases::Case;
use crate::played::{Played, play};

/// What the tests ask about the end of a week.
pub struct Ended {
    /// The shards.
    pub cluster: Cluster,
    /// The numbers of the committed transactions, in the clauses' serial order.
    pub committed: Vec<u32>,
    /// Every transaction that a record has carried, in the order in which they
    /// first came.
    pub told: Vec<Told>,
    /// The lines of the week's text on which the records stand, by step; nothing
    /// where there is no text.
    pub lines: Vec<Option<usize>>,
}

/// A transaction that a record has carried.
pub struct Told {
    /// It.
    pub transaction: Transaction,
    /// What the page calls it.
    pub name: String,
    /// Whether a record with it could be read.
    pub is_read: bool,
    /// The step of its last registration, by a call of its own or by a vote.
    pub registered: Option<usize>,
    /// The records about it that were refused: the step, whose it was if it could
    /// be read, the cause.
    pub refused: Vec<(usize, Option<u8>, Refusal)>,
}

impl Ended {
    /// Of this week.
    pub fn of(case: &Case) -> Self {
        let (mut clauses, mut told) = (Clauses::new(), Vec::new());
        let mut carried = (1..).zip(carried(&case.bytes));
        let cluster = play(&case.bytes, |(record, answer), after| {
            if let Some(record) = record {
                clauses.step(record, answer.is_err(), &views(after));
            }
            let (step, carried) = carried.next().expect("each record is there");
            if let Some(transaction) = &carried {
                noted(&mut told, transaction).note(step, (record, answer));
            }
        });
        let written = case.written().into_iter();
        Ended {
            cluster,
            committed: clauses.committed_numbers(),
            told,
            lines: written.map(|entry| entry.line).collect(),
        }
    }

    /// What the shard knows of the transaction.
    pub fn known(&self, shard: u8, told: &Told) -> Option<&Known> {
        let mut known = self.cluster.shards()[usize::from(shard)].known().iter();
        known.find(|known| known.transaction == told.transaction)
    }

    /// The transaction that the shard knows by this number.
    pub fn numbered(&self, shard: u8, number: u32) -> &Told {
        let mut told = self.told.iter();
        let told = told
            .find(|told| told.transaction.number == number && self.known(shard, told).is_some());
        told.expect("the shard knows the number")
    }

    /// What its shards have decided, where they know it.
    pub fn outcomes(&self, told: &Told) -> Vec<(u8, Option<Outcome>)> {
        let outcome = |shard| self.known(shard, told).map(Known::outcome);
        let shards = told.shards().into_iter();
        shards.map(|shard| (shard, outcome(shard))).collect()
    }

    /// How it has ended, in the page's words.
    pub fn end(&self, told: &Told) -> &'static str {
        let outcomes = self.outcomes(told);
        let has = |wanted| outcomes.iter().any(|&(_, it)| it == Some(wanted));
        if has(Outcome::Commit) {
            "committed"
        } else if has(Outcome::Abort) {
            "aborted"
        } else if has(Outcome::Wait) {
            "undecided"
        } else {
            "known nowhere"
        }
    }

    /// The shards that voted no on it, each with what it found.
    pub fn noes(&self, told: &Told) -> Vec<(u8, Vec<Finding>)> {
        let no = |shard: u8| {
            let known = self.known(shard, told)?;
            let voted_no = known.heard[usize::from(shard)] == Some(Verdict::No);
            let findings = known.findings.iter().copied().flatten();
            voted_no.then(|| (shard, findings.collect()))
        };
        told.shards().into_iter().filter_map(no).collect()
    }
}

impl Told {
    /// Its shards, each once and in their order; none where it could not be read.
    pub fn shards(&self) -> Vec<u8> {
        let shards = self.transaction.shards();
        let mut shards: Vec<u8> = shards.filter(|_| self.is_read).collect();
        shards.sort();
        shards.dedup();
        shards
    }

    fn note(&mut self, step: usize, (record, answer): Played) {
        self.is_read |= record.is_some();
        match answer {
            Ok(Done::Registered { .. } | Done::Brought { .. }) => self.registered = Some(step),
            Ok(_) => {}
            Err(refusal) => self.refused.push((step, record.map(receiver), refusal)),
        }
    }
}

/// The transaction among those carried, behind the others where it is new: two are
/// the same only if every field agrees.
fn noted<'a>(told: &'a mut Vec<Told>, transaction: &Transaction) -> &'a mut Told {
    let mut places = told.iter();
    let place = places.position(|told| told.transaction == *transaction);
    let place = place.unwrap_or_else(|| {
        let number = transaction.number;
        let same = told.iter().filter(|told| told.transaction.number == number);
        told.push(Told {
            transaction: *transaction,
            name: name(number, 1 + same.count()),
            is_read: false,
            registered: None,
            refused: Vec::new(),
        });
        told.len() - 1
    });
    &mut told[place]
}

/// A swap by its number, and by which of that number it is.
fn name(number: u32, which: usize) -> String {
    match which {
        1 => format!("swap {number}"),
        _ => format!("swap {number}-{which}"),
    }
}
