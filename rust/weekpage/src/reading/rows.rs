//! One record, what it was answered, and what it has decided.

use ask::{Found, found};
use plankeeper::{Answer, Cluster, Finding, Outcome, Record, Refusal, Transaction, Verdict};
use weektext::Entry;

use super::history::Gathered;

/// A record of the week.
pub struct Row {
    /// The line of the listing, without its end.
    pub line: String,
    /// The record in the words of a week's text.
    pub text: String,
    /// The line of the week's text that it stands on, where there is one.
    pub written: Option<usize>,
    /// The record; nothing where it could not be read (1 to 5).
    pub record: Option<Record>,
    /// The transaction that it carries, by its place among the week's; also that
    /// of a record that could not be read.
    pub about: Option<usize>,
    /// What the library answered.
    pub answer: Result<Answer, Refusal>,
    /// What the receiver has decided with this record, and had not before it.
    pub decision: Option<Outcome>,
    /// The inputs that made the receiver vote no in this record.
    pub spoilers: Vec<Found>,
}

/// The transaction that a record is about, and who is asked.
#[derive(Clone, Copy)]
pub(super) struct Subject<'a> {
    /// The shard that the record is for.
    pub(super) receiver: u8,
    /// What it is to register, or what was voted on.
    pub(super) transaction: &'a Transaction,
}

impl<'a> Subject<'a> {
    /// The record's, if it has one.
    fn of(record: &'a Record) -> Option<Self> {
        match record {
            Record::Register {
                receiver,
                transaction,
            }
            | Record::Vote {
                receiver,
                transaction,
                ..
            } => Some(Subject {
                receiver: *receiver,
                transaction,
            }),
            Record::Mint { .. } | Record::Turn { .. } => None,
        }
    }

    /// What the receiver has decided; nothing as long as it has not.
    fn decided(self, cluster: &Cluster) -> Option<Outcome> {
        let outcome = cluster.outcome(self.receiver, self.transaction.number());
        outcome.filter(|&outcome| outcome != Outcome::Wait)
    }
}

impl Row {
    /// Plays what was read, the week's record of this step, and lays beside it
    /// what is written.
    pub(super) fn played(
        cluster: &mut Cluster,
        gathered: &mut Gathered,
        step: usize,
        entry: Entry,
        read: Result<Record, Refusal>,
    ) -> Self {
        let record = read.ok();
        let subject = record.as_ref().and_then(Subject::of);
        let decided = |cluster: &Cluster| subject.and_then(|subject| subject.decided(cluster));
        let before = decided(cluster);
        let answer = read.and_then(|record| cluster.play(&record));
        let after = decided(cluster);
        Row {
            line: line(step, record.as_ref(), answer),
            text: entry.text,
            written: entry.line,
            about: entry
                .swap
                .map(|carried| gathered.note(step, carried, subject, answer)),
            decision: after.filter(|_| before.is_none()),
            spoilers: subject.map_or_else(Vec::new, |subject| spoilers(cluster, subject, answer)),
            answer,
            record,
        }
    }
}

/// The listing's line for the answer.
fn line(step: usize, record: Option<&Record>, answer: Result<Answer, Refusal>) -> String {
    // The receiver of a record that could not be read is not known.
    let shard = record.map_or("-".into(), |record| record.receiver().to_string());
    match answer {
        Ok(answer) => format!("{step} {shard} {answer}"),
        Err(refusal) => format!("{step} {shard} REFUSED {}", refusal.number()),
    }
}

/// What was not available, where the receiver has just voted no.
fn spoilers(
    cluster: &Cluster,
    subject: Subject<'_>,
    answer: Result<Answer, Refusal>,
) -> Vec<Found> {
    match answer {
        Ok(
            Answer::Registered {
                verdict: Verdict::No,
                ..
            }
            | Answer::Brought {
                verdict: Verdict::No,
                ..
            },
        ) => unavailable(cluster, subject.receiver, subject.transaction),
        _ => Vec::new(),
    }
}

/// The inputs at the shard that it did not find available, by what it tells of a
/// transaction that it knows.
pub(super) fn unavailable(cluster: &Cluster, shard: u8, transaction: &Transaction) -> Vec<Found> {
    let mut found = found(cluster, shard, transaction).unwrap_or_default();
    found.retain(|found| found.finding != Finding::Available);
    found
}
