//! What a text writes on one line: a record, a swap's take or give, its counts,
//! bytes.

use std::collections::HashMap;
use std::fmt::Write;

use reference::{Input, Output, Record, SLOTS, Transaction};

/// Bytes on a line of them.
pub(crate) const BYTES: usize = 16;

/// The swaps met so far, each with the label that records name it by.
#[derive(Default)]
pub(crate) struct Labels {
    labels: HashMap<Transaction, String>,
    /// How many different swaps have this number.
    numbers: HashMap<u32, usize>,
}

/// The lines of a swap's fields, without their indent.
pub(crate) struct Fields {
    /// The counts, where they are not those of the lines.
    pub(crate) counts: Option<String>,
    /// A line for each slot that needs one.
    pub(crate) takes: Vec<String>,
    /// Likewise.
    pub(crate) gives: Vec<String>,
}

impl Labels {
    /// The swap's label: its number, and behind it which one of that number it is
    /// where it is not the first.
    pub(crate) fn label(&mut self, transaction: &Transaction) -> &str {
        self.labels.entry(*transaction).or_insert_with(|| {
            let number = transaction.number;
            let same = self.numbers.entry(number).or_default();
            *same += 1;
            match *same {
                1 => number.to_string(),
                place => format!("{number}-{place}"),
            }
        })
    }

    /// Whether the swap has a label already.
    pub(crate) fn knows(&self, transaction: &Transaction) -> bool {
        self.labels.contains_key(transaction)
    }

    /// The record's line.
    pub(crate) fn record(&mut self, record: &Record) -> String {
        match *record {
            Record::Mint {
                receiver,
                index,
                owner,
                amount,
            } => format!(
                "opening pantry {receiver} position {index} household {owner} portions {amount}"
            ),
            Record::Register {
                receiver,
                ref transaction,
            } => format!("register {} at {receiver}", self.label(transaction)),
            Record::Vote {
                receiver,
                sender,
                verdict,
                ref transaction,
            } => format!(
                "vote {} on {} from {sender} to {receiver}",
                verdict_word(verdict),
                self.label(transaction)
            ),
            Record::Turn { receiver } => format!("turn pantry {receiver}"),
        }
    }
}

impl Fields {
    /// Those of this swap.
    pub(crate) fn of(transaction: &Transaction) -> Self {
        let (inputs, outputs) = (transaction.input_count, transaction.output_count);
        let takes = shown(&transaction.inputs, inputs);
        let gives = shown(&transaction.outputs, outputs);
        let told = (takes.len(), gives.len()) == (inputs.into(), outputs.into());
        Fields {
            counts: (!told).then(|| format!("counts inputs {inputs} outputs {outputs}")),
            takes: takes.iter().map(take).collect(),
            gives: gives.iter().map(give).collect(),
        }
    }
}

/// The swap that a record carries.
pub(crate) fn carried(record: &Record) -> Option<&Transaction> {
    match record {
        Record::Register { transaction, .. } | Record::Vote { transaction, .. } => {
            Some(transaction)
        }
        Record::Mint { .. } | Record::Turn { .. } => None,
    }
}

/// `yes`, `no`, or the byte that is neither.
fn verdict_word(verdict: u8) -> String {
    match verdict {
        1 => "yes".into(),
        0 => "no".into(),
        other => other.to_string(),
    }
}

fn take(input: &Input) -> String {
    let Input {
        token,
        owner,
        amount,
    } = input;
    let (shard, index) = (token.shard, token.index);
    let named = match token.creator {
        0 => format!("opening {index}"),
        creator => format!("swap {creator} position {index}"),
    };
    format!("take pantry {shard} {named} household {owner} portions {amount}")
}

fn give(output: &Output) -> String {
    let Output {
        shard,
        owner,
        amount,
    } = output;
    format!("give pantry {shard} household {owner} portions {amount}")
}

/// Bytes as they are.
pub(crate) fn raw(bytes: &[u8]) -> String {
    bytes.iter().fold("bytes".into(), |mut line, byte| {
        write!(line, " {byte:02x}").expect("a string takes every text");
        line
    })
}

/// The slots that need a line: those that count, and unused ones up to the last
/// that is not all zero.
fn shown<T: Default + PartialEq>(slots: &[T; SLOTS], count: u8) -> &[T] {
    let zero = T::default();
    let last = slots.iter().rposition(|slot| *slot != zero);
    let filled = last.map_or(0, |place| place + 1);
    let counted = usize::from(count);
    if counted <= SLOTS {
        &slots[..filled.max(counted)]
    } else {
        &slots[..filled]
    }
}
