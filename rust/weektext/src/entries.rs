//! The records of a week one by one, as people read them.

use reference::{Record, Transaction, decode, encode, rest};

use crate::Error;
use crate::lines::{BYTES, Fields, Labels, carried, raw};
use crate::parse::{Parsed, Starts, parsed};

/// A record of a week as people read it.
#[derive(Clone, Debug, PartialEq, Eq)]
pub struct Entry {
    /// The line of the week's text on which its first byte is written, from 1;
    /// nothing where the week came as records.
    pub line: Option<usize>,
    /// The record in the words of a week's text, on one line: `register 8 at 9`.
    /// The second different swap of a number has the label that [`text`] gives
    /// it. Of bytes that are no whole record `bytes 09 00`, at most sixteen of
    /// them, and how many more there are.
    ///
    /// [`text`]: crate::text()
    pub text: String,
    /// The swap that it carries, whatever its fields are.
    pub swap: Option<Carried>,
}

/// The swap of a record, whatever its fields are.
#[derive(Clone, Debug, PartialEq, Eq)]
pub struct Carried {
    /// Its number.
    pub number: u32,
    /// What the week's records name it by: its number, and behind it which one of
    /// that number it is where it is not the first.
    pub label: String,
    /// The 98 bytes of its fields: two swaps are the same only if these agree.
    pub fields: [u8; 98],
    /// A line for each token that it takes, in the words of a week's text.
    pub takes: Vec<String>,
    /// A line for each token that it gives, likewise.
    pub gives: Vec<String>,
    /// Its counts, likewise, where they are not those of the lines.
    pub counts: Option<String>,
}

/// The records of a week that came as records, as the listing counts them: behind
/// an unknown kind or a cut record it reads no further, so all bytes from there on
/// are one entry, the last.
pub fn entries(bytes: &[u8]) -> Vec<Entry> {
    written(bytes, &Starts::default())
}

/// The records of a week's text, likewise, each with its line; or the text's first
/// error.
pub fn entries_of_text(text: &[u8]) -> Result<Vec<Entry>, Error> {
    let Parsed { bytes, starts } = parsed(text)?;
    Ok(written(&bytes, &starts))
}

/// The records, with the lines that they are written on.
fn written(bytes: &[u8], starts: &Starts) -> Vec<Entry> {
    let mut labels = Labels::default();
    let mut entries = Vec::new();
    let mut left = bytes;
    while !left.is_empty() {
        let line = starts.line(bytes.len() - left.len());
        let record = decode(left);
        entries.push(Entry {
            line,
            text: match &record {
                Some(record) => labels.record(record),
                None => strange(left),
            },
            swap: record
                .as_ref()
                .and_then(carried)
                .map(|swap| Carried::of(swap, labels.label(swap))),
        });
        left = match record {
            Some(_) => rest(left),
            None => &[],
        };
    }
    entries
}

/// Bytes that are no whole record.
fn strange(bytes: &[u8]) -> String {
    match bytes.split_at_checked(BYTES) {
        Some((first, more)) if !more.is_empty() => {
            format!("{} and {} more", raw(first), more.len())
        }
        _ => raw(bytes),
    }
}

impl Carried {
    fn of(transaction: &Transaction, label: &str) -> Self {
        let Fields {
            counts,
            takes,
            gives,
        } = Fields::of(transaction);
        Carried {
            number: transaction.number,
            label: label.to_owned(),
            fields: body(transaction),
            takes,
            gives,
            counts,
        }
    }
}

/// The bytes of the swap's fields, which a record has behind its kind and its
/// receiver.
fn body(transaction: &Transaction) -> [u8; 98] {
    let record = Record::Register {
        receiver: 0,
        transaction: *transaction,
    };
    let mut bytes = Vec::new();
    encode(&record, &mut bytes);
    *bytes.last_chunk().expect("a registration has 100 bytes")
}
