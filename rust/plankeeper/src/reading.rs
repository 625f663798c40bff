//! Records read from bytes.

use std::iter::FusedIterator;

use crate::boundary::{self, READING_WORDS, ReadingWords};
use crate::defect::{byte, nameless};
use crate::{Record, Refusal, Transaction, Verdict};

/// What was read at the front of some bytes.
#[derive(Clone, Copy, Debug, PartialEq, Eq)]
pub struct Reading<'a> {
    /// The record, or why it was refused (1 to 5).
    pub record: Result<Record, Refusal>,
    /// How many bytes it takes, refused or not; all of them where no whole
    /// record stands there.
    pub taken: usize,
    /// The part of the caller's bytes behind it, for the next record; nothing
    /// is copied.
    pub rest: &'a [u8],
}

/// Reads the record at the front of the bytes.
///
/// ```
/// use plankeeper::{Record, Refusal, read};
///
/// let record = Record::Mint { receiver: 0, index: 0, owner: 10, amount: 3 };
/// let mut bytes = record.to_bytes()?;
/// bytes.extend([1, 2, 3]);
///
/// let reading = read(&bytes);
/// assert_eq!(reading.record, Ok(record));
/// assert_eq!((reading.taken, reading.rest), (11, &[1, 2, 3][..]));
///
/// let reading = read(reading.rest);
/// assert_eq!(reading.record, Err(Refusal::TooShort));
/// assert!(reading.rest.is_empty());
/// # Ok::<(), Refusal>(())
/// ```
pub fn read(bytes: &[u8]) -> Reading<'_> {
    let mut fields = [0; READING_WORDS];
    let number = boundary::read(bytes, &mut fields);
    let taken = boundary::taken(bytes);
    let Some(rest) = bytes.get(taken..) else {
        nameless("the length of a record", taken)
    };
    let reading = |record| Reading {
        record,
        taken,
        rest,
    };
    match refused(number) {
        Some(refusal) => reading(Err(refusal)),
        None => accepted(&fields, |record| reading(Ok(record))),
    }
}

/// Reads record after record, each from the place where the one before it
/// ended. A record that is refused with 3, 4 or 5 is one item, and reading goes
/// on behind it; after a refusal with 1 or 2, where no record's end can be
/// told, nothing more is read. Bytes that end behind a whole record are no
/// refusal.
///
/// ```
/// use plankeeper::{Record, Refusal, records};
///
/// let record = Record::Mint { receiver: 0, index: 0, owner: 10, amount: 3 };
/// let mut bytes = record.to_bytes()?.repeat(3);
/// bytes[12] = 8; // the receiver of the second: there is no shard 8
/// bytes.push(3); // the front of a fourth
///
/// let read: Vec<_> = records(&bytes).collect();
/// let refused = [Err(Refusal::OutOfRange), Err(Refusal::TooShort)];
/// assert_eq!(read, [Ok(record), refused[0], Ok(record), refused[1]]);
/// # Ok::<(), Refusal>(())
/// ```
pub fn records(bytes: &[u8]) -> Records<'_> {
    Records { rest: bytes }
}

/// The records of some bytes, one after the other: see [`records`].
#[derive(Clone, Debug)]
pub struct Records<'a> {
    rest: &'a [u8],
}

impl<'a> Records<'a> {
    /// The bytes that were not read yet.
    pub fn rest(&self) -> &'a [u8] {
        self.rest
    }
}

impl Iterator for Records<'_> {
    type Item = Result<Record, Refusal>;

    fn next(&mut self) -> Option<Self::Item> {
        if self.rest.is_empty() {
            return None;
        }
        // Behind a refusal with 1 or 2 nothing is left.
        let reading = read(self.rest);
        self.rest = reading.rest;
        Some(reading.record)
    }
}

impl FusedIterator for Records<'_> {}

/// A reader's refusal by its number, 0 for none.
pub(crate) fn refused(number: u32) -> Option<Refusal> {
    let refusal = match number {
        0 => return None,
        1..=5 => Refusal::from_number(number as u8),
        _ => None,
    };
    Some(refusal.unwrap_or_else(|| nameless("reading a record", number)))
}

/// What becomes of the record with these fields. Each kind is handed on where
/// it is made: a vote's transaction then goes from the fields straight into what
/// is returned, where kinds that meet first cost a second copy of 140 bytes.
#[inline(always)]
fn accepted<T>(fields: &ReadingWords, then: impl FnOnce(Record) -> T) -> T {
    let &[
        kind,
        receiver,
        sender,
        verdict,
        index,
        owner,
        amount,
        ref transaction @ ..,
    ] = fields;
    let receiver = byte(receiver);
    let transaction = || Transaction::from_library(transaction);
    match kind {
        1 => then(Record::Register {
            receiver,
            transaction: transaction(),
        }),
        2 => then(Record::Vote {
            receiver,
            sender: byte(sender),
            verdict: match verdict {
                0 => Verdict::No,
                1 => Verdict::Yes,
                _ => nameless("reading a verdict", verdict),
            },
            transaction: transaction(),
        }),
        3 => then(Record::Mint {
            receiver,
            index: byte(index),
            owner,
            amount,
        }),
        4 => then(Record::Turn { receiver }),
        _ => nameless("reading a kind", kind),
    }
}
