//! Records and how they are written.

use crate::boundary::{write_mint, write_register, write_turn, write_vote};
use crate::defect::nameless;
use crate::{Refusal, Transaction, Verdict};

/// A call as a record, to be kept or sent as bytes. All numbers are written
/// with the high byte first, and the length is fixed by the kind.
///
/// ```
/// use plankeeper::{Record, Refusal, read};
///
/// let record = Record::Mint { receiver: 1, index: 0, owner: 20, amount: 2 };
/// let bytes = record.to_bytes()?;
/// assert_eq!(bytes, [3, 1, 0, 0, 0, 0, 20, 0, 0, 0, 2]);
/// assert_eq!(read(&bytes).record, Ok(record));
///
/// // A buffer that is too short is left as it was.
/// let mut short = [7; 10];
/// assert_eq!(record.write(&mut short), Err(Refusal::BufferTooShort));
/// assert_eq!(short, [7; 10]);
/// # Ok::<(), Refusal>(())
/// ```
#[derive(Clone, Copy, Debug, PartialEq, Eq, Hash)]
pub enum Record {
    /// Kind 1: asks a shard to register a transaction (document 01: swap).
    Register {
        /// The shard that is asked.
        receiver: u8,
        /// What it is to register.
        transaction: Transaction,
    },
    /// Kind 2: hands one shard's vote to another (document 01: vote), and with it
    /// the transaction, where that is not known there.
    Vote {
        /// The shard that is to hear it.
        receiver: u8,
        /// The shard whose vote it is.
        sender: u8,
        /// The vote.
        verdict: Verdict,
        /// What was voted on.
        transaction: Transaction,
    },
    /// Kind 3: gives a shard a genesis token (document 01: opening).
    Mint {
        /// The shard that will hold it.
        receiver: u8,
        /// Its index, 0 to 127 (document 01: position).
        index: u8,
        /// Its owner, not 0 (document 01: household).
        owner: u32,
        /// Its amount, 1 to 1,000,000 (document 01: portions).
        amount: u32,
    },
    /// Kind 4: turns a shard, so that an abort ends its pledges there (document
    /// 02, 4).
    Turn {
        /// The shard that is turned.
        receiver: u8,
    },
}

impl Record {
    /// The shard that it is for.
    pub fn receiver(&self) -> u8 {
        match *self {
            Record::Register { receiver, .. }
            | Record::Vote { receiver, .. }
            | Record::Mint { receiver, .. }
            | Record::Turn { receiver } => receiver,
        }
    }

    /// How many bytes it is written in: 100, 102, 11 or 2, by its kind.
    pub fn length(&self) -> usize {
        match self {
            Record::Register { .. } => 100,
            Record::Vote { .. } => 102,
            Record::Mint { .. } => 11,
            Record::Turn { .. } => 2,
        }
    }

    /// Writes it to the front of the buffer and gives the number of bytes. The
    /// bytes behind it, and on a refusal (3, 4, 5 or 15) all bytes, keep their
    /// values.
    pub fn write(&self, buffer: &mut [u8]) -> Result<usize, Refusal> {
        let code = match *self {
            Record::Register {
                receiver,
                ref transaction,
            } => write_register(receiver.into(), transaction.words(), buffer),
            Record::Vote {
                receiver,
                sender,
                verdict,
                ref transaction,
            } => {
                let (receiver, sender) = (receiver.into(), sender.into());
                write_vote(
                    receiver,
                    sender,
                    verdict as u32,
                    transaction.words(),
                    buffer,
                )
            }
            Record::Mint {
                receiver,
                index,
                owner,
                amount,
            } => write_mint(receiver.into(), index.into(), owner, amount, buffer),
            Record::Turn { receiver } => write_turn(receiver.into(), buffer),
        };
        let written = written_from_code(self.length(), code);
        written.unwrap_or_else(|| nameless("writing a record", code))
    }

    /// Its bytes. What the library would refuse to carry out for its fields is
    /// not written either (3, 4 or 5).
    pub fn to_bytes(&self) -> Result<Vec<u8>, Refusal> {
        let mut bytes = vec![0; self.length()];
        self.write(&mut bytes)?;
        Ok(bytes)
    }
}

/// What a writer's number at the [boundary](crate::boundary) stands for, of a
/// record that has this length: the bytes written, or 1000 times a refusal's
/// number. Nothing if it stands for neither.
///
/// ```
/// use plankeeper::{Refusal, written_from_code};
///
/// assert_eq!(written_from_code(11, 11), Some(Ok(11)));
/// assert_eq!(written_from_code(11, 3000), Some(Err(Refusal::OutOfRange)));
/// assert_eq!(written_from_code(11, 12), None);
/// ```
pub fn written_from_code(length: usize, code: u64) -> Option<Result<usize, Refusal>> {
    if code == length as u64 {
        return Some(Ok(length));
    }
    let number = u8::try_from(code / 1000).ok();
    let writers = |number: &u8| code.is_multiple_of(1000) && matches!(number, 3..=5 | 15);
    let refusal = number.filter(writers).and_then(Refusal::from_number);
    refusal.map(Err)
}
