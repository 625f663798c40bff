//! Why a record or a call was refused.

use std::error::Error;
use std::fmt::{self, Display, Formatter};

/// Why a record or a call was refused: the causes of document 01's table, of
/// which those from 17 on joined it later. A refused call has changed nothing.
///
/// Shown as text it is the table's sentence, which speaks that document's
/// words: a pantry is a shard, a swap a transaction, an opening a genesis
/// token. Later versions may know further causes.
///
/// ```
/// use plankeeper::Refusal;
///
/// assert_eq!(Refusal::SumsDiffer.number(), 5);
/// assert_eq!(Refusal::SumsDiffer.to_string(), "sums differ");
/// assert_eq!(Refusal::from_number(5), Some(Refusal::SumsDiffer));
/// ```
#[derive(Clone, Copy, Debug, PartialEq, Eq, PartialOrd, Ord, Hash)]
#[non_exhaustive]
#[repr(u8)]
pub enum Refusal {
    /// 1: the kind byte is none of 1 to 4.
    UnknownKind = 1,
    /// 2: there are no bytes, or fewer than the kind's length.
    TooShort = 2,
    /// 3: a field or a count is outside its range, or an unused slot is not
    /// zero; at a lone shard also a call for another shard, or a question about
    /// one.
    OutOfRange = 3,
    /// 4: one token is named by two inputs.
    TokenTwice = 4,
    /// 5: the amounts of inputs and outputs have different sums.
    SumsDiffer = 5,
    /// 6: the receiver or the sender is none of the transaction's shards.
    NotTakingPart = 6,
    /// 7: the number is known here for a different transaction.
    NumberTaken = 7,
    /// 8, register: this transaction is known here already.
    KnownAlready = 8,
    /// 9, register, or a vote that would bring its transaction: 32 transactions
    /// are known here.
    TransactionsFull = 9,
    /// 10, likewise: more than 128 tokens might have to be held here.
    TokensFull = 10,
    /// 11, vote at a lone shard: its own, on a number that is not known here.
    /// Another shard's vote brings the transaction.
    NumberUnknown = 11,
    /// 12, vote: the other verdict was heard from this sender.
    OtherVerdict = 12,
    /// 13, mint: a transaction is known here.
    MintTooLate = 13,
    /// 14, mint: a genesis token with this index was given.
    IndexGiven = 14,
    /// 15, writing: the buffer is shorter than the record.
    BufferTooShort = 15,
    /// 16, vote in a cluster: the sender has not given this vote on this
    /// transaction.
    VoteNotGiven = 16,
    /// 17, register, or a vote that would bring its transaction: one known here
    /// and not decided yet is to make one of the inputs here. Hand it in again
    /// once that one is decided here, which the first no on it is enough for.
    HeldOff = 17,
    /// 18, findings: the number is not known at that shard.
    NoSuchNumber = 18,
    /// 19, turn: this shard is turned already.
    TurnedAlready = 19,
}

impl Refusal {
    /// Every cause, in the order of the numbers.
    pub const ALL: [Refusal; 19] = [
        Refusal::UnknownKind,
        Refusal::TooShort,
        Refusal::OutOfRange,
        Refusal::TokenTwice,
        Refusal::SumsDiffer,
        Refusal::NotTakingPart,
        Refusal::NumberTaken,
        Refusal::KnownAlready,
        Refusal::TransactionsFull,
        Refusal::TokensFull,
        Refusal::NumberUnknown,
        Refusal::OtherVerdict,
        Refusal::MintTooLate,
        Refusal::IndexGiven,
        Refusal::BufferTooShort,
        Refusal::VoteNotGiven,
        Refusal::HeldOff,
        Refusal::NoSuchNumber,
        Refusal::TurnedAlready,
    ];

    /// Every cause by its number, for not every number has one.
    const NUMBERED: [Option<Refusal>; 20] = {
        let mut numbered = [None; 20];
        let mut place = 0;
        while place < Refusal::ALL.len() {
            let refusal = Refusal::ALL[place];
            numbered[refusal as usize] = Some(refusal);
            place += 1;
        }
        numbered
    };

    /// The cause's number in document 01's table.
    #[inline]
    pub fn number(self) -> u8 {
        self as u8
    }

    /// The cause with this number, if there is one.
    #[inline]
    pub fn from_number(number: u8) -> Option<Self> {
        *Refusal::NUMBERED.get(usize::from(number))?
    }
}

impl Display for Refusal {
    fn fmt(&self, f: &mut Formatter<'_>) -> fmt::Result {
        f.write_str(match self {
            Refusal::UnknownKind => "kind not 1 to 4",
            Refusal::TooShort => "no bytes, or fewer than the kind's length",
            Refusal::OutOfRange => {
                "field or count outside its range; pantry above 7; unused slot not zero"
            }
            Refusal::TokenTwice => "one token named twice",
            Refusal::SumsDiffer => "sums differ",
            Refusal::NotTakingPart => "receiver or sender not among the swap's pantries",
            Refusal::NumberTaken => "number known here for a different swap",
            Refusal::KnownAlready => "kind 1: this swap known here",
            Refusal::TransactionsFull => "kind 1 or 2: 32 swaps known",
            Refusal::TokensFull => "kind 1 or 2: tokens would pass 128",
            Refusal::NumberUnknown => "kind 2: number unknown here",
            Refusal::OtherVerdict => "kind 2: other verdict heard from this sender",
            Refusal::MintTooLate => "kind 3: a swap is known here",
            Refusal::IndexGiven => "kind 3: this opening position was given",
            Refusal::BufferTooShort => "writer: lent bytes fewer than the record",
            Refusal::VoteNotGiven => "round, kind 2: sender has not given this vote on this swap",
            Refusal::HeldOff => "kind 1 or 2: takes what an undecided swap is to make here",
            Refusal::NoSuchNumber => "findings: number not known at that pantry",
            Refusal::TurnedAlready => "kind 4: this pantry is turned already",
        })
    }
}

impl Error for Refusal {}
