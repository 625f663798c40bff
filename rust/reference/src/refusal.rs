/// Why a record or call was refused; the numbers are document 01's causes of
/// refusal, and document 02's from 17 on. A transaction is entered by a
/// registration, or by a vote that brings it (document 02, slip 6).
#[derive(Clone, Copy, Debug, PartialEq, Eq)]
#[repr(u8)]
pub enum Refusal {
    /// The kind byte is none of 1 to 4.
    UnknownKind = 1,
    /// No bytes, or fewer than the kind's length.
    TooShort = 2,
    /// A field or count is outside its range, or an unused slot is not zero;
    /// at a lone shard also a record for another shard.
    OutOfRange = 3,
    /// One token is named by two inputs.
    TokenTwice = 4,
    /// The amounts of inputs and outputs have different sums.
    SumsDiffer = 5,
    /// The receiver or the sender is none of the transaction's shards.
    NotTakingPart = 6,
    /// The number is known here for a different transaction.
    NumberTaken = 7,
    /// Register: this transaction is known here.
    KnownAlready = 8,
    /// Entering: as many transactions are known as may be.
    TransactionsFull = 9,
    /// Entering: more tokens might be held than may be.
    TokensFull = 10,
    /// Vote, at a lone shard: its own vote on a number that is not known here.
    NumberUnknown = 11,
    /// Vote: the other verdict was heard from this sender.
    OtherVerdict = 12,
    /// Mint: a transaction is known here.
    MintTooLate = 13,
    /// Mint: this genesis index was given.
    IndexGiven = 14,
    /// The buffer to write into is shorter than the record.
    BufferTooShort = 15,
    /// Vote, in the cluster: the sender has not given this vote on this
    /// transaction.
    VoteNotGiven = 16,
    /// Entering: an undecided transaction known here is to make an input here.
    HeldOff = 17,
    /// Findings: the number is not known at that shard.
    NoSuchNumber = 18,
    /// Turn: this shard is turned already.
    TurnedAlready = 19,
}

impl Refusal {
    /// The cause's number in the documents.
    pub fn number(self) -> u8 {
        self as u8
    }

    /// The cause with this number, if there is one.
    pub fn from_number(number: u8) -> Option<Self> {
        Some(match number {
            1 => Self::UnknownKind,
            2 => Self::TooShort,
            3 => Self::OutOfRange,
            4 => Self::TokenTwice,
            5 => Self::SumsDiffer,
            6 => Self::NotTakingPart,
            7 => Self::NumberTaken,
            8 => Self::KnownAlready,
            9 => Self::TransactionsFull,
            10 => Self::TokensFull,
            11 => Self::NumberUnknown,
            12 => Self::OtherVerdict,
            13 => Self::MintTooLate,
            14 => Self::IndexGiven,
            15 => Self::BufferTooShort,
            16 => Self::VoteNotGiven,
            17 => Self::HeldOff,
            18 => Self::NoSuchNumber,
            19 => Self::TurnedAlready,
            _ => return None,
        })
    }
}
