//! Access to a transaction's fields by their place, and records of any fields.

use engine::places::{TRANSACTION_WORDS, is_byte};
use reference::{Input, Output, Record, Transaction};

/// A field of a transaction, by its place among the words of the boundary.
#[derive(Clone, Copy, Debug, PartialEq, Eq)]
pub struct Field(usize);

/// Fields of a transaction.
pub const FIELDS: usize = TRANSACTION_WORDS;

/// Ends of the ranges, one beyond, and what a mistaken width would make of them.
const BYTE_EDGES: [u32; 17] = [
    0, 1, 2, 3, 4, 5, 6, 7, 8, 31, 32, 126, 127, 128, 129, 254, 255,
];
const WORD_EDGES: [u32; 26] = [
    0,
    1,
    2,
    3,
    4,
    5,
    7,
    8,
    127,
    128,
    255,
    256,
    257,
    65_535,
    65_536,
    999_999,
    1_000_000,
    1_000_001,
    0x00FF_FFFF,
    0x0100_0000,
    0x0100_0001,
    0x7FFF_FFFF,
    0x8000_0000,
    0x8000_0001,
    u32::MAX - 1,
    u32::MAX,
];

impl Field {
    /// Every field.
    pub fn all() -> impl Iterator<Item = Field> {
        (0..FIELDS).map(Field)
    }

    /// The field at this place.
    pub fn at(place: usize) -> Field {
        assert!(place < FIELDS);
        Field(place)
    }

    /// Width in bits: counts, shards and indices have 8, all others 32.
    pub fn bits(self) -> u32 {
        if is_byte(self.0) { 8 } else { 32 }
    }

    /// Values worth trying.
    pub fn edges(self) -> &'static [u32] {
        if self.bits() == 8 {
            &BYTE_EDGES
        } else {
            &WORD_EDGES
        }
    }

    /// The field's value.
    pub fn get(self, transaction: &Transaction) -> u32 {
        engine::to_words(transaction)[self.0]
    }

    /// The transaction with another value in this field.
    pub fn set(self, transaction: &Transaction, value: u32) -> Transaction {
        let mut words = engine::to_words(transaction);
        words[self.0] = value;
        engine::from_words(&words)
    }
}

/// The record's bytes, whatever its fields hold: writers refuse what tests
/// have to try. It shares nothing with the reference's writer, which is held
/// to these bytes, too.
pub fn encode(record: &Record) -> Vec<u8> {
    let mut bytes = Vec::with_capacity(112);
    match *record {
        Record::Register {
            receiver,
            ref transaction,
        } => {
            bytes.extend([1, receiver]);
            encode_transaction(&mut bytes, transaction);
        }
        Record::Vote {
            receiver,
            sender,
            verdict,
            ref transaction,
        } => {
            bytes.extend([2, receiver, sender, verdict]);
            encode_transaction(&mut bytes, transaction);
        }
        Record::Mint {
            receiver,
            index,
            owner,
            amount,
        } => {
            bytes.extend([3, receiver, index]);
            bytes.extend(owner.to_be_bytes());
            bytes.extend(amount.to_be_bytes());
        }
        Record::Turn { receiver } => bytes.extend([4, receiver]),
    }
    bytes
}

fn encode_transaction(bytes: &mut Vec<u8>, transaction: &Transaction) {
    bytes.extend(transaction.number.to_be_bytes());
    bytes.extend([transaction.input_count, transaction.output_count]);
    for &Input {
        token,
        owner,
        amount,
    } in &transaction.inputs
    {
        bytes.push(token.shard);
        bytes.extend(token.creator.to_be_bytes());
        bytes.push(token.index);
        bytes.extend(owner.to_be_bytes());
        bytes.extend(amount.to_be_bytes());
    }
    for &Output {
        shard,
        owner,
        amount,
    } in &transaction.outputs
    {
        bytes.push(shard);
        bytes.extend(owner.to_be_bytes());
        bytes.extend(amount.to_be_bytes());
    }
}
