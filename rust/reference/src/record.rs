use std::array;

use crate::transaction::{
    GENESIS, Input, MAX_SHARD, Output, SLOTS, TokenId, Transaction, cause, holding_fits,
};
use crate::{Refusal, Refusal::*};

const REGISTER: u8 = 1;
const VOTE: u8 = 2;
const MINT: u8 = 3;
const TURN: u8 = 4;

const INPUT_LENGTH: usize = 14;
const OUTPUT_LENGTH: usize = 9;
const TRANSACTION_LENGTH: usize = 6 + SLOTS * INPUT_LENGTH + SLOTS * OUTPUT_LENGTH;

/// Bytes of a register record.
pub const REGISTER_LENGTH: usize = 2 + TRANSACTION_LENGTH;
/// Bytes of a vote record.
pub const VOTE_LENGTH: usize = 4 + TRANSACTION_LENGTH;
/// Bytes of a mint record.
pub const MINT_LENGTH: usize = 11;
/// Bytes of a turn record.
pub const TURN_LENGTH: usize = 2;

/// A record's fields. The reader gives fields in range only; the writer is
/// handed any.
#[derive(Clone, Copy, Debug, PartialEq, Eq)]
pub enum Record {
    /// Hands a transaction to one of its shards (document 01: kind 1, swap).
    Register {
        /// Document 01: receiving pantry.
        receiver: u8,
        /// Document 01: swap.
        transaction: Transaction,
    },
    /// Hands one shard's vote to another (document 01: kind 2, vote).
    Vote {
        /// Document 01: receiving pantry.
        receiver: u8,
        /// Document 01: sending pantry.
        sender: u8,
        /// 1 for yes, 0 for no.
        verdict: u8,
        /// Document 01: swap.
        transaction: Transaction,
    },
    /// Gives a shard a genesis token (document 01: kind 3, opening).
    Mint {
        /// Document 01: receiving pantry.
        receiver: u8,
        /// Document 01: position.
        index: u8,
        /// Document 01: household.
        owner: u32,
        /// Document 01: portions.
        amount: u32,
    },
    /// Turns a shard to the rule that an abort ends its pledges (document 02,
    /// slip 4: kind 4).
    Turn {
        /// Document 01: receiving pantry.
        receiver: u8,
    },
}

/// The reader's answer.
#[derive(Clone, Copy, Debug, PartialEq, Eq)]
pub struct Reading {
    /// The record's fields, or why there are none.
    pub outcome: Result<Record, Refusal>,
    /// Bytes from the front that are done with: the record's length where it
    /// is known, else (refusals 1 and 2) all of them.
    pub taken: usize,
}

/// Reads the record at the front of the bytes.
pub fn read(bytes: &[u8]) -> Reading {
    read_inline(bytes)
}

/// As [`read`], but made part of its caller, where fields nobody asks for need
/// not be built.
#[inline(always)]
pub fn read_inline(bytes: &[u8]) -> Reading {
    match bytes.first() {
        Some(&REGISTER) => read_whole(bytes, read_register),
        Some(&VOTE) => read_whole(bytes, read_vote),
        Some(&MINT) => read_whole(bytes, read_mint),
        Some(&TURN) => read_whole(bytes, read_turn),
        Some(_) => Reading {
            outcome: Err(UnknownKind),
            taken: bytes.len(),
        },
        None => Reading {
            outcome: Err(TooShort),
            taken: 0,
        },
    }
}

/// The part of the bytes behind the record at their front (document 01: for
/// the next record, uncopied). Empty if no whole record is there.
pub fn rest(bytes: &[u8]) -> &[u8] {
    let length = match bytes.first() {
        Some(&REGISTER) => REGISTER_LENGTH,
        Some(&VOTE) => VOTE_LENGTH,
        Some(&MINT) => MINT_LENGTH,
        Some(&TURN) => TURN_LENGTH,
        _ => bytes.len(),
    };
    &bytes[length.min(bytes.len())..]
}

/// Writes the record to the front of the buffer and gives its length. The
/// bytes behind it, and on a refusal all bytes, keep their values.
pub fn write(record: &Record, buffer: &mut [u8]) -> Result<usize, Refusal> {
    match *record {
        Record::Register {
            receiver,
            ref transaction,
        } => {
            check_register(receiver, transaction)?;
            let [kind, to, body @ ..] = room::<REGISTER_LENGTH>(buffer)?;
            (*kind, *to) = (REGISTER, receiver);
            encode_transaction(transaction, body);
            Ok(REGISTER_LENGTH)
        }
        Record::Vote {
            receiver,
            sender,
            verdict,
            ref transaction,
        } => {
            check_vote(receiver, sender, verdict, transaction)?;
            let [kind, to, from, word, body @ ..] = room::<VOTE_LENGTH>(buffer)?;
            (*kind, *to, *from, *word) = (VOTE, receiver, sender, verdict);
            encode_transaction(transaction, body);
            Ok(VOTE_LENGTH)
        }
        Record::Mint {
            receiver,
            index,
            owner,
            amount,
        } => {
            check_mint(receiver, index, owner, amount)?;
            let [o0, o1, o2, o3] = owner.to_be_bytes();
            let [a0, a1, a2, a3] = amount.to_be_bytes();
            let bytes = [MINT, receiver, index, o0, o1, o2, o3, a0, a1, a2, a3];
            put(bytes, buffer)
        }
        Record::Turn { receiver } => {
            check_turn(receiver)?;
            put([TURN, receiver], buffer)
        }
    }
}

/// The fields of the whole record at the front of the bytes, in range or not:
/// for those who show or damage records. The reader does not use it.
pub fn decode(bytes: &[u8]) -> Option<Record> {
    Some(match *bytes.first()? {
        REGISTER => {
            let &[_, receiver, ref body @ ..] = bytes.first_chunk::<REGISTER_LENGTH>()?;
            Record::Register {
                receiver,
                transaction: decode_transaction(body),
            }
        }
        VOTE => {
            let &[_, receiver, sender, verdict, ref body @ ..] =
                bytes.first_chunk::<VOTE_LENGTH>()?;
            Record::Vote {
                receiver,
                sender,
                verdict,
                transaction: decode_transaction(body),
            }
        }
        MINT => {
            let &[_, receiver, index, o0, o1, o2, o3, a0, a1, a2, a3] =
                bytes.first_chunk::<MINT_LENGTH>()?;
            Record::Mint {
                receiver,
                index,
                owner: u32::from_be_bytes([o0, o1, o2, o3]),
                amount: u32::from_be_bytes([a0, a1, a2, a3]),
            }
        }
        TURN => {
            let &[_, receiver] = bytes.first_chunk::<TURN_LENGTH>()?;
            Record::Turn { receiver }
        }
        _ => return None,
    })
}

/// Puts the record behind the bytes, its fields in range or not: for those who
/// build damaged input. The writer does not use it.
pub fn encode(record: &Record, bytes: &mut Vec<u8>) {
    let mut body = [0; TRANSACTION_LENGTH];
    match *record {
        Record::Register {
            receiver,
            ref transaction,
        } => {
            encode_transaction(transaction, &mut body);
            bytes.extend([REGISTER, receiver]);
            bytes.extend(body);
        }
        Record::Vote {
            receiver,
            sender,
            verdict,
            ref transaction,
        } => {
            encode_transaction(transaction, &mut body);
            bytes.extend([VOTE, receiver, sender, verdict]);
            bytes.extend(body);
        }
        Record::Mint {
            receiver,
            index,
            owner,
            amount,
        } => {
            bytes.extend([MINT, receiver, index]);
            bytes.extend(owner.to_be_bytes());
            bytes.extend(amount.to_be_bytes());
        }
        Record::Turn { receiver } => bytes.extend([TURN, receiver]),
    }
}

/// Puts a whole record to the front of the buffer, and gives its length.
fn put<const N: usize>(record: [u8; N], buffer: &mut [u8]) -> Result<usize, Refusal> {
    *room(buffer)? = record;
    Ok(N)
}

/// The front of the buffer, if a record of `N` bytes has room there.
fn room<const N: usize>(buffer: &mut [u8]) -> Result<&mut [u8; N], Refusal> {
    buffer.first_chunk_mut().ok_or(BufferTooShort)
}

/// Reads a record of `N` bytes, if all of them are there.
#[inline(always)]
fn read_whole<const N: usize>(
    bytes: &[u8],
    read: impl FnOnce(&[u8; N]) -> Result<Record, Refusal>,
) -> Reading {
    match bytes.first_chunk() {
        Some(record) => Reading {
            outcome: read(record),
            taken: N,
        },
        None => Reading {
            outcome: Err(TooShort),
            taken: bytes.len(),
        },
    }
}

#[inline(always)]
fn read_register(bytes: &[u8; REGISTER_LENGTH]) -> Result<Record, Refusal> {
    let &[_, receiver, ref body @ ..] = bytes;
    let transaction = decode_transaction(body);
    check_register(receiver, &transaction)?;
    Ok(Record::Register {
        receiver,
        transaction,
    })
}

#[inline(always)]
fn read_vote(bytes: &[u8; VOTE_LENGTH]) -> Result<Record, Refusal> {
    let &[_, receiver, sender, verdict, ref body @ ..] = bytes;
    let transaction = decode_transaction(body);
    check_vote(receiver, sender, verdict, &transaction)?;
    Ok(Record::Vote {
        receiver,
        sender,
        verdict,
        transaction,
    })
}

#[inline(always)]
fn read_mint(bytes: &[u8; MINT_LENGTH]) -> Result<Record, Refusal> {
    let &[_, receiver, index, o0, o1, o2, o3, a0, a1, a2, a3] = bytes;
    let owner = u32::from_be_bytes([o0, o1, o2, o3]);
    let amount = u32::from_be_bytes([a0, a1, a2, a3]);
    check_mint(receiver, index, owner, amount)?;
    Ok(Record::Mint {
        receiver,
        index,
        owner,
        amount,
    })
}

#[inline(always)]
fn read_turn(bytes: &[u8; TURN_LENGTH]) -> Result<Record, Refusal> {
    let &[_, receiver] = bytes;
    check_turn(receiver)?;
    Ok(Record::Turn { receiver })
}

// The reader and the writer refuse the same fields, so they share the checks.

#[inline(always)]
fn check_register(receiver: u8, transaction: &Transaction) -> Result<(), Refusal> {
    check_transaction(receiver <= MAX_SHARD, transaction)
}

#[inline(always)]
fn check_vote(
    receiver: u8,
    sender: u8,
    verdict: u8,
    transaction: &Transaction,
) -> Result<(), Refusal> {
    check_transaction(
        receiver <= MAX_SHARD && sender <= MAX_SHARD && verdict <= 1,
        transaction,
    )
}

#[inline(always)]
fn check_mint(receiver: u8, index: u8, owner: u32, amount: u32) -> Result<(), Refusal> {
    if receiver <= MAX_SHARD && index < GENESIS && holding_fits(owner, amount) {
        Ok(())
    } else {
        Err(OutOfRange)
    }
}

#[inline(always)]
fn check_turn(receiver: u8) -> Result<(), Refusal> {
    if receiver <= MAX_SHARD {
        Ok(())
    } else {
        Err(OutOfRange)
    }
}

/// Refusal 3 for the fields in front of the transaction goes before 4 and 5.
#[inline(always)]
fn check_transaction(head_fits: bool, transaction: &Transaction) -> Result<(), Refusal> {
    if !head_fits {
        return Err(OutOfRange);
    }
    cause(GENESIS, transaction).map_or(Ok(()), Err)
}

#[inline(always)]
fn decode_transaction(bytes: &[u8; TRANSACTION_LENGTH]) -> Transaction {
    let &[n0, n1, n2, n3, input_count, output_count, ref slots @ ..] = bytes;
    let (inputs, outputs) = slots.split_at(SLOTS * INPUT_LENGTH);
    let (inputs, _) = inputs.as_chunks();
    let (outputs, _) = outputs.as_chunks();
    Transaction {
        number: u32::from_be_bytes([n0, n1, n2, n3]),
        input_count,
        output_count,
        inputs: array::from_fn(|slot| decode_input(&inputs[slot])),
        outputs: array::from_fn(|slot| decode_output(&outputs[slot])),
    }
}

fn encode_transaction(transaction: &Transaction, bytes: &mut [u8; TRANSACTION_LENGTH]) {
    let [n0, n1, n2, n3, input_count, output_count, slots @ ..] = bytes;
    [*n0, *n1, *n2, *n3] = transaction.number.to_be_bytes();
    *input_count = transaction.input_count;
    *output_count = transaction.output_count;
    let (inputs, outputs) = slots.split_at_mut(SLOTS * INPUT_LENGTH);
    for (bytes, input) in inputs.as_chunks_mut().0.iter_mut().zip(&transaction.inputs) {
        *bytes = encode_input(input);
    }
    for (bytes, output) in outputs
        .as_chunks_mut()
        .0
        .iter_mut()
        .zip(&transaction.outputs)
    {
        *bytes = encode_output(output);
    }
}

#[inline(always)]
fn decode_input(bytes: &[u8; INPUT_LENGTH]) -> Input {
    let &[shard, c0, c1, c2, c3, index, o0, o1, o2, o3, a0, a1, a2, a3] = bytes;
    Input {
        token: TokenId {
            shard,
            creator: u32::from_be_bytes([c0, c1, c2, c3]),
            index,
        },
        owner: u32::from_be_bytes([o0, o1, o2, o3]),
        amount: u32::from_be_bytes([a0, a1, a2, a3]),
    }
}

fn encode_input(input: &Input) -> [u8; INPUT_LENGTH] {
    let TokenId {
        shard,
        creator,
        index,
    } = input.token;
    let [c0, c1, c2, c3] = creator.to_be_bytes();
    let [o0, o1, o2, o3] = input.owner.to_be_bytes();
    let [a0, a1, a2, a3] = input.amount.to_be_bytes();
    [shard, c0, c1, c2, c3, index, o0, o1, o2, o3, a0, a1, a2, a3]
}

#[inline(always)]
fn decode_output(bytes: &[u8; OUTPUT_LENGTH]) -> Output {
    let &[shard, o0, o1, o2, o3, a0, a1, a2, a3] = bytes;
    Output {
        shard,
        owner: u32::from_be_bytes([o0, o1, o2, o3]),
        amount: u32::from_be_bytes([a0, a1, a2, a3]),
    }
}

fn encode_output(output: &Output) -> [u8; OUTPUT_LENGTH] {
    let [o0, o1, o2, o3] = output.owner.to_be_bytes();
    let [a0, a1, a2, a3] = output.amount.to_be_bytes();
    [output.shard, o0, o1, o2, o3, a0, a1, a2, a3]
}
