//! Transactions and records to build weeks of.

use reference::{
    Input, Known, MAX_AMOUNT, Output, Record, SLOTS, Shard, Token, TokenId, Transaction, cause,
};

use crate::rng::Rng;

/// Ends of the ranges, one beyond, and what a mistaken width would make of
/// them: few, so that a week meets each.
const BYTES: [u8; 12] = [0, 1, 2, 3, 4, 5, 7, 8, 127, 128, 254, 255];
const WORDS: [u32; 12] = [
    0,
    1,
    2,
    255,
    256,
    65_536,
    1_000_000,
    1_000_001,
    1 << 24,
    1 << 31,
    u32::MAX - 1,
    u32::MAX,
];

/// The shard that a record is addressed to.
pub fn receiver(record: &Record) -> u8 {
    let (Record::Register { receiver, .. }
    | Record::Vote { receiver, .. }
    | Record::Mint { receiver, .. }
    | Record::Turn { receiver }) = *record;
    receiver
}

/// One of few owners, so that a wrong one is often another's.
pub(crate) fn owner(rng: &mut Rng) -> u32 {
    match rng.below(40) {
        0 => u32::MAX,
        _ => rng.between(1, 5),
    }
}

/// What the shard keeps of this very transaction.
pub(crate) fn known<'a>(shard: &'a Shard, transaction: &Transaction) -> Option<&'a Known> {
    shard
        .known()
        .iter()
        .find(|known| known.transaction == *transaction)
}

/// Whether the votes of all the transaction's shards are in. An abort may come
/// before.
pub(crate) fn is_all_heard(known: &Known) -> bool {
    let mut shards = known.transaction.shards();
    shards.all(|shard| known.heard[usize::from(shard)].is_some())
}

/// The transaction's inputs at the shard of this number.
pub(crate) fn inputs_at(number: u8, transaction: &Transaction) -> impl Iterator<Item = &Input> {
    let inputs = transaction.used_inputs().iter();
    inputs.filter(move |input| input.token.shard == number)
}

/// The transaction's outputs at the shard of this number, each with its index.
pub(crate) fn outputs_at(
    number: u8,
    transaction: &Transaction,
) -> impl Iterator<Item = (u8, &Output)> {
    let outputs = (0..).zip(transaction.used_outputs());
    outputs.filter(move |(_, output)| output.shard == number)
}

/// The token of this shard among those that it holds.
pub(crate) fn held(tokens: &[Token], id: TokenId) -> Option<&Token> {
    let mut tokens = tokens.iter();
    tokens.find(|token| (token.creator, token.index) == (id.creator, id.index))
}

/// Adds an input, unless its token is among them.
pub(crate) fn add_input(inputs: &mut Vec<Input>, input: Input) {
    if inputs.iter().all(|other| other.token != input.token) {
        inputs.push(input);
    }
}

/// The least and the most that one amount may be, so that it and so many later
/// ones, all in range, can share what is left.
pub fn amounts_between(left: u32, later: u32) -> (u32, u32) {
    let least = left.saturating_sub(later * MAX_AMOUNT).max(1);
    let most = (left - later).min(MAX_AMOUNT);
    (least, most)
}

/// A valid transaction with these inputs, one to four of them, and outputs at
/// these shards.
pub(crate) fn transfer(rng: &mut Rng, number: u32, inputs: &[Input], shards: &[u8]) -> Transaction {
    let mut left: u32 = inputs.iter().map(|input| input.amount).sum();
    let least = left.div_ceil(MAX_AMOUNT);
    let count = rng.between(least, left.min(SLOTS as u32));
    let mut transaction = Transaction {
        number,
        input_count: inputs.len() as u8,
        output_count: count as u8,
        ..Transaction::default()
    };
    transaction.inputs[..inputs.len()].copy_from_slice(inputs);
    for slot in 0..count {
        let later = count - slot - 1;
        let (low, high) = amounts_between(left, later);
        // Even shares keep amounts large enough to be split again.
        let share = (left / (later + 1)).clamp(low, high);
        let amount = if rng.once_in(3) {
            rng.between(low, high)
        } else {
            share
        };
        left -= amount;
        transaction.outputs[slot as usize] = Output {
            shard: rng.pick(shards),
            owner: owner(rng),
            amount,
        };
    }
    transaction
}

/// A valid transaction of the same number that is not the same.
pub(crate) fn variant(rng: &mut Rng, transaction: &Transaction) -> Transaction {
    loop {
        let mut other = *transaction;
        let input = &mut other.inputs[rng.below(other.input_count.into())];
        let output = &mut other.outputs[rng.below(other.output_count.into())];
        match rng.below(7) {
            0 => output.owner ^= 1,
            1 => output.shard = rng.below(8) as u8,
            2 => input.owner ^= 2,
            3 => input.token.index ^= 1,
            4 => input.token.shard = rng.below(8) as u8,
            5 => {
                input.amount += 1;
                output.amount += 1;
            }
            _ => other.outputs[..other.output_count.into()].reverse(),
        }
        if other != *transaction && cause(reference::GENESIS, &other).is_none() {
            return other;
        }
    }
}

/// A part of a record that a damage falls on.
pub enum Part<'a> {
    /// A field of one byte.
    Byte(&'a mut u8),
    /// A field of four bytes.
    Word(&'a mut u32),
    /// The whole transaction.
    Transaction(&'a mut Transaction),
}

/// One of the record's parts: each field in front of a transaction once in so
/// many times, else the transaction; any field of a mint; a turn's only one.
pub fn part<'a>(rng: &mut Rng, record: &'a mut Record, times: usize) -> Part<'a> {
    match record {
        Record::Register {
            receiver,
            transaction,
        } => match rng.below(times) {
            0 => Part::Byte(receiver),
            _ => Part::Transaction(transaction),
        },
        Record::Vote {
            receiver,
            sender,
            verdict,
            transaction,
        } => match rng.below(times) {
            0 => Part::Byte(receiver),
            1 => Part::Byte(sender),
            2 => Part::Byte(verdict),
            _ => Part::Transaction(transaction),
        },
        Record::Mint {
            receiver,
            index,
            owner,
            amount,
        } => match rng.below(4) {
            0 => Part::Byte(receiver),
            1 => Part::Byte(index),
            2 => Part::Word(owner),
            _ => Part::Word(amount),
        },
        Record::Turn { receiver } => Part::Byte(receiver),
    }
}

impl Part<'_> {
    /// Gives a field an edge value, or turns one of its bits; a transaction
    /// has damages of its own.
    fn damage(self, rng: &mut Rng) {
        match self {
            Part::Byte(byte) if rng.once_in(2) => *byte ^= 1 << rng.below(8),
            Part::Byte(byte) => *byte = rng.pick(&BYTES),
            Part::Word(word) if rng.once_in(2) => *word ^= 1 << rng.below(32),
            Part::Word(word) => *word = rng.pick(&WORDS),
            Part::Transaction(transaction) => damage_transaction(rng, transaction),
        }
    }
}

/// Does one damage to the record. A few damages leave it valid.
pub(crate) fn damage(rng: &mut Rng, record: &mut Record) {
    part(rng, record, 12).damage(rng);
}

fn damage_transaction(rng: &mut Rng, transaction: &mut Transaction) {
    let used = SLOTS.min(transaction.input_count.into()).max(1);
    let slot = rng.below(used);
    match rng.below(10) {
        // One token twice, where there are two inputs.
        0..=2 => transaction.inputs[slot].token = transaction.inputs[rng.below(used)].token,
        // Sums that differ by one.
        3..=5 if rng.once_in(2) => transaction.inputs[slot].amount ^= 1,
        3..=5 => transaction.outputs[0].amount ^= 1,
        6 => Part::Byte(&mut transaction.input_count).damage(rng),
        7 => Part::Byte(&mut transaction.output_count).damage(rng),
        8 => field(rng, transaction).damage(rng),
        _ => Part::Word(&mut transaction.number).damage(rng),
    }
}

/// A field of any slot, used or not.
fn field<'a>(rng: &mut Rng, transaction: &'a mut Transaction) -> Part<'a> {
    let slot = rng.below(SLOTS);
    let input = &mut transaction.inputs[slot];
    let output = &mut transaction.outputs[slot];
    match rng.below(8) {
        0 => Part::Byte(&mut input.token.shard),
        1 => Part::Word(&mut input.token.creator),
        2 => Part::Byte(&mut input.token.index),
        3 => Part::Word(&mut input.owner),
        4 => Part::Word(&mut input.amount),
        5 => Part::Byte(&mut output.shard),
        6 => Part::Word(&mut output.owner),
        _ => Part::Word(&mut output.amount),
    }
}
