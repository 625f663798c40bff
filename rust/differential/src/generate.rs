//! Valid records, and records with something wrong.

use reference::{GENESIS, Input, MAX_AMOUNT, Output, Record, SLOTS, TokenId, Transaction};
use weeks::{Part, amounts_between, part};

use crate::Rng;
use crate::fields::{FIELDS, Field};

/// A valid transaction. Token ids often agree in all parts but one, and sums
/// often lie at their ends.
pub fn transaction(rng: &mut Rng) -> Transaction {
    let (inputs, outputs) = (1 + rng.below(SLOTS), 1 + rng.below(SLOTS));
    let least = inputs.max(outputs) as u32;
    let most = inputs.min(outputs) as u32 * MAX_AMOUNT;
    let total = match rng.below(8) {
        0 => least,
        1 => most,
        2 => rng.between(least, least + 20),
        _ => rng.between(least, most),
    };
    let mut transaction = Transaction {
        number: nonzero(rng),
        input_count: inputs as u8,
        output_count: outputs as u8,
        ..Transaction::default()
    };
    let amounts = split(rng, total, inputs);
    for (slot, &amount) in amounts[..inputs].iter().enumerate() {
        transaction.inputs[slot] = Input {
            token: fresh_token(rng, &transaction.inputs[..slot]),
            owner: nonzero(rng),
            amount,
        };
    }
    let amounts = split(rng, total, outputs);
    for (slot, &amount) in amounts[..outputs].iter().enumerate() {
        transaction.outputs[slot] = Output {
            shard: shard(rng),
            owner: nonzero(rng),
            amount,
        };
    }
    transaction
}

/// A valid record of any kind.
pub fn record(rng: &mut Rng) -> Record {
    match rng.below(6) {
        0 | 1 => Record::Register {
            receiver: shard(rng),
            transaction: transaction(rng),
        },
        2 | 3 => vote(rng),
        4 => Record::Turn {
            receiver: shard(rng),
        },
        _ => Record::Mint {
            receiver: shard(rng),
            index: genesis_index(rng),
            owner: nonzero(rng),
            amount: amount(rng),
        },
    }
}

/// A valid vote.
pub fn vote(rng: &mut Rng) -> Record {
    Record::Vote {
        receiver: shard(rng),
        sender: shard(rng),
        verdict: rng.below(2) as u8,
        transaction: transaction(rng),
    }
}

/// Does one damage to the record. A few damages leave it valid.
pub fn damage(rng: &mut Rng, record: &mut Record) {
    let byte = rng.pick(Field::at(1).edges()) as u8;
    let word = rng.pick(Field::at(0).edges());
    match part(rng, record, 20) {
        Part::Byte(field) => *field = byte,
        Part::Word(field) => *field = word,
        Part::Transaction(transaction) => damage_transaction(rng, transaction),
    }
}

/// Does one damage to the transaction. A few damages leave it valid.
pub fn damage_transaction(rng: &mut Rng, transaction: &mut Transaction) {
    let inputs = SLOTS.min(transaction.input_count.into()).max(1);
    let outputs = SLOTS.min(transaction.output_count.into()).max(1);
    let (input, output) = (rng.below(inputs), rng.below(outputs));
    let field = Field::at(rng.below(FIELDS));
    match rng.below(10) {
        // Any field gets an edge value, or has one bit turned.
        0..=2 => *transaction = field.set(transaction, rng.pick(field.edges())),
        3 => {
            let turned = field.get(transaction) ^ 1 << rng.below(field.bits() as usize);
            *transaction = field.set(transaction, turned);
        }
        // A token is named twice, or nearly.
        4 | 5 => {
            let other = rng.below(inputs);
            transaction.inputs[input].token = transaction.inputs[other].token;
            if rng.once_in(4) {
                transaction.inputs[input].token = neighbour(rng, transaction.inputs[other].token);
            }
        }
        6 | 7 => shift_amount(rng, transaction, input, output),
        // Sums that agree only if they wrap.
        8 => {
            let half = 1 << 31;
            transaction.inputs[input].amount ^= half;
            transaction.inputs[rng.below(inputs)].amount ^= half;
        }
        _ => shift_count(rng, transaction),
    }
}

/// Sums differ by one.
fn shift_amount(rng: &mut Rng, transaction: &mut Transaction, input: usize, output: usize) {
    let amount = if rng.once_in(2) {
        &mut transaction.inputs[input].amount
    } else {
        &mut transaction.outputs[output].amount
    };
    *amount = if rng.once_in(2) {
        amount.wrapping_add(1)
    } else {
        amount.wrapping_sub(1)
    };
}

/// A count that does not fit its slots.
fn shift_count(rng: &mut Rng, transaction: &mut Transaction) {
    let count = if rng.once_in(2) {
        &mut transaction.input_count
    } else {
        &mut transaction.output_count
    };
    *count = if rng.once_in(2) {
        count.wrapping_add(1)
    } else {
        count.wrapping_sub(1)
    };
}

/// Changes one byte, often to an edge value.
pub fn damage_byte(rng: &mut Rng, bytes: &mut [u8]) {
    let place = rng.below(bytes.len());
    bytes[place] = match rng.below(3) {
        0 => rng.byte(),
        1 => bytes[place] ^ 1 << rng.below(8),
        _ => rng.pick(Field::at(1).edges()) as u8,
    };
}

fn shard(rng: &mut Rng) -> u8 {
    rng.below(8) as u8
}

fn genesis_index(rng: &mut Rng) -> u8 {
    match rng.below(4) {
        0 => GENESIS - 1,
        1 => 0,
        _ => rng.below(GENESIS.into()) as u8,
    }
}

fn nonzero(rng: &mut Rng) -> u32 {
    match rng.below(4) {
        0 => rng.between(1, 9),
        1 => rng.between(u32::MAX - 3, u32::MAX),
        2 => 1 << rng.below(32),
        _ => rng.between(1, u32::MAX),
    }
}

fn amount(rng: &mut Rng) -> u32 {
    match rng.below(4) {
        0 => 1,
        1 => MAX_AMOUNT,
        _ => rng.between(1, MAX_AMOUNT),
    }
}

fn token(rng: &mut Rng) -> TokenId {
    let genesis = rng.once_in(3);
    TokenId {
        shard: shard(rng),
        creator: if genesis { 0 } else { nonzero(rng) },
        index: if genesis {
            genesis_index(rng)
        } else {
            rng.below(SLOTS) as u8
        },
    }
}

/// A token that no earlier input names, but perhaps nearly.
fn fresh_token(rng: &mut Rng, earlier: &[Input]) -> TokenId {
    loop {
        let token = if earlier.is_empty() || rng.once_in(2) {
            token(rng)
        } else {
            let other = earlier[rng.below(earlier.len())];
            neighbour(rng, other.token)
        };
        if earlier.iter().all(|other| other.token != token) {
            return token;
        }
    }
}

/// A valid token id that differs from a valid one in at most one part.
fn neighbour(rng: &mut Rng, token: TokenId) -> TokenId {
    match rng.below(3) {
        0 => TokenId {
            shard: shard(rng),
            ..token
        },
        1 => TokenId {
            creator: if token.index < SLOTS as u8 {
                rng.pick(&[0, 1, 2, 1 << 8, 1 << 16, 1 << 24, u32::MAX])
            } else {
                0
            },
            ..token
        },
        _ => TokenId {
            index: if token.creator == 0 {
                genesis_index(rng)
            } else {
                rng.below(SLOTS) as u8
            },
            ..token
        },
    }
}

/// Splits the total into so many amounts in range, often as unevenly as can be.
fn split(rng: &mut Rng, total: u32, parts: usize) -> [u32; SLOTS] {
    let mut amounts = [0; SLOTS];
    let mut left = total;
    for (slot, amount) in amounts[..parts].iter_mut().enumerate() {
        let (low, high) = amounts_between(left, (parts - slot - 1) as u32);
        *amount = match rng.below(6) {
            0 => low,
            1 => high,
            _ => rng.between(low, high),
        };
        left -= *amount;
    }
    amounts
}
