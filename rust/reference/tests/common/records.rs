//! Records from their fields.

use reference::{Input, Output, Record, TokenId, Transaction};

/// Shard, creator, index, owner, amount.
pub type InputFields = (u8, u32, u8, u32, u32);
/// Shard, owner, amount.
pub type OutputFields = (u8, u32, u32);

/// Used slots from the front, the others zero.
pub fn transaction(number: u32, inputs: &[InputFields], outputs: &[OutputFields]) -> Transaction {
    let mut transaction = Transaction {
        number,
        input_count: inputs.len() as u8,
        output_count: outputs.len() as u8,
        ..Transaction::default()
    };
    for (slot, &(shard, creator, index, owner, amount)) in inputs.iter().enumerate() {
        transaction.inputs[slot] = Input {
            token: TokenId {
                shard,
                creator,
                index,
            },
            owner,
            amount,
        };
    }
    for (slot, &(shard, owner, amount)) in outputs.iter().enumerate() {
        transaction.outputs[slot] = Output {
            shard,
            owner,
            amount,
        };
    }
    transaction
}

pub fn mint(receiver: u8, index: u8, owner: u32, amount: u32) -> Record {
    Record::Mint {
        receiver,
        index,
        owner,
        amount,
    }
}

pub fn register(receiver: u8, transaction: Transaction) -> Record {
    Record::Register {
        receiver,
        transaction,
    }
}
