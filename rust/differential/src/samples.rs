//! Records by hand, each with the number of its refusal: 0 for none.

use reference::{Input, Output, Record, TokenId, Transaction};

/// A valid transaction with these counts, plain enough to be changed field by
/// field: with `genesis` its tokens are genesis tokens.
pub fn base(inputs: u8, outputs: u8, genesis: bool) -> Transaction {
    let mut transaction = Transaction {
        number: 5,
        input_count: inputs,
        output_count: outputs,
        ..Transaction::default()
    };
    for slot in 0..inputs {
        transaction.inputs[usize::from(slot)] = Input {
            token: TokenId {
                shard: slot,
                creator: if genesis { 0 } else { 9 + u32::from(slot) },
                index: slot,
            },
            owner: 10 + u32::from(slot),
            amount: 12,
        };
    }
    for slot in 0..outputs {
        transaction.outputs[usize::from(slot)] = Output {
            shard: 7 - slot,
            owner: 20 + u32::from(slot),
            // 12 parts for each input can be shared by 1 to 4 outputs.
            amount: 12 * u32::from(inputs) / u32::from(outputs),
        };
    }
    transaction
}

/// Valid transactions, and refused ones of each number.
pub fn sample_transactions() -> Vec<(u8, Transaction)> {
    let valid = base(3, 2, false);
    let mut unused = valid;
    unused.inputs[3].owner = 1;
    let mut twice = base(4, 4, true);
    twice.inputs[2].token = twice.inputs[0].token;
    let mut twice_later = base(4, 4, true);
    twice_later.inputs[3].token = twice_later.inputs[1].token;
    let mut both = twice;
    both.outputs[3].amount += 1;
    let mut more = base(2, 1, true);
    more.outputs[0].amount += 1;
    let mut less = base(1, 4, true);
    less.outputs[3].amount -= 1;
    vec![
        (0, valid),
        (0, base(1, 1, true)),
        (0, base(4, 4, true)),
        (3, Transaction { number: 0, ..valid }),
        (3, Transaction { number: 0, ..both }),
        (3, Transaction::default()),
        (3, unused),
        (4, twice),
        (4, twice_later),
        (4, both),
        (5, more),
        (5, less),
    ]
}

/// A valid record of each kind, and refused ones of each number.
pub fn sample_records() -> Vec<(u8, Record)> {
    let mint = |receiver, index, owner, amount| Record::Mint {
        receiver,
        index,
        owner,
        amount,
    };
    let mut samples = vec![
        (0, mint(0, 0, 10, 3)),
        (0, mint(7, 127, u32::MAX, 1_000_000)),
        (3, mint(0, 128, 10, 3)),
        (3, mint(0, 0, 0, 0)),
        (0, Record::Turn { receiver: 0 }),
        (0, Record::Turn { receiver: 7 }),
        (3, Record::Turn { receiver: 8 }),
        (3, Record::Turn { receiver: 255 }),
    ];
    for (refusal, transaction) in sample_transactions() {
        let registers = [0, 3, 7].map(|receiver| register(receiver, transaction));
        let votes = [(0, 7, 0), (0, 7, 1), (7, 0, 0), (7, 0, 1)]
            .map(|(receiver, sender, verdict)| vote(receiver, sender, verdict, transaction));
        let records = registers.into_iter().chain(votes);
        samples.extend(records.map(|record| (refusal, record)));
    }
    samples
}

/// Mints with each field at its edges.
pub fn mints_at_their_edges() -> Vec<(u8, Record)> {
    let mut mints = Vec::new();
    for receiver in [0, 7, 8, 255] {
        for index in [0, 3, 4, 31, 32, 127, 128, 255] {
            for owner in [0, 1, 255, 256, 0x0102_0304, u32::MAX] {
                for amount in [
                    0,
                    1,
                    255,
                    256,
                    0x000A_0B0C,
                    999_999,
                    1_000_000,
                    1_000_001,
                    u32::MAX,
                ] {
                    let fits = receiver <= 7 && index <= 127 && owner != 0;
                    let fits = fits && amount != 0 && amount <= 1_000_000;
                    let mint = Record::Mint {
                        receiver,
                        index,
                        owner,
                        amount,
                    };
                    mints.push((if fits { 0 } else { 3 }, mint));
                }
            }
        }
    }
    mints
}

/// Records with every value of each field in front of the transaction, and turns
/// of every shard. A refusal 3 in front goes before a 4 or 5 behind.
pub fn records_with_every_front() -> Vec<(u8, Record)> {
    let valid = base(2, 2, false);
    let mut twice = valid;
    twice.inputs[1].token = twice.inputs[0].token;
    let mut both = twice;
    both.outputs[0].amount = 1;
    let mut unbalanced = valid;
    unbalanced.outputs[1].amount += 1;
    let mut records = Vec::new();
    for receiver in 0..=255 {
        let refusal = if receiver <= 7 { 0 } else { 3 };
        records.push((refusal, Record::Turn { receiver }));
    }
    for (refusal, transaction) in [(0, valid), (4, twice), (4, both), (5, unbalanced)] {
        let vote = |receiver, sender, verdict| vote(receiver, sender, verdict, transaction);
        for value in 0..=255 {
            let shard = if value <= 7 { refusal } else { 3 };
            let verdict = if value <= 1 { refusal } else { 3 };
            records.extend([
                (shard, register(value, transaction)),
                (shard, vote(value, 1, 1)),
                (shard, vote(1, value, 0)),
                (verdict, vote(1, 2, value)),
            ]);
        }
    }
    records
}

fn register(receiver: u8, transaction: Transaction) -> Record {
    Record::Register {
        receiver,
        transaction,
    }
}

fn vote(receiver: u8, sender: u8, verdict: u8, transaction: Transaction) -> Record {
    Record::Vote {
        receiver,
        sender,
        verdict,
        transaction,
    }
}
