//! The reference held to document 01's own example and edges, with the bytes
//! written out by hand.

use reference::{
    Input, Output, Reading, Record, Refusal, TokenId, Transaction, cause, read, rest, takes_part,
    write,
};

#[path = "common/example.rs"]
mod example;

use example::TRANSACTION;

fn transaction() -> Transaction {
    let input = |shard, owner, amount| Input {
        token: TokenId {
            shard,
            creator: 0,
            index: 0,
        },
        owner,
        amount,
    };
    let output = |shard, owner, amount| Output {
        shard,
        owner,
        amount,
    };
    let (unused_input, unused_output) = (Input::default(), Output::default());
    Transaction {
        number: 5,
        input_count: 2,
        output_count: 2,
        inputs: [input(0, 10, 3), input(1, 20, 2), unused_input, unused_input],
        outputs: [
            output(1, 10, 3),
            output(0, 20, 2),
            unused_output,
            unused_output,
        ],
    }
}

/// The example's records, and a turn, with their bytes.
fn examples() -> [(Record, Vec<u8>); 4] {
    let transaction = transaction();
    let mint = Record::Mint {
        receiver: 1,
        index: 0,
        owner: 20,
        amount: 2,
    };
    let register = Record::Register {
        receiver: 0,
        transaction,
    };
    let vote = Record::Vote {
        receiver: 0,
        sender: 1,
        verdict: 1,
        transaction,
    };
    [
        (mint, vec![3, 1, 0, 0, 0, 0, 20, 0, 0, 0, 2]),
        (register, [&[1, 0][..], &TRANSACTION].concat()),
        (vote, [&[2, 0, 1, 1][..], &TRANSACTION].concat()),
        (Record::Turn { receiver: 7 }, vec![4, 7]),
    ]
}

fn refused(refusal: Refusal, taken: usize) -> Reading {
    Reading {
        outcome: Err(refusal),
        taken,
    }
}

#[test]
fn examples_are_read_and_written() {
    for (record, bytes) in examples() {
        let reading = Reading {
            outcome: Ok(record),
            taken: bytes.len(),
        };
        assert_eq!(read(&bytes), reading);
        let longer = [&bytes[..], &[9, 9]].concat();
        assert_eq!(read(&longer), reading);
        assert_eq!(rest(&longer), [9, 9]);

        let mut buffer = [7; 110];
        assert_eq!(write(&record, &mut buffer), Ok(bytes.len()));
        let (written, behind) = buffer.split_at(bytes.len());
        assert_eq!(written, bytes);
        assert!(behind.iter().all(|&byte| byte == 7));
    }
}

#[test]
fn short_bytes_and_buffers() {
    assert_eq!(read(&[]), refused(Refusal::TooShort, 0));
    for (record, bytes) in examples() {
        for length in 1..bytes.len() {
            let cut = &bytes[..length];
            assert_eq!(read(cut), refused(Refusal::TooShort, length));
            assert!(rest(cut).is_empty());
        }
        for room in 0..bytes.len() {
            let mut buffer = vec![7; room];
            let answer = write(&record, &mut buffer);
            assert_eq!(answer, Err(Refusal::BufferTooShort));
            assert!(buffer.iter().all(|&byte| byte == 7));
        }
    }
}

#[test]
fn unknown_kinds() {
    for kind in (0..=255).filter(|kind| !(1..=4).contains(kind)) {
        let bytes = [kind; 102];
        for length in [1, 2, 11, 102] {
            let reading = read(&bytes[..length]);
            assert_eq!(reading, refused(Refusal::UnknownKind, length));
            assert!(rest(&bytes[..length]).is_empty());
        }
    }
}

/// A refused record's length is known, so that reading can go on behind it.
#[test]
fn refused_records_are_stepped_over() {
    let [(_, mint), (_, register), (_, vote), _] = examples();
    let mut high_receiver = mint.clone();
    high_receiver[1] = 8;
    let mut same_token = register.clone();
    same_token[22] = 0;
    let mut other_verdict = vote.clone();
    other_verdict[3] = 2;
    let mut unbalanced = vote.clone();
    unbalanced[101 - 27] = 1;
    let cases = [
        (high_receiver, refused(Refusal::OutOfRange, 11)),
        (vec![4, 8], refused(Refusal::OutOfRange, 2)),
        (same_token, refused(Refusal::TokenTwice, 100)),
        (other_verdict, refused(Refusal::OutOfRange, 102)),
        (unbalanced, refused(Refusal::SumsDiffer, 102)),
    ];
    for (bytes, expected) in cases {
        let stretch = [bytes, mint.clone()].concat();
        assert_eq!(read(&stretch), expected);
        assert_eq!(rest(&stretch), mint);
    }
}

/// Document 01: swaps at the edge.
#[test]
fn edges() {
    let mut made_token = transaction();
    made_token.inputs[0].token.creator = 9;
    made_token.inputs[0].token.index = 3;
    assert_eq!(cause(128, &made_token), None);
    made_token.inputs[0].token.index = 4;
    assert_eq!(cause(128, &made_token), Some(Refusal::OutOfRange));

    let mut genesis_token = transaction();
    genesis_token.inputs[0].token.index = 127;
    assert_eq!(cause(128, &genesis_token), None);
    assert_eq!(cause(127, &genesis_token), Some(Refusal::OutOfRange));

    for (amount, expected) in [
        (0, Some(Refusal::OutOfRange)),
        (1, None),
        (1_000_000, None),
        (1_000_001, Some(Refusal::OutOfRange)),
    ] {
        let mut amounts = transaction();
        amounts.inputs[0].amount = amount;
        amounts.outputs[0].amount = amount;
        assert_eq!(cause(128, &amounts), expected);
    }

    let mut unbalanced = transaction();
    unbalanced.outputs[0].amount = 2;
    assert_eq!(cause(128, &unbalanced), Some(Refusal::SumsDiffer));
}

#[test]
fn shards_that_take_part() {
    let mut transaction = transaction();
    transaction.outputs[1].shard = 6;
    for shard in 0..=255 {
        assert_eq!(takes_part(shard, &transaction), matches!(shard, 0 | 1 | 6));
    }
}

#[test]
fn refusals_have_the_numbers_of_the_documents() {
    let known = (0..=255).filter_map(Refusal::from_number);
    let numbers: Vec<u8> = known.map(Refusal::number).collect();
    assert_eq!(numbers, Vec::from_iter(1..=19));
}
