//! A transaction's fields and words.

use super::story::BYTES;
use crate::{Cluster, Input, Output, Refusal, TokenId, Transaction};

fn input(slot: u8) -> Input {
    let place = 3 + 5 * u32::from(slot);
    Input {
        token: TokenId {
            shard: place as u8,
            creator: place + 1,
            index: place as u8 + 2,
        },
        owner: place + 3,
        amount: place + 4,
    }
}

fn output(slot: u8) -> Output {
    let place = 23 + 3 * u32::from(slot);
    Output {
        shard: place as u8,
        owner: place + 1,
        amount: place + 2,
    }
}

/// As many inputs and outputs, each field with its own place as its value.
fn built(inputs: u8, outputs: u8) -> Transaction {
    let empty = Transaction::new(77);
    let taking = (0..inputs).map(input).fold(empty, Transaction::input);
    (0..outputs).map(output).fold(taking, Transaction::output)
}

#[test]
fn every_field_has_its_place() {
    for (inputs, outputs) in (0..=4).flat_map(|count| (0..=4).map(move |other| (count, other))) {
        let transaction = built(inputs, outputs);
        let ends = (3 + 5 * u32::from(inputs), 23 + 3 * u32::from(outputs));
        let words = std::array::from_fn(|place| match place as u32 {
            0 => 77,
            1 => inputs.into(),
            2 => outputs.into(),
            place @ 3..23 if place < ends.0 => place,
            place @ 23.. if place < ends.1 => place,
            _ => 0,
        });
        assert_eq!(*transaction.words(), words);
        assert_eq!(Transaction::from_words(words), transaction);
        assert_eq!(transaction.number(), 77);
        assert_eq!(transaction.input_count(), inputs);
        assert_eq!(transaction.output_count(), outputs);
        assert_eq!(transaction.inputs().len(), inputs.into());
        assert!(transaction.inputs().eq((0..inputs).map(input)));
        assert_eq!(transaction.outputs().len(), outputs.into());
        assert!(transaction.outputs().eq((0..outputs).map(output)));
    }
}

#[test]
fn a_fifth_has_no_slot_and_is_counted() {
    for (inputs, outputs) in [(5, 4), (4, 5), (200, 200)] {
        let mut four = *built(4, 4).words();
        (four[1], four[2]) = (inputs.into(), outputs.into());
        let transaction = built(inputs, outputs);
        assert_eq!(*transaction.words(), four);
        assert!(transaction.inputs().eq((0..4).map(input)));
        assert!(transaction.outputs().eq((0..4).map(output)));
    }
    let five = |count| (0..count).fold(Transaction::new(1), |five, _| five.input(input(0)));
    // A count stays within its byte.
    assert_eq!(five(300).input_count(), 255);
    assert_eq!(five(300).words()[1], 255);

    let fitting = |index| Input {
        token: TokenId {
            shard: 0,
            creator: 0,
            index,
        },
        owner: 1,
        amount: 1,
    };
    let taking = |count| {
        (0..count)
            .map(fitting)
            .fold(Transaction::new(1), Transaction::input)
    };
    let made = |amount| Output {
        shard: 0,
        owner: 1,
        amount,
    };
    assert!(
        Cluster::new()
            .register(0, &taking(4).output(made(4)))
            .is_ok()
    );
    let refused = Cluster::new().register(0, &taking(5).output(made(5)));
    assert_eq!(refused, Err(Refusal::OutOfRange));
}

#[test]
fn wide_words_stand_for_255() {
    let words = std::array::from_fn(|place| 0xFFFF_FF00 + place as u32);
    let transaction = Transaction::from_words(words);
    for (place, &word) in transaction.words().iter().enumerate() {
        let byte = BYTES.contains(&place);
        assert_eq!(word, if byte { 255 } else { words[place] }, "{place}");
    }
    assert_eq!(
        (transaction.input_count(), transaction.output_count()),
        (255, 255)
    );
    assert!(transaction.inputs().all(|input| input.token.shard == 255));
    assert!(transaction.outputs().all(|output| output.shard == 255));
    // What fits is kept: 255 itself too.
    let words = std::array::from_fn(|place| 255 - place as u32);
    assert_eq!(*Transaction::from_words(words).words(), words);
}

#[test]
fn fields_are_shown() {
    let text = format!("{:?}", built(1, 1));
    let expected = "Transaction { number: 77, input_count: 1, output_count: 1, \
        inputs: [Input { token: TokenId { shard: 3, creator: 4, index: 5 }, owner: 6, amount: 7 }], \
        outputs: [Output { shard: 23, owner: 24, amount: 25 }] }";
    assert_eq!(text, expected);
}
