//! Reading, compared on systematic records and on long stretches of them.

use differential::{
    Case, Rng, SEED, check_read, codec_answers, damage, encode, mints_at_their_edges, numbered,
    record, records_with_every_front, sample_records,
};
use reference::Record;
use weeks::{Giver, Tally, refused};

/// Reads each record, and compares its refusal.
fn check_each(records: Vec<(u8, Record)>) {
    for (number, (refusal, record)) in (0..).zip(records) {
        let answer = check_read(&Case::new(number, &encode(&record)));
        assert_eq!(answer, refusal, "{record:?}");
    }
}

#[test]
fn samples_have_the_expected_refusals() {
    check_each(sample_records());
}

#[test]
fn every_kind_with_several_bodies() {
    let mut tally = Tally::default();
    let mut number = 0;
    for kind in 0..=255 {
        let mut bodies: Vec<Vec<u8>> = [1, 2, 10, 11, 12, 99, 100, 101, 102, 103, 120]
            .into_iter()
            .flat_map(|length| [vec![0; length], vec![1; length], vec![255; length]])
            .collect();
        for (_, record) in sample_records() {
            let mut bytes = encode(&record);
            bodies.push(bytes.clone());
            bytes.extend([1, 2, 3]);
            bodies.push(bytes);
        }
        for mut bytes in bodies {
            bytes[0] = kind;
            let answer = check_read(&Case::new(number, &bytes));
            assert_eq!(answer == 1, !(1..=4).contains(&kind), "kind {kind}");
            tally.add(refused(answer));
            number += 1;
        }
    }
    tally.report("every kind", &codec_answers(Giver::Reader), 1);
}

#[test]
fn every_cut_of_every_kind() {
    let mut number = 0;
    for (refusal, record) in sample_records() {
        // The record's other bytes lie behind a cut, where a reader that
        // forgets the length would find them.
        let mut bytes = encode(&record);
        let whole = bytes.len();
        while bytes.len() < whole + 10 {
            bytes.extend(encode(&record));
        }
        for length in 0..=whole + 10 {
            let answer = check_read(&Case::new(number, &bytes[..length]));
            let expected = if length < whole { 2 } else { refusal };
            assert_eq!(answer, expected, "{length} bytes of {record:?}");
            number += 1;
        }
    }
}

#[test]
fn every_value_of_every_byte() {
    let mut number = 0;
    for (_, record) in sample_records() {
        let mut bytes = encode(&record);
        for place in 0..bytes.len() {
            let before = bytes[place];
            for value in 0..=255 {
                bytes[place] = value;
                check_read(&Case::new(number, &bytes));
                number += 1;
            }
            bytes[place] = before;
        }
    }
}

#[test]
fn fields_in_front_of_the_transaction() {
    check_each(records_with_every_front());
}

#[test]
fn mint_fields_at_their_edges() {
    check_each(mints_at_their_edges());
}

/// Reads on from record to record until nothing more can be read, and gives
/// the number of records and the last refusal.
fn read_on(mut bytes: &[u8], tally: &mut Tally) -> (usize, u8) {
    for records in 0.. {
        let answer = check_read(&Case::new(records as u64, bytes));
        tally.add(refused(answer));
        if matches!(answer, 1 | 2) {
            return (records, answer);
        }
        bytes = plankeeper::read(bytes).rest;
    }
    unreachable!("a stretch ends")
}

#[test]
fn long_stretches_of_mixed_records() {
    let mut tally = Tally::default();
    let lengths = (0..1000).map(|stretch| stretch % 100).chain([20_000]);
    for (stretch, length) in (0..).zip(lengths) {
        let rng = &mut Rng::new(SEED, stretch);
        let mut bytes = Vec::new();
        for _ in 0..length {
            let mut record = record(rng);
            if rng.once_in(2) {
                damage(rng, &mut record);
            }
            bytes.extend(encode(&record));
        }
        let last = encode(&record(rng));
        // A cut record, an unknown kind with a record behind it, or the end.
        let expected = match stretch % 3 {
            0 => {
                bytes.extend(&last[..1 + rng.below(last.len() - 1)]);
                2
            }
            1 => {
                bytes.push(rng.pick(&[0, 5, 6, 127, 255]));
                bytes.extend(last);
                1
            }
            _ => 2,
        };
        let (records, refusal) = read_on(&bytes, &mut tally);
        assert_eq!((records, refusal), (length, expected), "stretch {stretch}");
    }
    tally.report("long stretches", &numbered(&[0, 3, 4, 5]), 1000);
}
