//! One comparison of engine and reference for each thing the boundary offers.

use std::{ptr, thread};

use engine::probes;
use plankeeper::boundary::{self, READING_WORDS, ReadingWords};
use reference::{GENESIS, REGISTER_LENGTH, Reading, Record, Refusal, Transaction, VOTE_LENGTH};
use weeks::{ACCEPTED, Giver, given_by, refused};

use crate::Rng;
use crate::SEED;
use crate::fields::encode;

/// What is being tried. Printed if the comparison panics, wherever that is, so
/// that no assertion has to carry it.
pub struct Case<'a> {
    number: u64,
    bytes: &'a [u8],
}

impl<'a> Case<'a> {
    /// The case with this number in its test, and the record's bytes.
    pub fn new(number: u64, bytes: &'a [u8]) -> Self {
        Case { number, bytes }
    }
}

impl Drop for Case<'_> {
    fn drop(&mut self) {
        if thread::panicking() {
            // Of a long stretch the first records are enough.
            let shown = &self.bytes[..self.bytes.len().min(2 * VOTE_LENGTH)];
            let hex: String = shown.iter().map(|byte| format!("{byte:02x}")).collect();
            let (number, length) = (self.number, self.bytes.len());
            eprintln!("seed {SEED:#x}, record {number}, {length} bytes: {hex}");
        }
    }
}

/// All that the reader answers, or all that the writers do, as counted.
pub fn codec_answers(giver: Giver) -> Vec<&'static str> {
    [vec![ACCEPTED], given_by(&[giver])].concat()
}

/// The refusals with these numbers, as counted; 0 stands for none.
pub fn numbered(numbers: &[u8]) -> Vec<&'static str> {
    numbers.iter().map(|&number| refused(number)).collect()
}

/// Compares all that reading gives: refusal, every word, the fields, the length
/// taken and the rest. A record read is written again. Gives the refusal's
/// number.
pub fn check_read(case: &Case) -> u8 {
    let bytes = case.bytes;
    let expected = reference::read(bytes);
    let expected_number = number(expected.outcome.err());

    // Filled beforehand, so that a word left as it was shows.
    let mut words = [!case.number as u32; READING_WORDS];
    let number = boundary::read(bytes, &mut words);
    assert_eq!(
        number,
        u32::from(expected_number),
        "refusal; expected {expected:?}"
    );
    assert_eq!(
        words,
        expected_words(&expected),
        "words; expected {expected:?}"
    );
    let reading = plankeeper::read(bytes);
    assert_eq!(engine::reading(&reading), expected, "fields");

    assert_eq!(boundary::taken(bytes), expected.taken, "length taken");
    let rest = reading.rest;
    assert_eq!(
        rest.len(),
        bytes.len() - expected.taken,
        "length of the rest"
    );
    assert!(ptr::eq(rest, reference::rest(bytes)), "place of the rest");

    if let Ok(record) = expected.outcome {
        check_written_again(&record, &bytes[..expected.taken]);
    }
    expected_number
}

/// Writes a record that was read of these bytes.
fn check_written_again(record: &Record, bytes: &[u8]) {
    let mut again = [0xEE; VOTE_LENGTH];
    let written = engine::write(record, &mut again);
    assert_eq!(written, Ok(bytes.len()), "written again");
    assert_eq!(again[..bytes.len()], *bytes, "written again");
}

/// Compares writing into a buffer of `room` bytes with random contents: the
/// answer and every byte, those around the buffer too. A record written is read
/// again. Gives the refusal's number.
pub fn check_write(case: &Case, record: &Record, room: usize, rng: &mut Rng) -> u8 {
    const AROUND: usize = 16;
    let mut before = [0; AROUND + VOTE_LENGTH + 10 + AROUND];
    rng.fill(&mut before);
    let buffer = AROUND..AROUND + room;

    let mut expected_after = before;
    let expected = reference::write(record, &mut expected_after[buffer.clone()]);
    let (old, new) = (&before[AROUND..], &expected_after[AROUND..]);
    check_reference(expected, old, new, case.bytes);

    let mut after = before;
    let answer = engine::write(record, &mut after[buffer.clone()]);
    assert_eq!(answer, expected, "answer for {room} bytes of room");
    assert_eq!(
        after, expected_after,
        "buffer of {room} bytes, with those around it"
    );

    if let Ok(length) = answer {
        let again = engine::reading(&plankeeper::read(&after[buffer.clone()]));
        assert_eq!(again.outcome, Ok(*record), "read again");
        assert_eq!(again.taken, length, "read again");
        assert_eq!(reference::read(&after[buffer]), again, "read again");
    }
    number(answer.err())
}

/// The reference is held to document 01 as well: it writes these bytes, and
/// those behind them keep their values; after a refusal all do.
fn check_reference(written: Result<usize, Refusal>, old: &[u8], new: &[u8], bytes: &[u8]) {
    let length = written.unwrap_or(0);
    let (front, behind) = new.split_at(length);
    assert_eq!(behind, &old[length..], "reference: bytes behind");
    if written.is_ok() {
        assert_eq!(front, bytes, "reference: bytes");
    }
}

/// Compares the cause for which the transaction is refused. Gives its number.
pub fn check_cause(case: u64, genesis: u8, transaction: &Transaction) -> u8 {
    let bytes = encode(&register(transaction));
    let _case = Case::new(case, &bytes);
    let answer = probes::cause(genesis, transaction);
    let expected = reference::cause(genesis, transaction);
    assert_eq!(answer, expected, "cause with {genesis} genesis indices");
    number(answer)
}

/// Compares whether the shard takes part. Gives the answer.
pub fn check_shard(case: u64, shard: u8, transaction: &Transaction) -> bool {
    let bytes = encode(&register(transaction));
    let _case = Case::new(case, &bytes);
    let answer = probes::takes_part(shard, transaction);
    let expected = reference::takes_part(shard, transaction);
    assert_eq!(answer, expected, "shard {shard} takes part");
    answer
}

/// Compares whether the transactions are the same, in both orders. Gives the
/// answer.
pub fn check_same(case: u64, one: &Transaction, other: &Transaction) -> bool {
    let bytes = [encode(&register(one)), encode(&register(other))].concat();
    let _case = Case::new(case, &bytes);
    let expected = one == other;
    assert_eq!(probes::same(one, other), expected, "same");
    assert_eq!(
        probes::same(other, one),
        expected,
        "same in the other order"
    );
    expected
}

/// Compares everything about one transaction: the cause with several numbers of
/// genesis indices, and both kinds of records with it, read and written. Gives
/// the refusal's number, which all of them have to share.
pub fn check_transaction(case: u64, transaction: &Transaction) -> u8 {
    let rng = &mut Rng::new(SEED, case);
    let register = Record::Register {
        receiver: rng.below(8) as u8,
        transaction: *transaction,
    };
    let vote = Record::Vote {
        receiver: rng.below(8) as u8,
        sender: rng.below(8) as u8,
        verdict: rng.below(2) as u8,
        transaction: *transaction,
    };
    let (register_bytes, vote_bytes) = (encode(&register), encode(&vote));
    let register_case = Case::new(case, &register_bytes);
    let vote_case = Case::new(case, &vote_bytes);
    for genesis in [0, 1, 32, 127, 129, 255] {
        check_cause(case, genesis, transaction);
    }
    let cause = check_cause(case, GENESIS, transaction);
    let answers = [
        check_read(&register_case),
        check_read(&vote_case),
        check_write(&register_case, &register, REGISTER_LENGTH, rng),
        check_write(&vote_case, &vote, VOTE_LENGTH, rng),
    ];
    assert_eq!(
        answers, [cause; 4],
        "read and written, for a cause of {cause}"
    );
    cause
}

/// Any record with the transaction, to show its bytes.
fn register(transaction: &Transaction) -> Record {
    Record::Register {
        receiver: 0,
        transaction: *transaction,
    }
}

fn number(refusal: Option<Refusal>) -> u8 {
    refusal.map_or(0, Refusal::number)
}

/// The words that the boundary's description asks for: fields that a kind does
/// not have are 0, and so are all beside a refusal.
fn expected_words(reading: &Reading) -> ReadingWords {
    let blank = Transaction::default();
    let (head, transaction): ([u32; 7], Transaction) = match reading.outcome {
        Err(_) => ([0; 7], blank),
        Ok(Record::Register {
            receiver,
            transaction,
        }) => ([1, receiver.into(), 0, 0, 0, 0, 0], transaction),
        Ok(Record::Vote {
            receiver,
            sender,
            verdict,
            transaction,
        }) => {
            let (receiver, sender) = (receiver.into(), sender.into());
            ([2, receiver, sender, verdict.into(), 0, 0, 0], transaction)
        }
        Ok(Record::Mint {
            receiver,
            index,
            owner,
            amount,
        }) => (
            [3, receiver.into(), 0, 0, index.into(), owner, amount],
            blank,
        ),
        Ok(Record::Turn { receiver }) => ([4, receiver.into(), 0, 0, 0, 0, 0], blank),
    };
    let mut words = [0; READING_WORDS];
    words[..7].copy_from_slice(&head);
    words[7..].copy_from_slice(&engine::to_words(&transaction));
    words
}
