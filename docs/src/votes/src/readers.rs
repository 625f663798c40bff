//! The three readers: what each makes of one record, and its loop for the clock.

use std::hint::black_box;

use plankeeper::{Reading, Record, boundary};

use crate::baseline::{self, FIELDS, Fields};

/// A reader, as it is compared and as it is timed.
pub struct Reader {
    pub name: &'static str,
    /// Reads the record at the front of the bytes.
    pub read: fn(&[u8]) -> Answer,
    /// Reads so many records by going through the bytes again and again, and
    /// gives the sum of what was told of each.
    pub run: fn(&[u8], usize) -> u64,
}

/// The baseline; the library's own functions, with the same words; and what a
/// planner calls, with records in types.
pub const READERS: [Reader; 3] = [
    Reader {
        name: "baseline",
        read: |bytes| Answer::of(|answer| answer.read_baseline(bytes)),
        run: run_baseline,
    },
    Reader {
        name: "words",
        read: |bytes| Answer::of(|answer| answer.read_words(bytes)),
        run: run_words,
    },
    Reader {
        name: "records",
        read: |bytes| answer_of(bytes, &plankeeper::read(bytes)),
        run: run_records,
    },
];

/// What is handed back of a record.
#[derive(Clone, Debug, PartialEq, Eq)]
pub struct Answer {
    /// The refusal's number, 0 for none.
    pub refusal: u32,
    /// How many bytes the record takes.
    pub taken: usize,
    /// All its fields.
    pub fields: Fields,
}

impl Answer {
    /// No record's answer, so that a field that a reader leaves out shows.
    const UNSET: Answer = Answer {
        refusal: u32::MAX,
        taken: usize::MAX,
        fields: [0xa5a5_a5a5; FIELDS],
    };

    /// What the reader fills in.
    fn of(read: impl FnOnce(&mut Answer)) -> Answer {
        let mut answer = Answer::UNSET;
        read(&mut answer);
        answer
    }

    #[inline(always)]
    fn read_baseline(&mut self, bytes: &[u8]) {
        (self.refusal, self.taken) = baseline::read(bytes, &mut self.fields);
    }

    #[inline(always)]
    fn read_words(&mut self, bytes: &[u8]) {
        self.refusal = boundary::read(bytes, &mut self.fields);
        self.taken = boundary::taken(bytes);
    }

    #[inline(always)]
    fn told(&self) -> Told {
        Told::of(self.refusal, self.fields[3], self.fields[7], self.taken)
    }
}

/// What goes into the sum, the same of every reader.
struct Told {
    sum: u64,
    taken: usize,
}

impl Told {
    #[inline(always)]
    fn of(refusal: u32, verdict: u32, number: u32, taken: usize) -> Told {
        let sum = [refusal, verdict, number].map(u64::from);
        let sum = sum.iter().sum::<u64>() + taken as u64;
        Told { sum, taken }
    }
}

// The whole answer goes through a black box, so that every field has to be
// handed back, and what is told comes out of it. No loop becomes part of its
// caller, so that each is compiled the same whoever calls it.

#[inline(never)]
fn run_baseline(bytes: &[u8], records: usize) -> u64 {
    run_filling(bytes, records, Answer::read_baseline)
}

#[inline(never)]
fn run_words(bytes: &[u8], records: usize) -> u64 {
    run_filling(bytes, records, Answer::read_words)
}

/// The loop of a reader that fills an answer.
#[inline(always)]
fn run_filling(bytes: &[u8], records: usize, read: impl Fn(&mut Answer, &[u8])) -> u64 {
    let mut answer = Answer::UNSET;
    again_and_again(bytes, records, |bytes| {
        read(&mut answer, bytes);
        black_box(&mut answer);
        answer.told()
    })
}

#[inline(never)]
fn run_records(bytes: &[u8], records: usize) -> u64 {
    again_and_again(bytes, records, |bytes| {
        let mut reading = plankeeper::read(bytes);
        black_box(&mut reading);
        told_of(&reading)
    })
}

/// Each record from the place where the one before it ended, and from the front
/// behind the last.
#[inline(always)]
fn again_and_again(bytes: &[u8], records: usize, mut read: impl FnMut(&[u8]) -> Told) -> u64 {
    let mut sum: u64 = 0;
    let mut rest = bytes;
    for _ in 0..records {
        let told = read(rest);
        sum = sum.wrapping_add(told.sum);
        rest = &rest[told.taken..];
        if rest.is_empty() {
            rest = bytes;
        }
    }
    sum
}

#[inline(always)]
fn told_of(reading: &Reading) -> Told {
    let (refusal, verdict, number) = match &reading.record {
        Ok(Record::Vote {
            verdict,
            transaction,
            ..
        }) => (0, *verdict as u32, transaction.number()),
        Ok(Record::Register { transaction, .. }) => (0, 0, transaction.number()),
        Ok(Record::Mint { .. } | Record::Turn { .. }) => (0, 0, 0),
        Err(refusal) => (refusal.number().into(), 0, 0),
    };
    Told::of(refusal, verdict, number, reading.taken)
}

/// A typed record as the words that stand for it.
fn answer_of(bytes: &[u8], reading: &Reading) -> Answer {
    // The length is told twice: where it is not the same, no other reader's is.
    let agrees = bytes.get(reading.taken..) == Some(reading.rest);
    let mut answer = Answer {
        refusal: 0,
        taken: if agrees { reading.taken } else { usize::MAX },
        fields: [0; FIELDS],
    };
    match &reading.record {
        Ok(record) => fill(&mut answer.fields, record),
        Err(refusal) => answer.refusal = refusal.number().into(),
    }
    answer
}

/// Stores a record's words among zeros.
fn fill(fields: &mut Fields, record: &Record) {
    fields[1] = record.receiver().into();
    match *record {
        Record::Register { transaction, .. } => {
            fields[0] = 1;
            fields[7..].copy_from_slice(transaction.words());
        }
        Record::Vote {
            sender,
            verdict,
            transaction,
            ..
        } => {
            fields[0] = 2;
            fields[2..4].copy_from_slice(&[sender.into(), verdict as u32]);
            fields[7..].copy_from_slice(transaction.words());
        }
        Record::Mint {
            index,
            owner,
            amount,
            ..
        } => {
            fields[0] = 3;
            fields[4..7].copy_from_slice(&[index.into(), owner, amount]);
        }
        Record::Turn { .. } => fields[0] = 4,
    }
}
