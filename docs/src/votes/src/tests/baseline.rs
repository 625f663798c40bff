//! The baseline's answers are the proved reader's: the refusal, all 42 words,
//! the bytes taken. Each test counts what it has met.

use crate::buffer::{Buffer, Draw, VOTE};
use crate::readers::READERS;

/// How often each answer that a test is for has to be met.
const LEAST: usize = 100;

/// Where a vote counts its inputs, and where the slots of both kinds start, with
/// their bytes and the place of the amount among them.
const INPUT_COUNT: usize = 8;
const SLOTS: [(usize, usize, usize); 2] = [(10, 14, 10), (66, 9, 5)];

/// Answers met: by the refusal's number, and of accepted records by the kind.
#[derive(Debug, Default)]
struct Tally {
    refused: [usize; 6],
    accepted: [usize; 5],
}

impl Tally {
    /// Reads with every reader: each has to answer as the library's functions do.
    #[track_caller]
    fn read(&mut self, bytes: &[u8]) {
        let [baseline, words, records] = READERS.map(|reader| (reader.read)(bytes));
        assert_eq!(baseline, words, "the baseline, of {bytes:?}");
        assert_eq!(records, words, "records, of {bytes:?}");
        match words.refusal {
            0 => self.accepted[words.fields[0] as usize] += 1,
            refusal => self.refused[refusal as usize] += 1,
        }
    }

    /// Sees that these refusals and these kinds were met often enough.
    fn check(&self, refusals: &[usize], kinds: &[usize]) {
        println!("{self:?}");
        for &refusal in refusals {
            assert!(self.refused[refusal] >= LEAST, "refusal {refusal}");
        }
        for &kind in kinds {
            assert!(self.accepted[kind] >= LEAST, "kind {kind}");
        }
    }
}

/// Every so many votes of the buffer, beginning with the first.
fn votes(step: usize) -> Vec<[u8; VOTE]> {
    let buffer = Buffer::new();
    let (votes, _) = buffer.votes().as_chunks();
    votes.iter().copied().step_by(step).collect()
}

/// The vote, and a record of each other kind with fields of it.
fn kinds(vote: &[u8]) -> [Vec<u8>; 4] {
    let receiver = vote[1];
    let register = [&[1, receiver], &vote[4..]].concat();
    let mint = [&[3, receiver, vote[15]], &vote[16..24]].concat();
    [register, vote.to_vec(), mint, vec![4, receiver]]
}

/// The bytes with others at a place.
fn with(bytes: &[u8], at: usize, others: &[u8]) -> Vec<u8> {
    let mut changed = bytes.to_vec();
    changed[at..at + others.len()].copy_from_slice(others);
    changed
}

/// The bytes with each of them changed in several ways.
fn changed_bytes(bytes: &[u8]) -> impl Iterator<Item = Vec<u8>> {
    (0..bytes.len()).flat_map(move |at| {
        let (up, down) = (bytes[at].wrapping_add(1), bytes[at].wrapping_sub(1));
        let others = [0, 1, 7, 8, 127, 128, 255, up, down];
        others.map(|other| with(bytes, at, &[other]))
    })
}

/// The bytes with any four of them changed to numbers at the limits.
fn changed_words(bytes: &[u8]) -> impl Iterator<Item = Vec<u8>> {
    (0..bytes.len().saturating_sub(3)).flat_map(move |at| {
        let others = [0, 1, 1_000_000, 1_000_001, u32::MAX];
        others.map(|other| with(bytes, at, &other.to_be_bytes()))
    })
}

#[test]
fn every_length() {
    let mut tally = Tally::default();
    for vote in votes(5) {
        for record in kinds(&vote) {
            let longer = [&record[..], &[2, 0, 1]].concat();
            for length in 0..=longer.len() {
                tally.read(&longer[..length]);
            }
            for unknown in [0, 5, 255] {
                let unknown = with(&longer, 0, &[unknown]);
                for length in 1..=unknown.len() {
                    tally.read(&unknown[..length]);
                }
            }
        }
    }
    tally.check(&[1, 2], &[1, 2, 3, 4]);
}

#[test]
fn every_byte_changed() {
    let mut tally = Tally::default();
    for vote in votes(5) {
        for record in kinds(&vote) {
            changed_bytes(&record).for_each(|bytes| tally.read(&bytes));
        }
    }
    tally.check(&[1, 2, 3, 5], &[1, 2, 3, 4]);
}

#[test]
fn every_four_bytes_changed() {
    let mut tally = Tally::default();
    for vote in votes(5) {
        for record in kinds(&vote) {
            changed_words(&record).for_each(|bytes| tally.read(&bytes));
        }
    }
    tally.check(&[3, 5], &[1, 2, 3]);
}

/// The vote with these counts, and the slots beyond them emptied.
fn counted(vote: &[u8], counts: [u8; 2]) -> Vec<u8> {
    let mut counted = with(vote, INPUT_COUNT, &counts);
    for ((first, size, _), count) in SLOTS.into_iter().zip(counts) {
        let used = size * usize::from(count).min(4);
        counted[first..first + 4 * size][used..].fill(0);
    }
    counted
}

#[test]
fn every_count() {
    let mut tally = Tally::default();
    for vote in votes(1) {
        for inputs in 0..=5 {
            for outputs in 0..=5 {
                let [register, vote, ..] = kinds(&counted(&vote, [inputs, outputs]));
                tally.read(&register);
                tally.read(&vote);
            }
        }
    }
    tally.check(&[3, 5], &[1, 2]);
}

/// Two inputs with one name, and with every byte changed: then the names differ
/// in one byte, or another refusal goes before this one or behind it.
#[test]
fn tokens_named_twice() {
    let mut tally = Tally::default();
    for vote in votes(5) {
        let [(first, size, _), _] = SLOTS;
        let slot = |number: usize| first + size * number;
        for later in 1..vote[INPUT_COUNT].into() {
            for earlier in 0..later {
                let name = &vote[slot(earlier)..][..6];
                let [register, vote, ..] = kinds(&with(&vote, slot(later), name));
                for record in [register, vote] {
                    tally.read(&record);
                    changed_bytes(&record).for_each(|bytes| tally.read(&bytes));
                }
            }
        }
    }
    tally.check(&[3, 4], &[1, 2]);
}

/// The places of the amounts in the slots that are used.
fn amounts(vote: &[u8]) -> Vec<usize> {
    let counts = vote[INPUT_COUNT..].iter();
    let places = SLOTS.iter().zip(counts).flat_map(|(slots, &count)| {
        let (first, size, amount) = slots;
        (0..count.into()).map(move |slot: usize| first + size * slot + amount)
    });
    places.collect()
}

/// One more or one less at a place.
fn moved(vote: &[u8], at: usize) -> [Vec<u8>; 2] {
    let four = vote[at..].first_chunk().expect("an amount's bytes");
    let amount = u32::from_be_bytes(*four);
    [amount + 1, amount - 1].map(|amount| with(vote, at, &amount.to_be_bytes()))
}

/// One amount off by one, and two of them, which may make up for each other.
#[test]
fn balances_off_by_one() {
    let mut tally = Tally::default();
    for vote in votes(1) {
        let places = amounts(&vote);
        for (number, &one) in places.iter().enumerate() {
            for once in moved(&vote, one) {
                let twice = places[..number].iter().flat_map(|&at| moved(&once, at));
                for changed in twice.chain([once.clone()]) {
                    let [register, vote, ..] = kinds(&changed);
                    tally.read(&register);
                    tally.read(&vote);
                }
            }
        }
    }
    tally.check(&[5], &[1, 2]);
}

#[test]
fn random_bytes() {
    let mut tally = Tally::default();
    let mut draw = Draw::new(1);
    for _ in 0..300_000 {
        let length = draw.number(0, 110);
        // Small ones and zeros get further than any bytes.
        let largest = [0, 1, 7, 255][draw.number(0, 3) as usize];
        let drawn = (0..length).map(|_| draw.number(0, largest) as u8);
        let mut bytes: Vec<u8> = drawn.collect();
        if let Some(kind) = bytes.first_mut() {
            *kind = draw.number(0, 5) as u8;
        }
        tally.read(&bytes);
    }
    tally.check(&[1, 2, 3], &[3, 4]);
}

#[test]
fn random_changes() {
    let mut tally = Tally::default();
    let mut draw = Draw::new(2);
    for vote in votes(1) {
        for record in kinds(&vote) {
            for _ in 0..30 {
                let mut changed = record.clone();
                for _ in 0..draw.number(1, 3) {
                    let at = draw.number(0, record.len() as u32 - 1) as usize;
                    changed[at] = draw.number(0, 255) as u8;
                }
                tally.read(&changed);
            }
        }
    }
    tally.check(&[1, 2, 3, 5], &[1, 2, 3, 4]);
}
