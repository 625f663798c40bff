//! Random records: valid, damaged and cut.

use differential::{
    Case, Rng, SEED, check_cause, check_read, check_same, check_shard, check_write, codec_answers,
    damage, damage_byte, damage_transaction, encode, numbered, record, transaction,
};
use reference::{Record, VOTE_LENGTH};
use weeks::{Giver, Tally, refused};

const READINGS: u64 = 4_000_000;
const WRITINGS: u64 = 2_000_000;
const TRANSACTIONS: u64 = 1_000_000;
const LEAST: u64 = 1000;

/// A record with one damage, sometimes two: then the first refusal in order
/// has to win.
fn damaged(rng: &mut Rng) -> Record {
    let mut record = record(rng);
    damage(rng, &mut record);
    if rng.once_in(4) {
        damage(rng, &mut record);
    }
    record
}

/// Calls `check` with random bytes: mostly one record, at any place in memory
/// and with other bytes behind it.
fn with_bytes(rng: &mut Rng, check: impl FnOnce(&[u8])) {
    let mut memory = vec![0; rng.below(8)];
    let start = memory.len();
    let choice = rng.below(20);
    memory.extend(match choice {
        0..=6 => encode(&record(rng)),
        7..=14 => encode(&damaged(rng)),
        15 | 16 => {
            let mut bytes = encode(&record(rng));
            damage_byte(rng, &mut bytes);
            bytes
        }
        17 => encode(&record(rng)),
        18 => {
            let mut bytes = encode(&damaged(rng));
            bytes[0] = rng.byte();
            bytes
        }
        _ => {
            let mut noise = rng.bytes(VOTE_LENGTH + 10);
            noise[0] %= 6;
            noise
        }
    });
    let mut end = memory.len();
    match choice {
        // Cut, with the lost bytes still behind.
        17 => end = start + rng.below(end - start),
        _ if rng.once_in(2) => {
            memory.extend(rng.bytes(24));
            end = memory.len();
        }
        _ => {}
    }
    check(&memory[start..end]);
}

#[test]
fn random_readings() {
    let mut tally = Tally::default();
    for number in 0..READINGS {
        with_bytes(&mut Rng::new(SEED, number), |bytes| {
            tally.add(refused(check_read(&Case::new(number, bytes))));
        });
    }
    tally.report("random readings", &codec_answers(Giver::Reader), LEAST);
}

#[test]
fn random_writings() {
    let mut tally = Tally::default();
    for number in 0..WRITINGS {
        let rng = &mut Rng::new(SEED, number);
        let record = if rng.once_in(2) {
            record(rng)
        } else {
            damaged(rng)
        };
        let bytes = encode(&record);
        let room = match rng.below(4) {
            0 => rng.below(bytes.len()),
            1 => bytes.len(),
            _ => bytes.len() + rng.below(11),
        };
        let case = Case::new(number, &bytes);
        tally.add(refused(check_write(&case, &record, room, rng)));
    }
    tally.report("random writings", &codec_answers(Giver::Writer), LEAST);
}

#[test]
fn random_transactions() {
    let mut tally = Tally::default();
    for number in 0..TRANSACTIONS {
        let rng = &mut Rng::new(SEED, number);
        let before = transaction(rng);
        let mut after = before;
        for _ in 0..rng.below(3) {
            damage_transaction(rng, &mut after);
        }
        let genesis = rng.pick(&[128, 128, 32, 64, 4, 1, 0, 127, 129, 255]);
        tally.add(refused(check_cause(number, genesis, &after)));
        check_same(number, &before, &after);
        check_shard(number, rng.below(8) as u8, &after);
        check_shard(number, rng.byte(), &after);
    }
    tally.report("random transactions", &numbered(&[0, 3, 4, 5]), LEAST);
}
