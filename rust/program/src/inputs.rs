//! Random and damaged inputs.

use reference::{Record, encode};
use weeks::{ClusterStyle, Rng, SEED, Turns, cluster_week_of};

/// Ways to spoil a week's bytes; the case's number chooses one.
pub const DAMAGES: [&str; 10] = [
    "as it is",
    "bytes changed",
    "cut",
    "another kind",
    "bytes inserted",
    "bytes removed",
    "random bytes",
    "records again",
    "bits turned",
    "a part alone",
];

/// Bytes to list, and how they were made.
pub struct Input {
    /// What the program reads.
    pub bytes: Vec<u8>,
    /// One of [`DAMAGES`].
    pub damage: &'static str,
    /// The byte that a record's kind was changed to.
    pub kind: Option<u8>,
}

/// The records' bytes, and where each record begins.
pub fn encode_all(records: &[Record]) -> (Vec<u8>, Vec<usize>) {
    let mut bytes = Vec::new();
    let mut starts = Vec::with_capacity(records.len());
    for record in records {
        starts.push(bytes.len());
        encode(record, &mut bytes);
    }
    (bytes, starts)
}

/// The input of this number; a short one has few records.
pub fn input(case: u64, short: bool) -> Input {
    let mut rng = Rng::new(SEED, case);
    let style = style(&mut rng, short);
    let records = cluster_week_of(&mut rng, style);
    let (mut bytes, starts) = encode_all(&records);
    let damage = DAMAGES[case as usize / 5 % DAMAGES.len()];
    let mut kind = None;
    match damage {
        "as it is" => {}
        "bytes changed" => change_bytes(&mut rng, &mut bytes),
        "cut" => bytes.truncate(rng.below(bytes.len() + 1)),
        "another kind" => {
            // Every value in turn.
            let value = (case / 50) as u8;
            bytes[rng.pick(&starts)] = value;
            kind = Some(value);
        }
        "bytes inserted" => {
            let more = rng.bytes(12);
            let place = rng.below(bytes.len() + 1);
            bytes.splice(place..place, more);
        }
        "bytes removed" => rng.remove_from(&mut bytes, 110),
        "random bytes" => bytes = random_bytes(&mut rng),
        "records again" => {
            let (from, to) = (rng.pick(&starts), rng.pick(&starts));
            bytes.extend_from_within(from.min(to)..from.max(to));
        }
        "bits turned" => turn_bits(&mut rng, &mut bytes),
        "a part alone" => leave_part(&mut rng, &mut bytes, &starts),
        _ => unreachable!("each damage is above"),
    }
    Input {
        bytes,
        damage,
        kind,
    }
}

fn change_bytes(rng: &mut Rng, bytes: &mut [u8]) {
    for _ in 0..=rng.below(4) {
        let place = rng.below(bytes.len());
        bytes[place] = rng.byte();
    }
}

fn turn_bits(rng: &mut Rng, bytes: &mut [u8]) {
    for _ in 0..=rng.below(3) {
        let place = rng.below(bytes.len());
        bytes[place] ^= 1 << rng.below(8);
    }
}

/// Without the beginning, and perhaps from within a record.
fn leave_part(rng: &mut Rng, bytes: &mut Vec<u8>, starts: &[usize]) {
    let from = if rng.once_in(2) {
        rng.pick(starts)
    } else {
        rng.below(bytes.len())
    };
    bytes.drain(..from);
}

/// Any style, with turns or without.
fn style(rng: &mut Rng, short: bool) -> ClusterStyle {
    let style = unturned_style(rng, short);
    let turns = Turns::random(rng, style.calls);
    ClusterStyle { turns, ..style }
}

/// Some forty records on average, without the short ones; now and then a week
/// that fills a shard.
fn unturned_style(rng: &mut Rng, short: bool) -> ClusterStyle {
    let turns = Turns::NEVER;
    let damage = rng.pick(&[None, None, Some(40), Some(8)]);
    if short {
        return ClusterStyle {
            calls: 1 + rng.below(12),
            shards: rng.pick(&[1, 2, 8]),
            mints: 1 + rng.below(2),
            amounts: rng.pick(&[3, 40, 1_000_000]),
            new: 20,
            due: 50,
            left_out: rng.pick(&[0, 8]),
            damage,
            turns,
        };
    }
    if rng.once_in(100) {
        return filling_style(rng, damage);
    }
    ClusterStyle {
        calls: 15 + rng.below(50),
        shards: rng.pick(&[1, 2, 2, 3, 3, 4, 8]),
        mints: 1 + rng.below(4),
        amounts: rng.pick(&[3, 40, 40, 9_000, 1_000_000]),
        new: rng.pick(&[10, 14, 20]),
        due: rng.pick(&[40, 55]),
        left_out: rng.pick(&[0, 0, 3, 8]),
        damage,
        turns,
    }
}

/// A week that fills a shard.
fn filling_style(rng: &mut Rng, damage: Option<usize>) -> ClusterStyle {
    let mints = rng.pick(&[0, 8, 126, 127, 128]);
    ClusterStyle {
        calls: mints + 150,
        shards: 1,
        mints,
        amounts: 60,
        new: 40,
        due: 30,
        left_out: rng.pick(&[0, 3, 8]),
        damage,
        turns: Turns::NEVER,
    }
}

/// Any bytes, or any bytes in records of known kinds.
fn random_bytes(rng: &mut Rng) -> Vec<u8> {
    let mut bytes = vec![0; rng.below(700)];
    rng.fill(&mut bytes);
    if rng.once_in(2) {
        let mut place = 0;
        while place < bytes.len() {
            let (kind, length) = rng.pick(&[(1, 100), (2, 102), (3, 11), (4, 2)]);
            bytes[place] = kind;
            place += length;
        }
    }
    bytes
}
