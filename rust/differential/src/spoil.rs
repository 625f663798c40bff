//! True calls spoiled, as bytes and as words.

use engine::Words;
use reference::{Record, VOTE_LENGTH};

use crate::Rng;
use crate::fields::{Field, encode};
use crate::generate::{damage, damage_byte};

/// What [`spoiled_bytes`] does.
pub const BYTE_DAMAGES: [&str; 9] = [
    "a field damaged",
    "bytes changed",
    "cut",
    "another kind",
    "bytes inserted",
    "bytes removed",
    "random bytes",
    "a random body",
    "bytes behind",
];

/// The record's bytes with some damage, and which.
pub fn spoiled_bytes(rng: &mut Rng, record: &Record) -> (&'static str, Vec<u8>) {
    let way = rng.pick(&BYTE_DAMAGES);
    let mut bytes = encode(record);
    match way {
        "a field damaged" => {
            let mut record = *record;
            damage(rng, &mut record);
            bytes = encode(&record);
        }
        "bytes changed" => {
            for _ in 0..=rng.below(3) {
                damage_byte(rng, &mut bytes);
            }
        }
        "cut" => bytes.truncate(rng.below(bytes.len())),
        "another kind" => bytes[0] = rng.byte(),
        "bytes inserted" => {
            let place = rng.below(bytes.len() + 1);
            let more = rng.bytes(12);
            bytes.splice(place..place, more);
        }
        "bytes removed" => rng.remove_from(&mut bytes, 12),
        "random bytes" => bytes = rng.bytes(VOTE_LENGTH + 10),
        "a random body" => rng.fill(&mut bytes[1..]),
        "bytes behind" => bytes.extend(rng.bytes(VOTE_LENGTH)),
        _ => unreachable!("each damage is above"),
    }
    (way, bytes)
}

/// What [`spoiled_words`] does.
pub const WORD_DAMAGES: [&str; 9] = [
    "a field damaged",
    "another shard",
    "a field at an edge",
    "fields at edges",
    "a random word",
    "a bit turned",
    "a wide word",
    "wide words",
    "all words random",
];

/// The call's words with some damage, and which; and whether a word is too wide
/// for its field.
pub fn spoiled_words(rng: &mut Rng, record: &Record) -> (&'static str, Words, bool) {
    let way = rng.pick(&WORD_DAMAGES);
    let mut record = *record;
    if way == "a field damaged" {
        damage(rng, &mut record);
    }
    let mut words = Words::from(&record);
    let mut all = words.each();
    match way {
        "a field damaged" => {}
        "another shard" => {
            // The receiver, or a vote's sender behind it.
            let shards = if let Record::Vote { .. } = record {
                2
            } else {
                1
            };
            *all[rng.below(shards)].0 = rng.below(8) as u32;
        }
        "a wide word" => widen_one(rng, &mut all),
        "wide words" => several(rng, |rng| widen_one(rng, &mut all)),
        "a field at an edge" => spoil_one(rng, &mut all, edge),
        "fields at edges" => several(rng, |rng| spoil_one(rng, &mut all, edge)),
        "a random word" => spoil_one(rng, &mut all, |rng, _, _| random_word(rng)),
        "a bit turned" => spoil_one(rng, &mut all, |rng, word, byte| {
            word ^ 1 << rng.below(if byte { 8 } else { 32 })
        }),
        "all words random" => {
            for (word, _) in &mut all {
                **word = random_word(rng);
            }
        }
        _ => unreachable!("each damage is above"),
    }
    let wide = all.iter().any(|(word, byte)| *byte && **word > 255);
    (way, words, wide)
}

fn several(rng: &mut Rng, mut spoil: impl FnMut(&mut Rng)) {
    for _ in 0..2 + rng.below(3) {
        spoil(rng);
    }
}

/// Changes a word, wherever it stands, to what `other` makes of it.
fn spoil_one(
    rng: &mut Rng,
    all: &mut [(&mut u32, bool)],
    other: impl Fn(&mut Rng, u32, bool) -> u32,
) {
    let (word, byte) = &mut all[rng.below(all.len())];
    **word = other(rng, **word, *byte);
}

/// An edge of the field's range, or of what a mistaken width would make of it.
fn edge(rng: &mut Rng, _: u32, byte: bool) -> u32 {
    rng.pick(Field::at(byte.into()).edges())
}

/// Any word, often a small one.
fn random_word(rng: &mut Rng) -> u32 {
    rng.bits() as u32 >> rng.below(32)
}

/// Makes a word too wide for its field: often one whose low byte is right.
fn widen_one(rng: &mut Rng, all: &mut [(&mut u32, bool)]) {
    let bytes = all.iter_mut().filter(|(_, byte)| *byte);
    let mut bytes: Vec<&mut u32> = bytes.map(|(word, _)| &mut **word).collect();
    let place = rng.below(bytes.len());
    let word = &mut *bytes[place];
    *word = match rng.below(4) {
        0 => 256,
        1 => u32::MAX,
        2 => *word | 1 << (8 + rng.below(24)),
        _ => rng.between(256, u32::MAX),
    };
}
