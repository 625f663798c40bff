//! Words wider than their fields.

use reference::{Input, Output, SLOTS, TokenId, Transaction};

use crate::places::{TRANSACTION_WORDS, TransactionWords, is_byte};
use crate::probes::{probe_cause, probe_same, probe_takes_part};
use crate::to_words;

/// What goes beyond a byte, wherever it stands.
const EXCESSES: [u32; 4] = [1 << 8, 1 << 16, 1 << 31, u32::MAX << 8];

/// The words with one of them too wide for its field, in every way.
pub fn wide_transactions(words: TransactionWords) -> impl Iterator<Item = TransactionWords> {
    let places = (0..TRANSACTION_WORDS).filter(|&place| is_byte(place));
    places.flat_map(move |place| {
        EXCESSES.map(|excess| {
            let mut wide = words;
            wide[place] |= excess;
            wide
        })
    })
}

/// All slots used, every field different from its neighbours.
pub fn transaction() -> Transaction {
    Transaction {
        number: 5,
        input_count: 4,
        output_count: 4,
        inputs: std::array::from_fn(|slot| Input {
            token: TokenId {
                shard: slot as u8,
                creator: 9 + slot as u32,
                index: 3 - slot as u8,
            },
            owner: 100 + slot as u32,
            amount: 10 + slot as u32,
        }),
        outputs: std::array::from_fn(|slot| Output {
            shard: 4 + slot as u8,
            owner: 200 + slot as u32,
            amount: 13 - slot as u32,
        }),
    }
}

/// A wide word is not taken for its low byte.
#[test]
fn wide_words_in_the_probes() {
    let narrow = to_words(&transaction());
    assert_eq!(probe_cause(128, &narrow), 0);
    assert_eq!(probe_same(&narrow, &narrow), 1);
    for wide in wide_transactions(narrow) {
        assert_eq!(probe_cause(128, &wide), 3);
        assert_eq!(probe_same(&wide, &narrow), 0);
        assert_eq!(probe_same(&narrow, &wide), 0);
    }
    for shard in 0..8 {
        assert_eq!(probe_takes_part(shard, &narrow), 1);
        let place = match shard as usize {
            slot @ 0..SLOTS => 3 + 5 * slot,
            slot => 23 + 3 * (slot - SLOTS),
        };
        for excess in EXCESSES {
            let mut wide = narrow;
            wide[place] |= excess;
            assert_eq!(probe_takes_part(shard, &wide), 0, "shard {shard}");
        }
    }
}
