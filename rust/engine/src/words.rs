//! A transaction's fields as words, and back.

use std::array;

use reference::{Input, Output, TokenId, Transaction};

use crate::places::{
    INPUT_WORDS, INPUTS, OUTPUT_WORDS, OUTPUTS, TRANSACTION_WORDS, TransactionWords, is_byte,
};

/// The transaction's fields as words.
pub fn to_words(transaction: &Transaction) -> TransactionWords {
    let mut words = [0; TRANSACTION_WORDS];
    words[..INPUTS.start].copy_from_slice(&[
        transaction.number,
        transaction.input_count.into(),
        transaction.output_count.into(),
    ]);
    let (inputs, _) = words[INPUTS].as_chunks_mut::<INPUT_WORDS>();
    for (words, input) in inputs.iter_mut().zip(&transaction.inputs) {
        *words = [
            input.token.shard.into(),
            input.token.creator,
            input.token.index.into(),
            input.owner,
            input.amount,
        ];
    }
    let (outputs, _) = words[OUTPUTS].as_chunks_mut::<OUTPUT_WORDS>();
    for (words, output) in outputs.iter_mut().zip(&transaction.outputs) {
        *words = [output.shard.into(), output.owner, output.amount];
    }
    words
}

/// The transaction with these fields. Panics if a word is too large for its
/// field.
pub fn from_words(words: &TransactionWords) -> Transaction {
    let (inputs, _) = words[INPUTS].as_chunks::<INPUT_WORDS>();
    let (outputs, _) = words[OUTPUTS].as_chunks::<OUTPUT_WORDS>();
    Transaction {
        number: words[0],
        input_count: byte(words[1]),
        output_count: byte(words[2]),
        inputs: array::from_fn(|slot| {
            let [shard, creator, index, owner, amount] = inputs[slot];
            Input {
                token: TokenId {
                    shard: byte(shard),
                    creator,
                    index: byte(index),
                },
                owner,
                amount,
            }
        }),
        outputs: array::from_fn(|slot| {
            let [shard, owner, amount] = outputs[slot];
            Output {
                shard: byte(shard),
                owner,
                amount,
            }
        }),
    }
}

/// A cut word would pass for another value, so one too large is a fault.
pub(crate) fn byte(word: u32) -> u8 {
    u8::try_from(word).unwrap_or_else(|_| panic!("word {word} is too large for its field"))
}

/// What a word stands for where the field is a byte: one above 255 for 255.
pub(crate) fn narrow(word: u32) -> u8 {
    u8::try_from(word).unwrap_or(u8::MAX)
}

/// The words that these stand for.
pub(crate) fn narrowed(mut words: TransactionWords) -> TransactionWords {
    for (place, word) in words.iter_mut().enumerate() {
        if is_byte(place) {
            *word = narrow(*word).into();
        }
    }
    words
}
