//! Where everything stands in the engine's memory and in a transaction's
//! words: the one table that the tests have of it, in numbers of its own. A
//! cluster's memory is eight shards', one behind the other.

use std::ops::Range;

/// Words of a shard's memory.
pub const SHARD_WORDS: usize = 2404;
/// Words of a transaction.
pub const TRANSACTION_WORDS: usize = 35;

/// A shard's memory.
pub type ShardWords = [u32; SHARD_WORDS];
/// Number and counts, then the inputs (shard, creator, index, owner, amount),
/// then the outputs (shard, owner, amount).
pub type TransactionWords = [u32; TRANSACTION_WORDS];

/// A shard's number.
pub(crate) const NUMBER: usize = 0;
/// How many tokens a shard holds.
pub(crate) const HELD: usize = 1;
/// How many transactions a shard knows.
pub(crate) const KNOWN: usize = 2;
/// Whether a shard is turned: 1, or 0 where it is not.
pub(crate) const TURNED: usize = 3;
/// A flag for each genesis index, not 0 where it was given.
pub(crate) const FLAGS: Range<usize> = 4..132;
/// The places for tokens.
pub(crate) const TOKENS: Range<usize> = 132..772;
/// Words of a token: creator, index, owner, amount and pledge.
pub(crate) const TOKEN_WORDS: usize = 5;
/// The places for known transactions.
pub(crate) const TRANSACTIONS: Range<usize> = 772..2404;
/// Words of a known transaction: those of the transaction, then the verdict
/// heard from each sender, then the findings.
pub(crate) const KNOWN_WORDS: usize = 51;
/// The verdicts heard on a known transaction.
pub(crate) const HEARD: Range<usize> = 35..43;
/// What was found of a known transaction's inputs here.
pub(crate) const FINDINGS: Range<usize> = 43..51;
/// Words of a finding: what was found, and the number of the transaction that
/// the token was pledged to, if that is it.
pub(crate) const FINDING_WORDS: usize = 2;

/// A transaction's inputs.
pub(crate) const INPUTS: Range<usize> = 3..23;
/// Words of an input.
pub(crate) const INPUT_WORDS: usize = 5;
/// A transaction's outputs.
pub(crate) const OUTPUTS: Range<usize> = 23..35;
/// Words of an output.
pub(crate) const OUTPUT_WORDS: usize = 3;

/// Whether the field at this place of a transaction is a byte: the counts, the
/// shards and the inputs' indices.
pub fn is_byte(place: usize) -> bool {
    match place {
        1 | 2 => true,
        3..23 => matches!((place - INPUTS.start) % INPUT_WORDS, 0 | 2),
        23..35 => (place - OUTPUTS.start).is_multiple_of(OUTPUT_WORDS),
        _ => false,
    }
}

/// What the word at this place of a shard's memory is.
pub fn name(place: usize) -> String {
    const TOKEN: [&str; TOKEN_WORDS] = ["creator", "index", "owner", "amount", "pledge"];
    const FINDING: [&str; FINDING_WORDS] = ["what was found", "pledging transaction"];
    match place {
        NUMBER => "number".into(),
        HELD => "tokens held".into(),
        KNOWN => "transactions known".into(),
        TURNED => "turned".into(),
        4..132 => format!("flag {}", place - FLAGS.start),
        132..772 => {
            let word = place - TOKENS.start;
            format!(
                "token {}, {}",
                word / TOKEN_WORDS,
                TOKEN[word % TOKEN_WORDS]
            )
        }
        _ => {
            let word = place - TRANSACTIONS.start;
            let (known, part) = (word / KNOWN_WORDS, word % KNOWN_WORDS);
            match part {
                0..35 => format!("transaction {known}, word {part}"),
                35..43 => {
                    let sender = part - HEARD.start;
                    format!("transaction {known}, verdict of shard {sender}")
                }
                _ => {
                    let word = part - FINDINGS.start;
                    let (finding, word) = (word / FINDING_WORDS, word % FINDING_WORDS);
                    format!("transaction {known}, finding {finding}, {}", FINDING[word])
                }
            }
        }
    }
}
