//! Transactions: what is destroyed and what is made.

use std::fmt::{self, Debug, Formatter};

use crate::boundary::{TRANSACTION_WORDS, TransactionWords};

/// Slots for inputs, and for outputs, in every transaction.
const SLOTS: usize = 4;

const NUMBER: usize = 0;
const INPUT_COUNT: usize = 1;
const OUTPUT_COUNT: usize = 2;
const INPUTS: usize = 3;
const INPUT_WORDS: usize = 5;
const OUTPUTS: usize = INPUTS + SLOTS * INPUT_WORDS;
const OUTPUT_WORDS: usize = 3;

/// Names a token.
#[derive(Clone, Copy, Debug, Default, PartialEq, Eq, Hash)]
pub struct TokenId {
    /// The shard that holds it, 0 to 7 (document 01: pantry).
    pub shard: u8,
    /// The number of the transaction that made it, 0 for a genesis token
    /// (document 01: making swap).
    pub creator: u32,
    /// Its place among its creator's outputs, 0 to 3, or for a genesis token 0
    /// to 127 (document 01: position).
    pub index: u8,
}

/// A token that a transaction destroys.
#[derive(Clone, Copy, Debug, Default, PartialEq, Eq, Hash)]
pub struct Input {
    /// Which token.
    pub token: TokenId,
    /// Its owner, not 0 (document 01: household).
    pub owner: u32,
    /// Its amount, 1 to 1,000,000 (document 01: portions).
    pub amount: u32,
}

/// A token that a transaction makes.
#[derive(Clone, Copy, Debug, Default, PartialEq, Eq, Hash)]
pub struct Output {
    /// The shard that will hold it, 0 to 7 (document 01: pantry).
    pub shard: u8,
    /// Its owner, not 0 (document 01: household).
    pub owner: u32,
    /// Its amount, 1 to 1,000,000 (document 01: portions).
    pub amount: u32,
}

/// Destroys one to four tokens and makes one to four others, with the same
/// amount in all (document 01: swap).
///
/// It is held as the library takes it, so that calls convert nothing. Nothing
/// is checked here: any fields can be put in, and the library refuses what
/// does not fit. Two transactions are the same only if every field agrees.
///
/// ```
/// use plankeeper::{Input, Output, TokenId, Transaction};
///
/// let token = TokenId { shard: 0, creator: 0, index: 3 };
/// let transaction = Transaction::new(5)
///     .input(Input { token, owner: 10, amount: 3 })
///     .output(Output { shard: 1, owner: 10, amount: 2 })
///     .output(Output { shard: 2, owner: 20, amount: 1 });
///
/// assert_eq!(transaction.number(), 5);
/// assert!(transaction.inputs().all(|input| input.token == token));
/// let made: u32 = transaction.outputs().map(|output| output.amount).sum();
/// assert_eq!(made, 3);
/// ```
#[derive(Clone, Copy, PartialEq, Eq, Hash)]
pub struct Transaction {
    /// Those of [`TransactionWords`]; where a field is a byte, 255 at most.
    words: TransactionWords,
}

impl Transaction {
    /// A transaction with this number, which must not be 0, as yet without
    /// inputs and outputs.
    pub fn new(number: u32) -> Self {
        let mut words = [0; TRANSACTION_WORDS];
        words[NUMBER] = number;
        Transaction { words }
    }

    /// The transaction with one input more. There are four slots: a fifth
    /// input is counted but kept nowhere, so that the library refuses the
    /// transaction with 3.
    #[must_use]
    pub fn input(self, input: Input) -> Self {
        let Input {
            token,
            owner,
            amount,
        } = input;
        let (shard, index) = (token.shard.into(), token.index.into());
        let words = [shard, token.creator, index, owner, amount];
        self.with(INPUT_COUNT, INPUTS, words)
    }

    /// The transaction with one output more; of a fifth the same holds as of a
    /// fifth input.
    #[must_use]
    pub fn output(self, output: Output) -> Self {
        let Output {
            shard,
            owner,
            amount,
        } = output;
        let words = [shard.into(), owner, amount];
        self.with(OUTPUT_COUNT, OUTPUTS, words)
    }

    /// The next slot of a kind, counted at `count` and from `first` on.
    fn with<const N: usize>(mut self, count: usize, first: usize, slot: [u32; N]) -> Self {
        let used = self.words[count] as usize;
        if used < SLOTS {
            self.words[first + N * used..][..N].copy_from_slice(&slot);
        }
        self.words[count] = narrow(self.words[count] + 1);
        self
    }

    /// The transaction of these words, as [`TransactionWords`] says where they
    /// stand. A word above 255 where the field is a byte stands for 255, as the
    /// library takes it.
    pub fn from_words(mut words: TransactionWords) -> Self {
        for (place, word) in words.iter_mut().enumerate() {
            if is_byte(place) {
                *word = narrow(*word);
            }
        }
        Transaction { words }
    }

    /// The transaction of words that the library has filled. They are fields of
    /// a transaction that it has accepted, proved to be bytes where a field is
    /// one, so they are taken as they are: narrowing them word by word took
    /// longer than reading them.
    #[inline]
    pub(crate) fn from_library(words: &TransactionWords) -> Self {
        debug_assert_eq!(*words, Self::from_words(*words).words, "defect: wide words");
        Transaction { words: *words }
    }

    /// Its words.
    #[inline]
    pub fn words(&self) -> &TransactionWords {
        &self.words
    }

    /// Its number.
    pub fn number(&self) -> u32 {
        self.words[NUMBER]
    }

    /// How many inputs it counts, 255 at most.
    pub fn input_count(&self) -> u8 {
        self.words[INPUT_COUNT] as u8
    }

    /// How many outputs it counts, 255 at most.
    pub fn output_count(&self) -> u8 {
        self.words[OUTPUT_COUNT] as u8
    }

    /// The inputs in the slots that are used, in their order.
    pub fn inputs(&self) -> impl ExactSizeIterator<Item = Input> + '_ {
        let slots = self.used(INPUT_COUNT, INPUTS);
        slots.map(|&[shard, creator, index, owner, amount]| Input {
            token: TokenId {
                shard: shard as u8,
                creator,
                index: index as u8,
            },
            owner,
            amount,
        })
    }

    /// The outputs in the slots that are used, in their order.
    pub fn outputs(&self) -> impl ExactSizeIterator<Item = Output> + '_ {
        let slots = self.used(OUTPUT_COUNT, OUTPUTS);
        slots.map(|&[shard, owner, amount]| Output {
            shard: shard as u8,
            owner,
            amount,
        })
    }

    /// The slots of a kind that are used: all four if more are counted.
    fn used<const N: usize>(
        &self,
        count: usize,
        first: usize,
    ) -> impl ExactSizeIterator<Item = &[u32; N]> {
        let (slots, _) = self.words[first..first + N * SLOTS].as_chunks();
        slots.iter().take(self.words[count] as usize)
    }
}

impl Debug for Transaction {
    fn fmt(&self, f: &mut Formatter<'_>) -> fmt::Result {
        f.debug_struct("Transaction")
            .field("number", &self.number())
            .field("input_count", &self.input_count())
            .field("output_count", &self.output_count())
            .field("inputs", &self.inputs().collect::<Vec<_>>())
            .field("outputs", &self.outputs().collect::<Vec<_>>())
            .finish()
    }
}

/// Whether the field at this place is a byte: the counts, the shards and the
/// inputs' indices.
fn is_byte(place: usize) -> bool {
    match place {
        NUMBER => false,
        INPUT_COUNT | OUTPUT_COUNT => true,
        INPUTS..OUTPUTS => matches!((place - INPUTS) % INPUT_WORDS, 0 | 2),
        _ => (place - OUTPUTS).is_multiple_of(OUTPUT_WORDS),
    }
}

fn narrow(word: u32) -> u32 {
    word.min(u8::MAX.into())
}
