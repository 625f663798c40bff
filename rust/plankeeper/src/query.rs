//! What a shard holds and knows, asked of one in a cluster or of a lone one.

use std::array;
use std::fmt::{self, Debug, Formatter};

use crate::boundary::{
    ClusterMemory, KNOWN_WORDS, KnownWords, ShardMemory, TOKEN_WORDS, TokenWords,
};
use crate::defect::{byte, nameless};
use crate::{Input, Outcome, TokenId, Transaction, Verdict};

/// A token that a shard holds.
#[derive(Clone, Copy, Debug, PartialEq, Eq, Hash)]
pub struct Token {
    /// Its name.
    pub id: TokenId,
    /// Its owner (document 01: household).
    pub owner: u32,
    /// Its amount (document 01: portions).
    pub amount: u32,
    /// The number of the transaction that it is pledged to, if there is one. It
    /// is available to no other; after an abort that stays so, unless the shard
    /// is turned.
    pub pledge: Option<u32>,
}

impl Token {
    /// The input that destroys it.
    pub fn input(&self) -> Input {
        Input {
            token: self.id,
            owner: self.owner,
            amount: self.amount,
        }
    }
}

/// A transaction that a shard knows.
#[derive(Clone, Copy, Debug, PartialEq, Eq, Hash)]
pub struct Known {
    /// The transaction.
    pub transaction: Transaction,
    /// The votes heard, by the number of the shard that gave them; the shard's
    /// own is among them.
    pub heard: [Option<Verdict>; 8],
    /// What the shard has decided.
    pub outcome: Outcome,
}

/// A shard that can be asked.
pub(crate) trait Asked: Copy {
    fn number(self) -> u8;
    fn held_count(self) -> usize;
    fn token_at(self, k: usize, token: &mut TokenWords) -> u32;
    fn known_count(self) -> usize;
    fn known_at(self, k: usize, known: &mut KnownWords) -> u32;
    fn outcome_of(self, number: u32) -> u32;
    fn is_turned(self) -> u32;
}

/// The shard of this number in a cluster.
#[derive(Clone, Copy)]
pub(crate) struct Member<'a>(pub &'a ClusterMemory, pub u8);

impl Asked for Member<'_> {
    fn number(self) -> u8 {
        self.1
    }

    fn held_count(self) -> usize {
        self.0.held_count(self.1.into())
    }

    fn token_at(self, k: usize, token: &mut TokenWords) -> u32 {
        self.0.token_at(self.1.into(), k, token)
    }

    fn known_count(self) -> usize {
        self.0.known_count(self.1.into())
    }

    fn known_at(self, k: usize, known: &mut KnownWords) -> u32 {
        self.0.known_at(self.1.into(), k, known)
    }

    fn outcome_of(self, number: u32) -> u32 {
        self.0.outcome_of(self.1.into(), number)
    }

    fn is_turned(self) -> u32 {
        self.0.is_turned(self.1.into())
    }
}

impl Asked for &ShardMemory {
    fn number(self) -> u8 {
        ShardMemory::number(self) as u8
    }

    fn held_count(self) -> usize {
        ShardMemory::held_count(self)
    }

    fn token_at(self, k: usize, token: &mut TokenWords) -> u32 {
        ShardMemory::token_at(self, k, token)
    }

    fn known_count(self) -> usize {
        ShardMemory::known_count(self)
    }

    fn known_at(self, k: usize, known: &mut KnownWords) -> u32 {
        ShardMemory::known_at(self, k, known)
    }

    fn outcome_of(self, number: u32) -> u32 {
        ShardMemory::outcome_of(self, number)
    }

    fn is_turned(self) -> u32 {
        ShardMemory::is_turned(self)
    }
}

/// The tokens held, in the order in which they stand in the memory.
pub(crate) fn tokens<A: Asked>(shard: A) -> impl ExactSizeIterator<Item = Token> {
    (0..shard.held_count()).map(move |k| {
        let mut words = [0; TOKEN_WORDS];
        match shard.token_at(k, &mut words) {
            1 => token(shard.number(), &words),
            answer => nameless("a question for a token", answer),
        }
    })
}

/// The transactions known, in the order of their registration.
pub(crate) fn transactions<A: Asked>(shard: A) -> impl ExactSizeIterator<Item = Known> {
    (0..shard.known_count()).map(move |k| {
        let mut words = [0; KNOWN_WORDS];
        let answer = shard.known_at(k, &mut words);
        match Outcome::from_number(answer) {
            Some(outcome) => known(outcome, &words),
            None => nameless("a question for a transaction", answer),
        }
    })
}

/// The outcome of the transaction known by that number.
pub(crate) fn outcome<A: Asked>(shard: A, number: u32) -> Option<Outcome> {
    match shard.outcome_of(number) {
        3 => None,
        answer => {
            let outcome = Outcome::from_number(answer);
            Some(outcome.unwrap_or_else(|| nameless("a question for an outcome", answer)))
        }
    }
}

/// Whether the shard is turned.
pub(crate) fn is_turned<A: Asked>(shard: A) -> bool {
    match shard.is_turned() {
        0 => false,
        1 => true,
        answer => nameless("a question whether a shard is turned", answer),
    }
}

fn token(shard: u8, &[creator, index, owner, amount, pledge]: &TokenWords) -> Token {
    let index = byte(index);
    Token {
        id: TokenId {
            shard,
            creator,
            index,
        },
        owner,
        amount,
        pledge: Some(pledge).filter(|&number| number != 0),
    }
}

fn known(outcome: Outcome, words: &KnownWords) -> Known {
    let (transaction, heard) = words.split_first_chunk().expect("a transaction's words");
    Known {
        transaction: Transaction::from_library(transaction),
        heard: array::from_fn(|sender| match heard[sender] {
            0 => None,
            1 => Some(Verdict::No),
            2 => Some(Verdict::Yes),
            other => nameless("a question for a verdict", other),
        }),
        outcome,
    }
}

/// Shows what a shard holds and knows.
pub(crate) struct Shown<A>(pub A);

impl<A: Asked> Debug for Shown<A> {
    fn fmt(&self, f: &mut Formatter<'_>) -> fmt::Result {
        f.debug_struct("Shard")
            .field("number", &self.0.number())
            .field("turned", &is_turned(self.0))
            .field("tokens", &tokens(self.0).collect::<Vec<_>>())
            .field("transactions", &transactions(self.0).collect::<Vec<_>>())
            .finish()
    }
}
