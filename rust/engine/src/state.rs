//! A shard's state as its words tell it.

use std::array;
use std::fmt::Debug;

use reference::{Finding, Findings, GENESIS, Known, SLOTS, Shard, Token, Transaction, Verdict};

use crate::findings::finding;
use crate::places::{
    FINDINGS, FLAGS, HEARD, HELD, KNOWN, KNOWN_WORDS, NUMBER, ShardWords, TOKEN_WORDS, TOKENS,
    TRANSACTIONS, TURNED,
};
use crate::words::{byte, from_words};

/// A shard's whole state. Words behind the tokens held and the transactions
/// known are not looked at.
#[derive(Clone, Debug, PartialEq, Eq)]
pub struct State {
    /// The shard's number.
    pub number: u8,
    /// Whether it is turned.
    pub turned: bool,
    /// Which genesis indices were given.
    pub given: [bool; GENESIS as usize],
    /// The tokens held.
    pub tokens: Vec<Token>,
    /// The transactions known.
    pub known: Vec<Known>,
}

impl State {
    /// The state that the words tell of. Panics if they tell of none.
    pub fn of(words: &ShardWords) -> Self {
        let mut state = State {
            number: 0,
            turned: false,
            given: [false; GENESIS as usize],
            tokens: Vec::new(),
            known: Vec::new(),
        };
        state.read(words);
        state
    }

    /// As [`Self::of`], with the room of the state before.
    pub fn read(&mut self, words: &ShardWords) {
        self.number = byte(words[NUMBER]);
        self.turned = match words[TURNED] {
            0 => false,
            1 => true,
            other => panic!("the engine has turned a shard {other} times"),
        };
        let flags = &words[FLAGS];
        self.given = array::from_fn(|index| flags[index] != 0);
        self.tokens.clear();
        let tokens = used::<TOKEN_WORDS>(&words[TOKENS], words[HELD]);
        self.tokens.extend(tokens.iter().map(token));
        self.known.clear();
        let transactions = used::<KNOWN_WORDS>(&words[TRANSACTIONS], words[KNOWN]);
        let known = |words| known(self.number, words);
        self.known.extend(transactions.iter().map(known));
    }

    /// What differs first from the reference's state, if anything.
    pub fn difference(&self, shard: &Shard) -> Option<String> {
        first("number", &[self.number], &[shard.number()])
            .or_else(|| first("turned", &[self.turned], &[shard.is_turned()]))
            .or_else(|| first("flag", &self.given, shard.given()))
            .or_else(|| first("token", &self.tokens, shard.tokens()))
            .or_else(|| first("transaction", &self.known, shard.known()))
    }
}

/// The places in use, from the front.
fn used<const N: usize>(words: &[u32], count: u32) -> &[[u32; N]] {
    let (places, _) = words.as_chunks();
    let used = places.get(..count as usize);
    used.unwrap_or_else(|| panic!("the engine counts {count} in {} places", places.len()))
}

fn token(&[creator, index, owner, amount, pledge]: &[u32; TOKEN_WORDS]) -> Token {
    Token {
        creator,
        index: byte(index),
        owner,
        amount,
        pledge: Some(pledge).filter(|&number| number != 0),
    }
}

/// A transaction that the shard of this number knows.
fn known(shard: u8, words: &[u32; KNOWN_WORDS]) -> Known {
    let transaction = words.first_chunk().expect("a transaction's words");
    let (transaction, heard) = (from_words(transaction), &words[HEARD]);
    Known {
        heard: array::from_fn(|sender| match heard[sender] {
            0 => None,
            1 => Some(Verdict::No),
            2 => Some(Verdict::Yes),
            other => panic!("the engine heard verdict {other}"),
        }),
        findings: findings(shard, &transaction, &words[FINDINGS]),
        transaction,
    }
}

/// As many as the transaction has inputs at the shard. In places behind them
/// there stands what an available input has.
fn findings(shard: u8, transaction: &Transaction, words: &[u32]) -> Findings {
    let inputs = transaction.used_inputs().iter();
    let here = inputs.filter(|input| input.token.shard == shard).count();
    let (places, _) = words.as_chunks();
    let found: [Finding; SLOTS] = array::from_fn(|place| finding(places[place]));
    let mut behind = found[here..].iter();
    assert!(
        behind.all(|&finding| finding == Finding::Available),
        "the engine found {found:?} of {here} inputs"
    );
    array::from_fn(|place| (place < here).then_some(found[place]))
}

fn first<T: PartialEq + Debug>(what: &str, engine: &[T], expected: &[T]) -> Option<String> {
    if engine == expected {
        return None;
    }
    let mut places = 0..engine.len().max(expected.len());
    let place = places.find(|&place| engine.get(place) != expected.get(place))?;
    let (engine, expected) = (engine.get(place), expected.get(place));
    Some(format!(
        "{what} {place} is {engine:?}, expected {expected:?}"
    ))
}
