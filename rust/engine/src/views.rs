//! What the reference's shard holds and knows, as the engine's queries tell it.

use reference::{Known, Outcome, Shard, Token, Verdict};

use crate::to_words;

/// The tokens held.
pub fn tokens(shard: &Shard) -> Vec<plankeeper::Token> {
    let token = |token: &Token| plankeeper::Token {
        id: plankeeper::TokenId {
            shard: shard.number(),
            creator: token.creator,
            index: token.index,
        },
        owner: token.owner,
        amount: token.amount,
        pledge: token.pledge,
    };
    shard.tokens().iter().map(token).collect()
}

/// The transactions known.
pub fn transactions(shard: &Shard) -> Vec<plankeeper::Known> {
    let known = |known: &Known| plankeeper::Known {
        transaction: plankeeper::Transaction::from_words(to_words(&known.transaction)),
        heard: known.heard.map(|verdict| verdict.map(said)),
        outcome: decided(known.outcome()),
    };
    shard.known().iter().map(known).collect()
}

fn said(verdict: Verdict) -> plankeeper::Verdict {
    match verdict {
        Verdict::No => plankeeper::Verdict::No,
        Verdict::Yes => plankeeper::Verdict::Yes,
    }
}

fn decided(outcome: Outcome) -> plankeeper::Outcome {
    match outcome {
        Outcome::Wait => plankeeper::Outcome::Wait,
        Outcome::Commit => plankeeper::Outcome::Commit,
        Outcome::Abort => plankeeper::Outcome::Abort,
    }
}
