//! The local step of a registration, in the order of document 000's section 4:
//! first the inputs of this shard, then the available ones among them, then the
//! pledges, then the message. Each is taken from those before it and from the
//! tokens held before the call, in document 01's words; nothing the reference
//! computes is used. Beside them stands what document 02's slip 2 has a shard
//! keep: what it finds of each of the inputs.

use reference::{Finding, Input, Token, Transaction, Verdict};

use crate::transactions::{held, inputs_at};

/// The inputs of this shard, in their order: I(S, τ).
pub fn inputs_here(shard: u8, transaction: &Transaction) -> Vec<Input> {
    inputs_at(shard, transaction).copied().collect()
}

/// The available ones among the inputs here, D(S, τ): the shard holds that token
/// with that owner and that amount, and it is pledged to no transaction.
pub fn available_here(inputs: &[Input], tokens: &[Token]) -> Vec<Input> {
    let available = inputs.iter().filter(|input| tokens.contains(&free(input)));
    available.copied().collect()
}

/// The tokens with the pledges: those of the available inputs are pledged to the
/// transaction of this number, every other has the pledge that it had.
pub fn pledged(tokens: &[Token], available: &[Input], number: u32) -> Vec<Token> {
    let pledged = tokens.iter().map(|token| Token {
        pledge: if is_among(token, available) {
            Some(number)
        } else {
            token.pledge
        },
        ..*token
    });
    pledged.collect()
}

/// The message: yes if the available inputs are all the inputs here, D = I.
pub fn verdict(inputs: &[Input], available: &[Input]) -> Verdict {
    if available == inputs {
        Verdict::Yes
    } else {
        Verdict::No
    }
}

/// What is found of each of the inputs here: the first that fits, in document
/// 02's order, and available where none does.
pub fn findings_here(inputs: &[Input], tokens: &[Token]) -> Vec<Finding> {
    let found = |input: &Input| {
        let token = held(tokens, input.token);
        let pledge = token.and_then(|token| token.pledge);
        let fitting = [
            token.is_none().then_some(Finding::NotHeld),
            token
                .is_some_and(|token| token.owner != input.owner)
                .then_some(Finding::OtherOwner),
            token
                .is_some_and(|token| token.amount != input.amount)
                .then_some(Finding::OtherAmount),
            pledge.map(Finding::Pledged),
        ];
        let first = fitting.into_iter().flatten().next();
        first.unwrap_or(Finding::Available)
    };
    inputs.iter().map(found).collect()
}

/// What the four yield, one behind the other, and the findings.
#[derive(Clone, Debug, PartialEq, Eq)]
pub struct LocalStep {
    /// I(S, τ).
    pub inputs: Vec<Input>,
    /// D(S, τ).
    pub available: Vec<Input>,
    /// The tokens with the pledges.
    pub pledged: Vec<Token>,
    /// The message.
    pub verdict: Verdict,
    /// What is found of each of the inputs, before any is pledged.
    pub findings: Vec<Finding>,
}

impl LocalStep {
    /// Of the shard that held these tokens before.
    pub fn of(shard: u8, transaction: &Transaction, tokens: &[Token]) -> Self {
        let inputs = inputs_here(shard, transaction);
        let available = available_here(&inputs, tokens);
        let pledged = pledged(tokens, &available, transaction.number);
        let verdict = verdict(&inputs, &available);
        let findings = findings_here(&inputs, tokens);
        LocalStep {
            inputs,
            available,
            pledged,
            verdict,
            findings,
        }
    }
}

/// The token of this shard that an available input names.
pub(crate) fn free(input: &Input) -> Token {
    Token {
        creator: input.token.creator,
        index: input.token.index,
        owner: input.owner,
        amount: input.amount,
        pledge: None,
    }
}

/// Whether one of the inputs here names the token.
pub(crate) fn is_among(token: &Token, inputs: &[Input]) -> bool {
    let mut names = inputs.iter().map(|input| input.token);
    names.any(|name| (name.creator, name.index) == (token.creator, token.index))
}
