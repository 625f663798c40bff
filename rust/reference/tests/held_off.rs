//! Document 02's slip 1, sentence by sentence: a transaction close behind
//! another is held off, with 17.
//!
//! Transaction 5, the first, takes a genesis token of shard 0. Shard 1, where it
//! is to make tokens, knows it and waits for votes.

#[path = "common/answers.rs"]
mod answers;
#[path = "common/records.rs"]
mod records;

use reference::{
    Answer, Cluster, Done, LIMITS, Limits, Outcome, Refusal, Shard, Transaction, Verdict,
};

use Outcome::{Abort, Commit, Wait};
use Verdict::{No, Yes};
use answers::registered;
use records::{InputFields, mint, register, transaction};

const HELD_OFF: Answer = Err(Refusal::HeldOff);

/// Is to make (1, 5, 0) and (1, 5, 2); its other output is at shard 2, and its
/// fourth slot is unused.
fn first() -> Transaction {
    let outputs = [(1, 20, 3), (2, 20, 3), (1, 20, 3)];
    transaction(5, &[(0, 0, 0, 10, 9)], &outputs)
}

/// Takes these tokens and makes one at shard 1.
fn taking(number: u32, inputs: &[InputFields]) -> Transaction {
    let sum = inputs.iter().map(|&(.., amount)| amount).sum();
    transaction(number, inputs, &[(1, 30, sum)])
}

/// Takes what the first is to make.
fn second() -> Transaction {
    taking(6, &[(1, 5, 0, 20, 3)])
}

/// Shard 1. It holds a genesis token, knows the first and waits for the votes
/// of 0 and 2.
fn waiting(limits: Limits) -> Shard {
    let mut shard = Shard::new(1, limits);
    assert_eq!(shard.play(&mint(1, 0, 20, 3)), Ok(Done::Minted));
    let answer = shard.play(&register(1, first()));
    assert_eq!(answer, registered(Yes, Wait));
    shard
}

/// The answer to a registration. One that is refused changes nothing.
fn enter(shard: &mut Shard, transaction: Transaction) -> Answer {
    let before = shard.clone();
    let answer = shard.register(shard.number(), &transaction);
    assert_eq!(*shard == before, answer.is_err(), "{transaction:?}");
    answer
}

/// The answer where the first is undecided and nothing else is known.
fn alone(transaction: Transaction) -> Answer {
    enter(&mut waiting(LIMITS), transaction)
}

/// Held off as often as it comes, until the first is committed and the token is
/// there.
#[test]
fn sent_again_after_the_commit() {
    let mut shard = waiting(LIMITS);
    assert_eq!(enter(&mut shard, second()), HELD_OFF);
    assert_eq!(enter(&mut shard, second()), HELD_OFF);
    assert_eq!(shard.hear(1, 2, 1, &first()), Ok(Done::Heard(Wait)));
    assert_eq!(enter(&mut shard, second()), HELD_OFF);
    assert_eq!(shard.hear(1, 0, 1, &first()), Ok(Done::Heard(Commit)));
    assert_eq!(enter(&mut shard, second()), registered(Yes, Commit));
}

/// Until it is aborted: then the token never comes, and the vote is no.
#[test]
fn sent_again_after_the_abort() {
    let mut shard = waiting(LIMITS);
    assert_eq!(enter(&mut shard, second()), HELD_OFF);
    assert_eq!(shard.hear(1, 2, 1, &first()), Ok(Done::Heard(Wait)));
    assert_eq!(enter(&mut shard, second()), HELD_OFF);
    assert_eq!(shard.hear(1, 0, 0, &first()), Ok(Done::Heard(Abort)));
    assert_eq!(enter(&mut shard, second()), registered(No, Abort));
}

#[test]
fn owner_and_amount_play_no_part() {
    for input in [(1, 5, 0, 21, 3), (1, 5, 0, 20, 4), (1, 5, 2, 99, 1)] {
        assert_eq!(alone(taking(6, &[input])), HELD_OFF, "{input:?}");
    }
}

/// Wherever it stands among the inputs, and whatever the others are.
#[test]
fn one_such_input_is_enough() {
    let to_come = (1, 5, 2, 20, 3);
    let others = [
        (1, 0, 0, 20, 3),
        (1, 0, 9, 20, 3),
        (3, 5, 2, 20, 3),
        (1, 5, 0, 20, 3),
    ];
    for other in others {
        for inputs in [[to_come, other], [other, to_come]] {
            assert_eq!(alone(taking(6, &inputs)), HELD_OFF, "{inputs:?}");
        }
    }
}

/// What the first makes at another shard, or in a slot that it does not use;
/// what a number unknown here makes, or the new transaction itself; a genesis
/// token. None of them is held.
#[test]
fn not_for_a_token_that_it_is_not_to_make_here() {
    let others = [
        (1, 5, 1, 20, 3),
        (1, 5, 3, 20, 3),
        (1, 4, 0, 20, 3),
        (1, 6, 0, 20, 3),
        (1, 0, 2, 20, 3),
    ];
    for input in others {
        let answer = alone(taking(6, &[input]));
        assert_eq!(answer, registered(No, Abort), "{input:?}");
    }
}

/// Another shard's tokens are that shard's affair, even those of the first.
#[test]
fn not_for_an_input_elsewhere() {
    for input in [(0, 5, 0, 20, 3), (2, 5, 0, 20, 3), (2, 5, 1, 20, 3)] {
        let answer = alone(taking(6, &[input]));
        assert_eq!(answer, registered(Yes, Wait), "{input:?}");
    }
}

/// One that has voted no is decided, whatever votes are missing, and holds
/// nobody off.
#[test]
fn not_by_a_transaction_that_has_voted_no() {
    let mut shard = waiting(LIMITS);
    let vain = transaction(8, &[(1, 0, 9, 20, 3)], &[(1, 20, 1), (2, 20, 2)]);
    assert_eq!(enter(&mut shard, vain), registered(No, Abort));
    let behind = taking(9, &[(1, 8, 0, 20, 1)]);
    assert_eq!(enter(&mut shard, behind), registered(No, Abort));
    // Each by its own number: the first still waits.
    assert_eq!(enter(&mut shard, second()), HELD_OFF);
}

/// It holds nobody off itself, its own vote is not heard, and its number is
/// free.
#[test]
fn what_is_held_off_is_not_known() {
    let mut shard = waiting(LIMITS);
    assert_eq!(enter(&mut shard, second()), HELD_OFF);
    let third = taking(7, &[(1, 6, 0, 30, 3)]);
    assert_eq!(enter(&mut shard, third), registered(No, Abort));
    let vote = shard.hear(1, 1, 1, &second());
    assert_eq!(vote, Err(Refusal::NumberUnknown));
    let other = taking(6, &[(1, 0, 0, 20, 3)]);
    assert_eq!(enter(&mut shard, other), registered(Yes, Commit));
    assert_eq!(enter(&mut shard, second()), Err(Refusal::NumberTaken));
}

/// 17 comes behind all other refusals. (6 cannot meet it: an input here makes
/// this shard one of the transaction's.)
#[test]
fn every_other_refusal_goes_first() {
    let number = |answer: Answer| answer.map_err(Refusal::number);
    let input = (1, 5, 0, 20, 3);
    assert_eq!(number(alone(taking(0, &[input]))), Err(3));
    assert_eq!(number(alone(taking(6, &[input; 2]))), Err(4));
    let unbalanced = transaction(6, &[input], &[(1, 30, 4)]);
    assert_eq!(number(alone(unbalanced)), Err(5));
    assert_eq!(number(alone(taking(5, &[input]))), Err(7));
    // It is known longer than what it takes an output of.
    let mut shard = Shard::new(1, LIMITS);
    assert_eq!(enter(&mut shard, second()), registered(No, Abort));
    assert_eq!(enter(&mut shard, first()), registered(Yes, Wait));
    assert_eq!(number(enter(&mut shard, second())), Err(8));

    // One token is held, and two may still be made.
    let cases = [(4, 2, 17), (4, 1, 9), (3, 1, 9), (3, 2, 10)];
    for (tokens, transactions, expected) in cases {
        let limits = Limits {
            tokens,
            transactions,
            ..LIMITS
        };
        let answer = enter(&mut waiting(limits), second());
        assert_eq!(number(answer), Err(expected), "{limits:?}");
    }
}

/// Each shard of the second judges by itself, and the votes go on.
#[test]
fn a_chain_in_the_cluster() {
    let mut cluster = Cluster::new(LIMITS);
    let first = transaction(5, &[(0, 0, 0, 10, 3)], &[(1, 20, 3)]);
    let second = transaction(6, &[(1, 5, 0, 20, 3)], &[(2, 30, 3)]);
    cluster.mint(0, 0, 10, 3).unwrap();
    assert_eq!(cluster.register(1, &first), registered(Yes, Wait));
    let before = cluster.clone();
    assert_eq!(cluster.register(1, &second), HELD_OFF);
    assert_eq!(cluster, before);
    // Shard 2 does not know the first.
    assert_eq!(cluster.register(2, &second), registered(Yes, Wait));
    // A vote that would bring it to shard 1 is held off, too.
    let before = cluster.clone();
    assert_eq!(cluster.deliver(1, 2, 1, &second), HELD_OFF);
    assert_eq!(cluster, before);
    assert_eq!(cluster.register(0, &first), registered(Yes, Wait));
    assert_eq!(cluster.register(1, &second), HELD_OFF);
    let committed = Ok(Done::Heard(Commit));
    assert_eq!(cluster.deliver(1, 0, 1, &first), committed);
    // Decided here, although shard 0 still waits.
    assert_eq!(cluster.register(1, &second), registered(Yes, Wait));
    assert_eq!(cluster.deliver(1, 2, 1, &second), committed);
    assert_eq!(cluster.deliver(2, 1, 1, &second), committed);
    assert_eq!(cluster.deliver(0, 1, 1, &first), committed);
    assert_eq!(cluster.total(), 3);
    assert_eq!(cluster.shards()[2].total(), 3);
}
