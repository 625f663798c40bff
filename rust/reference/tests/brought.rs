//! Document 02's slip 6, sentence by sentence: a vote brings its transaction.
//!
//! Most tests are about shard 1, which holds two genesis tokens. Transaction 5
//! takes the first of them and one of shard 0, and is to make (1, 5, 0) and (2,
//! 5, 1): it has three shards. Transaction 6 takes the second and is to make a
//! token at shard 2: it has two.

#[path = "common/answers.rs"]
mod answers;
#[path = "common/records.rs"]
mod records;

use reference::{
    Answer, Cluster, Done, LIMITS, Limits, Outcome, Refusal, Shard, Transaction, Verdict,
};

use Outcome::{Abort, Commit, Wait};
use Verdict::{No, Yes};
use answers::registered;
use records::{mint, register, transaction};

const AGAIN_ABORT: Answer = Ok(Done::Again(Abort));

fn brought(verdict: Verdict, outcome: Outcome) -> Answer {
    Ok(Done::Brought { verdict, outcome })
}

fn three() -> Transaction {
    let inputs = [(1, 0, 0, 20, 4), (0, 0, 0, 10, 3)];
    transaction(5, &inputs, &[(1, 30, 5), (2, 30, 2)])
}

fn two() -> Transaction {
    transaction(6, &[(1, 0, 1, 20, 4)], &[(2, 30, 4)])
}

/// Takes the first token and one that is not there.
fn partly(number: u32) -> Transaction {
    let inputs = [(1, 0, 0, 20, 4), (1, 0, 99, 20, 4)];
    transaction(number, &inputs, &[(2, 20, 8)])
}

/// Takes what transaction 5 is to make at shard 1.
fn behind() -> Transaction {
    transaction(7, &[(1, 5, 0, 30, 5)], &[(3, 50, 5)])
}

/// Is to make a token at shard 1, and takes nothing there.
fn giving(number: u32) -> Transaction {
    transaction(number, &[(4, 0, 0, 40, 1)], &[(1, 40, 1)])
}

/// Shard 1 with its tokens.
fn holding(limits: Limits) -> Shard {
    let mut shard = Shard::new(1, limits);
    for index in 0..2 {
        assert_eq!(shard.play(&mint(1, index, 20, 4)), Ok(Done::Minted));
    }
    shard
}

/// Shard 1 knows transaction 5, which shard 0's yes has brought.
fn waiting(limits: Limits) -> Shard {
    let mut shard = holding(limits);
    assert_eq!(hear(&mut shard, 0, Yes, &three()), brought(Yes, Wait));
    shard
}

/// The answer to a vote. One that is refused, or heard again, changes nothing.
fn hear(shard: &mut Shard, sender: u8, verdict: Verdict, transaction: &Transaction) -> Answer {
    let before = shard.clone();
    let answer = shard.hear(1, sender, u8::from(verdict == Yes), transaction);
    let changes = matches!(answer, Ok(Done::Heard(_) | Done::Brought { .. }));
    assert_eq!(*shard != before, changes, "{answer:?}");
    answer
}

/// What the shard has heard of the transaction it knows last, from the shards
/// 0, 1 and 2.
fn heard(shard: &Shard) -> [Option<Verdict>; 3] {
    let known = shard.known().last().expect("a transaction is known");
    assert_eq!(known.heard[3..], [None; 5]);
    [known.heard[0], known.heard[1], known.heard[2]]
}

fn pledges(shard: &Shard) -> Vec<Option<u32>> {
    shard.tokens().iter().map(|token| token.pledge).collect()
}

fn number(answer: Answer) -> u8 {
    answer.expect_err("it is refused").number()
}

/// The registration and then the vote are what the one call does, whatever the
/// shard was before.
fn brings_both(shard: &Shard, sender: u8, verdict: Verdict, transaction: &Transaction) {
    let (mut once, mut twice) = (shard.clone(), shard.clone());
    let answer = hear(&mut once, sender, verdict, transaction);
    let own = match twice.play(&register(1, *transaction)) {
        Ok(Done::Registered { verdict, .. }) => verdict,
        refused => return assert_eq!(answer, refused),
    };
    let Ok(Done::Heard(outcome)) = hear(&mut twice, sender, verdict, transaction) else {
        panic!("the vote is fresh");
    };
    assert_eq!(answer, brought(own, outcome));
    assert_eq!(once, twice);
}

#[test]
fn first_registered_then_heard() {
    let mut turned = waiting(LIMITS);
    turned.turn(1).expect("it was not turned");
    let small = Limits {
        tokens: 3,
        transactions: 1,
        ..LIMITS
    };
    let states = [
        Shard::new(1, LIMITS),
        holding(LIMITS),
        waiting(LIMITS),
        turned,
        holding(small),
        waiting(small),
    ];
    for shard in &states {
        for transaction in [three(), two(), behind(), partly(8), giving(9)] {
            let mut known = shard.known().iter();
            if known.any(|known| known.transaction == transaction) {
                continue;
            }
            for sender in transaction.shards().filter(|&sender| sender != 1) {
                brings_both(shard, sender, Yes, &transaction);
                brings_both(shard, sender, No, &transaction);
            }
        }
    }
}

/// Registered, with its pledge and its own yes; the other's yes is heard, and a
/// third vote is missing.
#[test]
fn brings_and_waits() {
    let mut shard = waiting(LIMITS);
    assert_eq!(shard.known().len(), 1);
    assert_eq!(shard.known()[0].transaction, three());
    assert_eq!(heard(&shard), [Some(Yes), Some(Yes), None]);
    assert_eq!(pledges(&shard), [Some(5), None]);
    // Then it is like any other: the last vote decides.
    assert_eq!(hear(&mut shard, 2, Yes, &three()), Ok(Done::Heard(Commit)));
    assert_eq!(shard.total(), 4 + 5);
}

#[test]
fn brings_the_commit_where_there_are_two_shards() {
    let mut shard = holding(LIMITS);
    assert_eq!(hear(&mut shard, 2, Yes, &two()), brought(Yes, Commit));
    assert_eq!(heard(&shard), [None, Some(Yes), Some(Yes)]);
    assert_eq!(shard.tokens().len(), 1, "the second token is destroyed");
    // At shard 2, which has outputs only, the token is made.
    let mut other = Shard::new(2, LIMITS);
    assert_eq!(other.hear(2, 1, 1, &two()), brought(Yes, Commit));
    let made = other.tokens()[0];
    assert_eq!((made.creator, made.index, made.amount), (6, 0, 4));
}

/// The shard's own no aborts, whatever the vote says that brought it; what was
/// available is pledged.
#[test]
fn the_own_no() {
    for verdict in [Yes, No] {
        let mut shard = holding(LIMITS);
        let answer = hear(&mut shard, 2, verdict, &partly(8));
        assert_eq!(answer, brought(No, Abort));
        assert_eq!(heard(&shard), [None, Some(No), Some(verdict)]);
        assert_eq!(pledges(&shard), [Some(8), None]);
        assert_eq!(hear(&mut shard, 1, No, &partly(8)), AGAIN_ABORT);
    }
}

/// Of two shards and of three: one no is enough, and the pledge stays.
#[test]
fn the_senders_no() {
    let mut shard = holding(LIMITS);
    assert_eq!(hear(&mut shard, 0, No, &three()), brought(Yes, Abort));
    assert_eq!(heard(&shard), [Some(No), Some(Yes), None]);
    assert_eq!(hear(&mut shard, 2, No, &two()), brought(Yes, Abort));
    assert_eq!(heard(&shard), [None, Some(Yes), Some(No)]);
    assert_eq!(pledges(&shard), [Some(5), Some(6)]);
    assert_eq!(shard.total(), 8);
    // A vote that comes later is noted.
    assert_eq!(hear(&mut shard, 2, Yes, &three()), Ok(Done::Heard(Abort)));
}

/// 9, 10 and 17, in this order, and nothing happens: `hear` compares the shard.
/// Two tokens are held, and transaction 5 may make one more.
#[test]
fn what_cannot_be_entered() {
    // It takes the second token, too, which is available and stays unpledged.
    let inputs = [(1, 0, 1, 20, 4), (1, 5, 0, 30, 5)];
    let shared = transaction(7, &inputs, &[(1, 50, 8), (2, 50, 1)]);
    let cases = [(4, 2, 17), (3, 2, 10), (4, 1, 9), (3, 1, 9)];
    for (tokens, transactions, expected) in cases {
        let limits = Limits {
            tokens,
            transactions,
            ..LIMITS
        };
        for verdict in [Yes, No] {
            let answer = hear(&mut waiting(limits), 2, verdict, &shared);
            assert_eq!(number(answer), expected, "{limits:?}");
            // Its own vote would bring nothing, and none of the three is asked.
            let own = hear(&mut waiting(limits), 1, verdict, &shared);
            assert_eq!(number(own), 11, "{limits:?}");
        }
    }
}

/// The 32nd is brought, and the 33rd is not; 128 tokens likewise.
#[test]
fn the_limits() {
    let mut shard = holding(LIMITS);
    for number in 1..=32 {
        let vain = transaction(number, &[(4, 0, 0, 40, 1)], &[(1, 40, 1)]);
        assert_eq!(hear(&mut shard, 4, No, &vain), brought(Yes, Abort));
    }
    assert_eq!(number(hear(&mut shard, 4, No, &giving(33))), 9);

    let mut shard = Shard::new(1, LIMITS);
    for index in 0..127 {
        shard.mint(1, index, 20, 4).expect("a token is given");
    }
    let mut full = shard.clone();
    assert_eq!(hear(&mut shard, 4, Yes, &giving(8)), brought(Yes, Commit));
    assert_eq!(shard.tokens().len(), 128);
    assert_eq!(number(hear(&mut shard, 4, Yes, &giving(9))), 10);
    // What waits takes the space, too, and an abort gives it back.
    let waits = transaction(8, &[(4, 0, 0, 40, 2)], &[(1, 40, 1), (5, 40, 1)]);
    assert_eq!(hear(&mut full, 4, Yes, &waits), brought(Yes, Wait));
    assert_eq!(number(hear(&mut full, 4, Yes, &giving(9))), 10);
    assert_eq!(hear(&mut full, 5, No, &waits), Ok(Done::Heard(Abort)));
    assert_eq!(hear(&mut full, 4, Yes, &giving(9)), brought(Yes, Commit));
}

/// Held off as often as it comes, until transaction 5 is decided: then the same
/// vote brings it, after a commit and after an abort.
#[test]
fn the_same_vote_later() {
    for (last, own, outcome) in [(Yes, Yes, Commit), (No, No, Abort)] {
        let mut shard = waiting(LIMITS);
        assert_eq!(number(hear(&mut shard, 3, Yes, &behind())), 17);
        assert_eq!(number(hear(&mut shard, 3, Yes, &behind())), 17);
        // Neither the registration is kept nor the vote.
        assert_eq!(number(hear(&mut shard, 1, Yes, &behind())), 11);
        assert_eq!(number(shard.register(1, &behind())), 17);
        assert_eq!(
            hear(&mut shard, 2, last, &three()),
            Ok(Done::Heard(outcome))
        );
        assert_eq!(hear(&mut shard, 3, Yes, &behind()), brought(own, outcome));
    }
}

/// What a vote has brought holds others off and takes space, as what was
/// registered does.
#[test]
fn a_brought_one_is_known() {
    let mut shard = waiting(LIMITS);
    assert_eq!(number(shard.register(1, &behind())), 17);
    assert_eq!(number(shard.register(1, &three())), 8);
    let mut other = three();
    other.outputs[0].owner = 31;
    assert_eq!(number(shard.register(1, &other)), 7);
    assert_eq!(number(shard.mint(1, 9, 20, 4)), 13);
    // Its token is pledged.
    assert_eq!(shard.register(1, &partly(8)), registered(No, Abort));
}

/// The vote that has brought it is heard again, and so is the own one; the
/// other verdict of either is not.
#[test]
fn the_vote_again() {
    let mut shard = waiting(LIMITS);
    for sender in [0, 1] {
        let again = hear(&mut shard, sender, Yes, &three());
        assert_eq!(again, Ok(Done::Again(Wait)));
        assert_eq!(number(hear(&mut shard, sender, No, &three())), 12);
    }
    let mut shard = holding(LIMITS);
    assert_eq!(hear(&mut shard, 2, No, &two()), brought(Yes, Abort));
    assert_eq!(hear(&mut shard, 2, No, &two()), AGAIN_ABORT);
    assert_eq!(hear(&mut shard, 1, Yes, &two()), AGAIN_ABORT);
}

/// A lone shard's own vote brings nothing, whatever it says.
#[test]
fn the_own_vote_on_an_unknown_number() {
    let local = transaction(8, &[(1, 0, 0, 20, 4)], &[(1, 40, 4)]);
    for transaction in [three(), two(), local] {
        for verdict in [Yes, No] {
            let mut shard = holding(LIMITS);
            assert_eq!(number(hear(&mut shard, 1, verdict, &transaction)), 11);
        }
    }
}

/// 7, whoever sends the vote, and though the shard knows all it can.
#[test]
fn a_number_known_for_another_transaction() {
    let one = Limits {
        transactions: 1,
        ..LIMITS
    };
    for limits in [LIMITS, one] {
        let mut shard = waiting(limits);
        let mut other = three();
        other.outputs[0].owner = 31;
        for sender in [0, 1, 2] {
            assert_eq!(number(hear(&mut shard, sender, Yes, &other)), 7);
        }
        // It takes what transaction 5 is to make: 17 is not asked either.
        let same_number = transaction(5, &[(1, 5, 0, 30, 5)], &[(3, 50, 5)]);
        assert_eq!(number(hear(&mut shard, 3, Yes, &same_number)), 7);
    }
}

/// 3 to 6 go before, and bring nothing.
#[test]
fn what_a_vote_says_wrongly() {
    let mut shard = holding(LIMITS);
    let mut no_number = two();
    no_number.number = 0;
    let mut twice = partly(8);
    twice.inputs[1].token.index = 0;
    let mut sums = two();
    sums.outputs[0].amount = 5;
    for (expected, transaction) in [(3, no_number), (4, twice), (5, sums)] {
        assert_eq!(number(hear(&mut shard, 2, Yes, &transaction)), expected);
    }
    // Neither a sender nor a receiver that takes no part.
    assert_eq!(number(hear(&mut shard, 0, Yes, &two())), 6);
    let elsewhere = transaction(8, &[(4, 0, 0, 40, 1)], &[(5, 40, 1)]);
    assert_eq!(number(hear(&mut shard, 4, Yes, &elsewhere)), 6);
    assert_eq!(number(shard.hear(2, 1, 1, &two())), 3);
    assert_eq!(number(shard.hear(1, 2, 2, &two())), 3);
    assert!(shard.known().is_empty());
}

/// At a turned shard the abort that comes with it frees what it has pledged, by
/// the sender's no and by the own no, and nothing else.
#[test]
fn at_a_turned_shard() {
    let mut shard = holding(LIMITS);
    shard.turn(1).expect("it was not turned");
    assert_eq!(hear(&mut shard, 2, Yes, &partly(8)), brought(No, Abort));
    assert_eq!(pledges(&shard), [None, None]);
    assert_eq!(hear(&mut shard, 2, No, &two()), brought(Yes, Abort));
    assert_eq!(pledges(&shard), [None, None]);
    // What has come free is pledged to the next one, which waits; and stays so
    // when another finds it bound.
    assert_eq!(hear(&mut shard, 0, Yes, &three()), brought(Yes, Wait));
    assert_eq!(hear(&mut shard, 2, No, &partly(9)), brought(No, Abort));
    assert_eq!(pledges(&shard), [Some(5), None]);
}

/// The turn frees what an abort has bound that a vote brought before it.
#[test]
fn a_turn_behind_it() {
    let mut shard = holding(LIMITS);
    assert_eq!(hear(&mut shard, 0, No, &three()), brought(Yes, Abort));
    assert_eq!(pledges(&shard), [Some(5), None]);
    shard.turn(1).expect("it was not turned");
    assert_eq!(pledges(&shard), [None, None]);
}

// In the cluster.

/// Shard 0 and 1 with the tokens of transaction 5.
fn cluster() -> Cluster {
    let mut cluster = Cluster::new(LIMITS);
    cluster.mint(0, 0, 10, 3).expect("a token is given");
    cluster.mint(1, 0, 20, 4).expect("a token is given");
    cluster
}

/// Registered at shard 0 alone, it is known to all by votes: that of shard 0
/// brings it to shard 1, and the vote of shard 1, which nobody has asked to
/// register it, to shard 2. Who has brought it hears the others.
#[test]
fn registered_at_one_shard_alone() {
    let (mut cluster, three) = (cluster(), three());
    assert_eq!(cluster.register(0, &three), registered(Yes, Wait));
    let not_given = Err(Refusal::VoteNotGiven);
    assert_eq!(cluster.deliver(2, 1, 1, &three), not_given);
    assert_eq!(cluster.deliver(1, 0, 1, &three), brought(Yes, Wait));
    assert_eq!(cluster.deliver(2, 1, 1, &three), brought(Yes, Wait));
    let committed = Ok(Done::Heard(Commit));
    assert_eq!(cluster.deliver(2, 0, 1, &three), committed);
    assert_eq!(cluster.deliver(1, 2, 1, &three), committed);
    assert_eq!(cluster.deliver(0, 1, 1, &three), Ok(Done::Heard(Wait)));
    assert_eq!(cluster.deliver(0, 2, 1, &three), committed);
    assert_eq!(cluster.total(), 7);
    for shard in [0, 1, 2] {
        let known = Err(Refusal::KnownAlready);
        assert_eq!(cluster.register(shard, &three), known);
    }
}

/// A call changes its receiver alone, also one that brings.
#[test]
fn the_other_shards_stay() {
    let (mut cluster, three) = (cluster(), three());
    assert_eq!(cluster.register(0, &three), registered(Yes, Wait));
    let before = cluster.clone();
    assert_eq!(cluster.deliver(2, 0, 1, &three), brought(Yes, Wait));
    for (place, (now, before)) in cluster.shards().iter().zip(before.shards()).enumerate() {
        assert_eq!(now != before, place == 2, "shard {place}");
    }
}

/// 16 goes before all that the receiver looks for; so 11 is never met, for a
/// shard has no vote to give on a number that it does not know.
#[test]
fn sixteen_goes_first() {
    let limits = Limits {
        transactions: 1,
        ..LIMITS
    };
    let mut cluster = Cluster::new(limits);
    let not_given = Err(Refusal::VoteNotGiven);
    for verdict in [0, 1] {
        for (sender, receiver) in [(0, 1), (1, 1), (1, 0), (0, 0)] {
            let answer = cluster.deliver(receiver, sender, verdict, &three());
            assert_eq!(answer, not_given, "{sender} to {receiver}");
        }
    }
    // Shard 1 knows all it can. Shard 0 has voted no, for it has no token.
    assert_eq!(cluster.register(1, &two()), registered(No, Abort));
    assert_eq!(cluster.deliver(1, 0, 1, &three()), not_given);
    assert_eq!(cluster.register(0, &three()), registered(No, Abort));
    assert_eq!(cluster.deliver(1, 0, 1, &three()), not_given);
    assert_eq!(cluster.deliver(1, 1, 1, &three()), not_given);
    let full = Err(Refusal::TransactionsFull);
    assert_eq!(cluster.deliver(1, 0, 0, &three()), full);
    // Shard 2 knows nothing yet.
    assert_eq!(cluster.deliver(2, 0, 0, &three()), brought(Yes, Abort));
    assert_eq!(cluster.deliver(2, 1, 0, &two()), full);
}

/// Two shards that each know the other transaction of one number: a vote brings
/// nothing to either.
#[test]
fn one_number_for_two_transactions() {
    let mut cluster = cluster();
    let here = transaction(5, &[(0, 0, 0, 10, 3)], &[(1, 10, 3)]);
    let there = transaction(5, &[(1, 0, 0, 20, 4)], &[(0, 20, 4)]);
    assert_eq!(cluster.register(0, &here), registered(Yes, Wait));
    assert_eq!(cluster.register(1, &there), registered(Yes, Wait));
    let taken = Err(Refusal::NumberTaken);
    assert_eq!(cluster.deliver(1, 0, 1, &here), taken);
    assert_eq!(cluster.deliver(0, 1, 1, &there), taken);
}
