//! The reference's ledgers held to document 01: its worked example, its edges,
//! its order of refusals and its limits. A no aborts at once, as document 02's
//! slip 5 has it; document 02's slips have tests of their own.

#[path = "common/answers.rs"]
mod answers;
#[path = "common/records.rs"]
mod records;

use reference::{
    Answer, Cluster, Done, LIMITS, Limits, Outcome, Record, Refusal, Shard, Token, Transaction,
    Verdict,
};

use Outcome::{Abort, Commit, Wait};
use Verdict::{No, Yes};
use answers::registered;
use records::{mint, register, transaction};

fn vote(sender: u8, receiver: u8, verdict: u8, transaction: Transaction) -> Record {
    Record::Vote {
        receiver,
        sender,
        verdict,
        transaction,
    }
}

fn token(creator: u32, index: u8, owner: u32, amount: u32, pledge: Option<u32>) -> Token {
    Token {
        creator,
        index,
        owner,
        amount,
        pledge,
    }
}

fn example() -> [Record; 7] {
    let five = transaction(
        5,
        &[(0, 0, 0, 10, 3), (1, 0, 0, 20, 2)],
        &[(1, 10, 3), (0, 20, 2)],
    );
    [
        mint(0, 0, 10, 3),
        mint(1, 0, 20, 2),
        register(0, five),
        register(1, five),
        vote(1, 0, 1, five),
        vote(0, 1, 1, five),
        vote(0, 1, 1, five),
    ]
}

#[test]
fn worked_example() {
    let mut cluster = Cluster::new(LIMITS);
    let answers = example().map(|record| cluster.play(&record));
    let expected = [
        Ok(Done::Minted),
        Ok(Done::Minted),
        registered(Yes, Wait),
        registered(Yes, Wait),
        Ok(Done::Heard(Commit)),
        Ok(Done::Heard(Commit)),
        Ok(Done::Again(Commit)),
    ];
    assert_eq!(answers, expected);
    let [zero, one, others @ ..] = cluster.shards();
    assert_eq!(zero.tokens(), [token(5, 1, 20, 2, None)]);
    assert_eq!(one.tokens(), [token(5, 0, 10, 3, None)]);
    for shard in [zero, one] {
        assert_eq!(shard.known().len(), 1);
        let heard = shard.known()[0].heard;
        assert_eq!(heard[..2], [Some(Yes); 2]);
        assert_eq!(heard[2..], [None; 6]);
        assert_eq!(shard.known()[0].outcome(), Commit);
        assert_eq!(shard.given().iter().position(|&given| given), Some(0));
        assert_eq!(shard.given().iter().filter(|&&given| given).count(), 1);
    }
    for (number, shard) in (2..).zip(others) {
        assert_eq!(*shard, Shard::new(number, LIMITS));
    }
}

#[test]
fn cut_after_line_5_the_total_is_4() {
    let mut cluster = Cluster::new(LIMITS);
    let totals = example().map(|record| {
        cluster
            .play(&record)
            .expect("the example has no refused record");
        cluster.total()
    });
    assert_eq!(totals, [3, 5, 5, 5, 4, 5, 5]);
}

// Document 01: swaps at the edge, line by line; `listing.rs` has the first two.

#[test]
fn edge_amounts() {
    for (amount, fits) in [(0, false), (1, true), (1_000_000, true), (1_000_001, false)] {
        let mut shard = Shard::new(0, LIMITS);
        let expected = if fits {
            Ok(Done::Minted)
        } else {
            Err(Refusal::OutOfRange)
        };
        assert_eq!(shard.mint(0, 0, 10, amount), expected);
        let whole = transaction(1, &[(0, 0, 0, 10, amount)], &[(0, 11, amount)]);
        let expected = if fits {
            registered(Yes, Commit)
        } else {
            Err(Refusal::OutOfRange)
        };
        assert_eq!(shard.register(0, &whole), expected);
    }
}

#[test]
fn edge_indices() {
    let mut shard = Shard::new(0, LIMITS);
    let made = |index| transaction(1, &[(0, 9, index, 10, 3)], &[(0, 10, 3)]);
    assert_eq!(shard.register(0, &made(4)), Err(Refusal::OutOfRange));
    assert_eq!(shard.register(0, &made(3)), registered(No, Abort));

    let mut shard = Shard::new(0, LIMITS);
    let genesis = |index| transaction(1, &[(0, 0, index, 10, 3)], &[(0, 10, 3)]);
    assert_eq!(shard.mint(0, 127, 10, 3), Ok(Done::Minted));
    assert_eq!(shard.mint(0, 128, 10, 3), Err(Refusal::OutOfRange));
    assert_eq!(shard.register(0, &genesis(128)), Err(Refusal::OutOfRange));
    assert_eq!(shard.register(0, &genesis(127)), registered(Yes, Commit));
}

#[test]
fn edge_sums() {
    let inputs = [(0, 0, 0, 10, 3), (0, 0, 1, 20, 2)];
    let mut shard = Shard::new(0, LIMITS);
    let short = transaction(1, &inputs, &[(0, 10, 4)]);
    assert_eq!(shard.register(0, &short), Err(Refusal::SumsDiffer));
    let equal = transaction(1, &inputs, &[(0, 10, 5)]);
    assert_eq!(shard.register(0, &equal), registered(No, Abort));
}

#[test]
fn edge_two_transactions_for_one_token() {
    let mut shard = Shard::new(0, LIMITS);
    shard.mint(0, 0, 10, 3).unwrap();
    let take = |number| transaction(number, &[(0, 0, 0, 10, 3)], &[(1, 10, 3)]);
    assert_eq!(shard.register(0, &take(1)), registered(Yes, Wait));
    assert_eq!(shard.register(0, &take(2)), registered(No, Abort));
    assert_eq!(shard.tokens(), [token(0, 0, 10, 3, Some(1))]);
}

#[test]
fn edge_wrong_owner_or_amount() {
    for input in [(0, 0, 0, 11, 3), (0, 0, 0, 10, 4)] {
        let mut shard = Shard::new(0, LIMITS);
        shard.mint(0, 0, 10, 3).unwrap();
        let wrong = transaction(1, &[input], &[(1, 10, input.4)]);
        assert_eq!(shard.register(0, &wrong), registered(No, Abort));
        assert_eq!(shard.tokens(), [token(0, 0, 10, 3, None)]);
    }
}

#[test]
fn edge_one_input_available_one_not() {
    let (there, missing) = ((0, 0, 0, 10, 3), (0, 0, 1, 20, 2));
    for inputs in [[there, missing], [missing, there]] {
        let mut shard = Shard::new(0, LIMITS);
        shard.mint(0, 0, 10, 3).unwrap();
        let partly = transaction(1, &inputs, &[(0, 10, 5)]);
        assert_eq!(shard.register(0, &partly), registered(No, Abort));
        // The abort leaves the pledge, so nobody gets the token this week.
        assert_eq!(shard.tokens(), [token(0, 0, 10, 3, Some(1))]);
        let later = transaction(2, &[there], &[(0, 10, 3)]);
        assert_eq!(shard.register(0, &later), registered(No, Abort));
        assert_eq!(shard.tokens(), [token(0, 0, 10, 3, Some(1))]);
    }
}

#[test]
fn edge_registered_again_and_number_taken() {
    let mut cluster = Cluster::new(LIMITS);
    let records = example();
    for record in &records[..4] {
        cluster.play(record).unwrap();
    }
    let Record::Register {
        transaction: five, ..
    } = records[2]
    else {
        panic!("the third record registers the transaction");
    };
    let mut other = five;
    other.outputs[0].owner += 1;
    for shard in [0, 1] {
        assert_eq!(cluster.register(shard, &five), Err(Refusal::KnownAlready));
        assert_eq!(cluster.register(shard, &other), Err(Refusal::NumberTaken));
    }
    // The same once it is decided.
    for record in &records[4..] {
        cluster.play(record).unwrap();
    }
    for shard in [0, 1] {
        assert_eq!(cluster.register(shard, &five), Err(Refusal::KnownAlready));
        assert_eq!(cluster.register(shard, &other), Err(Refusal::NumberTaken));
    }
}

#[test]
fn edge_one_number_at_separate_shards() {
    let mut cluster = Cluster::new(LIMITS);
    for shard in [0, 2] {
        let other = shard + 1;
        cluster.mint(shard, 0, 10, 3).unwrap();
        let seven = transaction(7, &[(shard, 0, 0, 10, 3)], &[(other, 10, 3)]);
        assert_eq!(cluster.register(shard, &seven), registered(Yes, Wait));
        assert_eq!(cluster.register(other, &seven), registered(Yes, Wait));
    }
    for shard in [0, 2] {
        let other = shard + 1;
        let seven = transaction(7, &[(shard, 0, 0, 10, 3)], &[(other, 10, 3)]);
        let committed = Ok(Done::Heard(Commit));
        assert_eq!(cluster.deliver(shard, other, 1, &seven), committed);
        assert_eq!(cluster.deliver(other, shard, 1, &seven), committed);
        let made = &cluster.shards()[usize::from(other)];
        assert_eq!(made.tokens(), [token(7, 0, 10, 3, None)]);
        assert_eq!(cluster.shards()[usize::from(shard)].tokens(), []);
    }
}

#[test]
fn edge_32_transactions() {
    let mut shard = Shard::new(0, LIMITS);
    let give = |number| transaction(number, &[(1, 0, 0, 10, 3)], &[(0, 10, 3)]);
    for number in 1..=32 {
        assert_eq!(shard.register(0, &give(number)), registered(Yes, Wait));
    }
    assert_eq!(shard.known().len(), 32);
    let full = Err(Refusal::TransactionsFull);
    assert_eq!(shard.register(0, &give(33)), full);
    // Decided transactions count too.
    for number in 1..=32 {
        let heard = shard.hear(0, 1, u8::from(number % 2 == 0), &give(number));
        assert_eq!(
            heard,
            Ok(Done::Heard(if number % 2 == 0 { Commit } else { Abort }))
        );
    }
    assert_eq!(shard.register(0, &give(33)), full);
}

#[test]
fn edge_128_tokens() {
    let holding = |tokens| {
        let mut shard = Shard::new(0, LIMITS);
        for index in 0..tokens {
            shard.mint(0, index, 10, 3).unwrap();
        }
        shard
    };
    let one_more = transaction(1, &[(1, 0, 0, 10, 3)], &[(0, 10, 3)]);
    let exchange = transaction(1, &[(0, 0, 0, 10, 3)], &[(0, 10, 3)]);
    assert_eq!(holding(127).register(0, &one_more), registered(Yes, Wait));
    assert_eq!(holding(127).register(0, &exchange), registered(Yes, Commit));
    let full = Err(Refusal::TokensFull);
    assert_eq!(holding(128).register(0, &one_more), full);
    assert_eq!(holding(128).register(0, &exchange), full);

    // Without an output here there is always room, and what it frees is used.
    let mut shard = holding(128);
    let away = transaction(1, &[(0, 0, 5, 10, 3)], &[(1, 10, 3)]);
    assert_eq!(shard.register(0, &away), registered(Yes, Wait));
    let two = transaction(2, &[(1, 0, 0, 10, 3)], &[(0, 10, 3)]);
    assert_eq!(shard.register(0, &two), full);
    assert_eq!(shard.hear(0, 1, 1, &away), Ok(Done::Heard(Commit)));
    assert_eq!(shard.tokens().len(), 127);
    assert_eq!(shard.register(0, &two), registered(Yes, Wait));
    // Its output is still to be made, so there is no room for another one.
    let three = transaction(3, &[(1, 0, 1, 10, 3)], &[(0, 10, 3)]);
    assert_eq!(shard.register(0, &three), full);
    // An abort gives the room back.
    assert_eq!(shard.hear(0, 1, 0, &two), Ok(Done::Heard(Abort)));
    assert_eq!(shard.register(0, &three), registered(Yes, Wait));
    assert_eq!(shard.hear(0, 1, 1, &three), Ok(Done::Heard(Commit)));
    assert_eq!(shard.tokens().len(), 128);
    assert_eq!(shard.tokens()[127], token(3, 0, 10, 3, None));
    assert_eq!(shard.tokens()[5], token(0, 6, 10, 3, None));
}

// What document 01 says elsewhere.

/// Tokens keep their order, and an index counts all outputs.
#[test]
fn commit_keeps_the_order() {
    let mut shard = Shard::new(3, LIMITS);
    for index in [4, 0, 2, 9] {
        shard
            .mint(3, index, 10 + u32::from(index), 5)
            .expect("the index is fresh");
    }
    let exchange = transaction(
        8,
        &[(3, 0, 9, 19, 5), (3, 0, 0, 10, 5)],
        &[(1, 20, 1), (3, 21, 4), (0, 22, 2), (3, 23, 3)],
    );
    assert_eq!(shard.register(3, &exchange), registered(Yes, Wait));
    assert_eq!(shard.hear(3, 1, 1, &exchange), Ok(Done::Heard(Wait)));
    assert_eq!(shard.hear(3, 1, 1, &exchange), Ok(Done::Again(Wait)));
    assert_eq!(shard.hear(3, 0, 1, &exchange), Ok(Done::Heard(Commit)));
    let expected = [
        token(0, 4, 14, 5, None),
        token(0, 2, 12, 5, None),
        token(8, 1, 21, 4, None),
        token(8, 3, 23, 3, None),
    ];
    assert_eq!(shard.tokens(), expected);
}

/// An output to come is no token yet, not even its own transaction's.
#[test]
fn outputs_are_available_after_the_commit_only() {
    let mut cluster = Cluster::new(LIMITS);
    cluster.mint(0, 0, 10, 3).unwrap();
    let own = transaction(4, &[(1, 4, 0, 10, 3)], &[(1, 10, 3)]);
    assert_eq!(cluster.register(1, &own), registered(No, Abort));
    let first = transaction(5, &[(0, 0, 0, 10, 3)], &[(1, 10, 3)]);
    let second = |number| transaction(number, &[(1, 5, 0, 10, 3)], &[(1, 10, 3)]);
    assert_eq!(cluster.register(1, &second(6)), registered(No, Abort));
    cluster.register(1, &first).unwrap();
    // The first is known now: what takes its output is held off.
    let held_off = Err(Refusal::HeldOff);
    assert_eq!(cluster.register(1, &second(7)), held_off);
    cluster.register(0, &first).unwrap();
    assert_eq!(cluster.register(1, &second(7)), held_off);
    cluster.deliver(1, 0, 1, &first).unwrap();
    assert_eq!(cluster.register(1, &second(7)), registered(Yes, Commit));
}

/// The first refusal in order, each case one condition further than the last.
#[test]
fn order_of_refusals_at_a_shard() {
    let number = |answer: Answer| answer.map_or_else(Refusal::number, |_| 0);
    let mut shard = Shard::new(0, LIMITS);
    shard.mint(0, 0, 10, 3).unwrap();
    let known = transaction(5, &[(0, 0, 0, 10, 3)], &[(1, 10, 3)]);
    shard.register(0, &known).unwrap();

    // Twice, unbalanced, elsewhere, with a number that is taken here.
    let mut all = transaction(
        5,
        &[(2, 0, 0, 10, 3), (2, 0, 0, 10, 3)],
        &[(2, 10, 3), (3, 10, 4)],
    );
    assert_eq!(number(shard.register(1, &all)), 3);
    assert_eq!(number(shard.register(8, &all)), 3);
    assert_eq!(number(shard.hear(2, 2, 1, &all)), 3);
    assert_eq!(number(shard.hear(0, 8, 1, &all)), 3);
    assert_eq!(number(shard.hear(0, 2, 2, &all)), 3);
    assert_eq!(number(shard.register(0, &all)), 4);
    assert_eq!(number(shard.hear(0, 2, 1, &all)), 4);
    all.inputs[1].token.index = 1;
    assert_eq!(number(shard.register(0, &all)), 5);
    assert_eq!(number(shard.hear(0, 2, 1, &all)), 5);
    all.outputs[1].amount = 3;
    assert_eq!(number(shard.register(0, &all)), 6);
    assert_eq!(number(shard.hear(0, 2, 1, &all)), 6);
    all.outputs[1].shard = 0;
    assert_eq!(number(shard.hear(0, 3, 1, &all)), 6);
    assert_eq!(number(shard.register(0, &all)), 7);
    assert_eq!(number(shard.hear(0, 2, 1, &all)), 7);
    all.number = 6;
    // A vote from the receiver itself; another's would bring the transaction.
    assert_eq!(number(shard.hear(0, 0, 1, &all)), 11);
    assert_eq!(number(shard.hear(0, 0, 0, &known)), 12);
    assert_eq!(shard.hear(0, 0, 1, &known), Ok(Done::Again(Wait)));
    assert_eq!(shard.hear(0, 1, 0, &known), Ok(Done::Heard(Abort)));
    assert_eq!(number(shard.hear(0, 1, 1, &known)), 12);
    assert_eq!(shard.hear(0, 1, 0, &known), Ok(Done::Again(Abort)));
    // 7 and 8 go before 9, and 9 before 10.
    for number in 6..37 {
        let give = transaction(number, &[(1, 0, 0, 10, 4)], &[(0, 1, 1); 4]);
        let answer = shard.register(0, &give);
        // 1 + 4 * 31 leaves room for 3 more.
        assert_eq!(answer, registered(Yes, Wait));
    }
    assert_eq!(shard.known().len(), 32);
    let give = transaction(5, &[(1, 0, 0, 10, 4)], &[(0, 1, 1); 4]);
    assert_eq!(number(shard.register(0, &give)), 7);
    assert_eq!(number(shard.hear(0, 1, 1, &give)), 7);
    assert_eq!(number(shard.register(0, &known)), 8);
    let fresh = Transaction { number: 99, ..give };
    assert_eq!(number(shard.register(0, &fresh)), 9);
    assert_eq!(number(shard.hear(0, 1, 1, &fresh)), 9);
    assert_eq!(number(shard.hear(0, 0, 1, &fresh)), 11);

    assert_eq!(number(shard.mint(1, 0, 10, 3)), 3);
    assert_eq!(number(shard.mint(0, 0, 0, 3)), 3);
    assert_eq!(number(shard.mint(0, 0, 10, 3)), 13);
    let mut shard = Shard::new(7, LIMITS);
    shard.mint(7, 0, 10, 3).unwrap();
    assert_eq!(number(shard.mint(7, 0, 11, 4)), 14);
    assert_eq!(number(shard.mint(0, 0, 11, 4)), 3);
}

#[test]
fn order_of_refusals_in_the_cluster() {
    let mut cluster = Cluster::new(LIMITS);
    let first = transaction(5, &[(0, 0, 0, 10, 3)], &[(1, 10, 3)]);
    let second = transaction(5, &[(2, 0, 0, 10, 3)], &[(1, 10, 3)]);
    let not_given = Err(Refusal::VoteNotGiven);
    assert_eq!(cluster.register(8, &first), Err(Refusal::OutOfRange));
    assert_eq!(cluster.register(2, &first), Err(Refusal::NotTakingPart));
    assert_eq!(
        cluster.deliver(8, 0, 1, &first),
        Err(Refusal::OutOfRange),
        "no such shard"
    );
    // Neither shard knows it: 16 goes before all that the receiver looks for.
    assert_eq!(cluster.deliver(1, 0, 0, &first), not_given);
    assert_eq!(cluster.deliver(1, 1, 1, &first), not_given);
    assert_eq!(
        cluster.deliver(2, 0, 1, &first),
        Err(Refusal::NotTakingPart)
    );
    assert_eq!(cluster.register(0, &first), registered(No, Abort));
    assert_eq!(cluster.deliver(1, 0, 1, &first), not_given);
    // The vote that was given brings it to a shard that knows no such number.
    let brought = Done::Brought {
        verdict: Yes,
        outcome: Abort,
    };
    assert_eq!(cluster.clone().deliver(1, 0, 0, &first), Ok(brought));
    // The other transaction's number is known at the sender, but not that one.
    let mut third = first;
    third.outputs[0].owner = 11;
    assert_eq!(cluster.deliver(1, 0, 0, &third), not_given);
    assert_eq!(cluster.register(1, &second), registered(Yes, Wait));
    assert_eq!(cluster.deliver(1, 0, 0, &first), Err(Refusal::NumberTaken));
    assert_eq!(cluster.deliver(1, 0, 1, &first), not_given);
    // Its own vote is heard already; the other verdict was never given.
    assert_eq!(cluster.deliver(0, 0, 0, &first), Ok(Done::Again(Abort)));
    assert_eq!(cluster.deliver(0, 0, 1, &first), not_given);
}

#[test]
fn other_limits() {
    let limits = Limits {
        tokens: 3,
        transactions: 2,
        genesis: 2,
    };
    let mut cluster = Cluster::new(limits);
    assert_eq!(cluster.mint(0, 1, 10, 3), Ok(Done::Minted));
    assert_eq!(cluster.mint(0, 2, 10, 3), Err(Refusal::OutOfRange));
    let genesis = |index| transaction(1, &[(0, 0, index, 10, 3)], &[(1, 10, 3)]);
    let outside = Err(Refusal::OutOfRange);
    assert_eq!(cluster.register(0, &genesis(2)), outside);
    assert_eq!(cluster.register(0, &genesis(1)), registered(Yes, Wait));
    assert_eq!(cluster.deliver(0, 0, 1, &genesis(2)), outside);
    let give = |number, count: u8| {
        let outputs = vec![(0, 10, 1); count.into()];
        transaction(number, &[(1, 0, 0, 10, count.into())], &outputs)
    };
    assert_eq!(cluster.register(0, &give(2, 3)), Err(Refusal::TokensFull));
    assert_eq!(cluster.register(0, &give(2, 2)), registered(Yes, Wait));
    assert_eq!(
        cluster.register(0, &give(3, 1)),
        Err(Refusal::TransactionsFull)
    );
}
