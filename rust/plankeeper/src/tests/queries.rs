//! Queries by hand.

use super::story::{AMOUNT, OWNER, cluster_story, mint, register, transaction, turn, yes};
use crate::boundary::Memory;
use crate::{Cluster, Known, Outcome, Shard, Token, TokenId, Verdict};

fn token(shard: u8, creator: u32, index: u8, pledge: Option<u32>) -> Token {
    Token {
        id: TokenId {
            shard,
            creator,
            index,
        },
        owner: if creator == 0 { OWNER } else { OWNER + 1 },
        amount: AMOUNT,
        pledge,
    }
}

/// Shard 1 gives a token to shard 2, alone and in a cluster.
#[test]
fn queries_after_calls() {
    let both = transaction(7, &[(1, 5)], &[2]);
    let known = |heard: &[usize], outcome| {
        let mut verdicts = [None; 8];
        for &shard in heard {
            verdicts[shard] = Some(Verdict::Yes);
        }
        Known {
            transaction: both,
            heard: verdicts,
            outcome,
        }
    };
    let (mut cluster, mut shard) = (Cluster::new(), Shard::new(1));
    for record in [mint(1, 9), mint(1, 5), register(1, both), register(2, both)] {
        cluster.play(&record).expect("it is carried out");
        let alone = shard.play(&record);
        assert_eq!(alone.is_ok(), record.receiver() == 1);
    }
    let waiting = [token(1, 0, 9, None), token(1, 0, 5, Some(7))];
    assert!(cluster.tokens(1).eq(waiting) && shard.tokens().eq(waiting));
    let here = [known(&[1], Outcome::Wait)];
    assert!(cluster.transactions(1).eq(here) && shard.transactions().eq(here));
    assert_eq!(cluster.outcome(1, 7), Some(Outcome::Wait));
    assert_eq!(cluster.tokens(2).len(), 0);
    assert!(cluster.transactions(2).eq([known(&[2], Outcome::Wait)]));

    for record in [yes(2, 1, both), yes(1, 2, both)] {
        cluster.play(&record).expect("it is carried out");
        let _ = shard.play(&record);
    }
    let left = [token(1, 0, 9, None)];
    assert!(cluster.tokens(1).eq(left) && shard.tokens().eq(left));
    assert!(cluster.tokens(2).eq([token(2, 7, 0, None)]));
    let there = [known(&[1, 2], Outcome::Commit)];
    assert!(cluster.transactions(1).eq(there) && shard.transactions().eq(there));
    assert!(cluster.transactions(2).eq(there));
    assert_eq!(shard.outcome(7), Some(Outcome::Commit));
    assert_eq!((shard.outcome(8), cluster.outcome(1, 8)), (None, None));
    assert_eq!((shard.outcome(0), cluster.outcome(3, 7)), (None, None));
}

/// Alone and in a cluster, by words and in types; a shard that there is not is
/// not turned either.
#[test]
fn turned_shards() {
    let (mut cluster, mut shard) = (Cluster::new(), Shard::new(6));
    assert_eq!((shard.is_turned(), shard.memory().is_turned()), (false, 0));
    for number in 0..=255 {
        let answer = cluster.turn(number);
        assert_eq!(answer.is_ok(), number < 8, "shard {number}");
        assert_eq!(shard.turn(number).is_ok(), number == 6, "shard {number}");
        assert_eq!(shard.is_turned(), number >= 6);
        for other in [0, 6, 7, 8, number] {
            let turned = other <= number && other < 8;
            assert_eq!(cluster.is_turned(other), turned, "{other} of {number}");
            let word = cluster.memory().is_turned(other.into());
            assert_eq!(word, turned.into(), "{other} of {number}");
        }
    }
    assert_eq!(shard.memory().is_turned(), 1);
    for none in [8, 255, 256, 262, u32::MAX] {
        assert_eq!(cluster.memory().is_turned(none), 0, "shard {none}");
    }
}

/// The words of every answer, also where there is nothing.
#[test]
fn words_of_queries() {
    let mut cluster = Cluster::new();
    for (record, _) in cluster_story() {
        let _ = cluster.play(&record);
    }
    let before = *cluster.memory().words();
    let memory = cluster.memory();
    assert_eq!((memory.held_count(7), memory.known_count(7)), (128, 32));
    assert_eq!(memory.total_at(7), 128 * u64::from(AMOUNT));
    let (mut token, mut known) = ([9; 5], [9; 43]);
    assert_eq!(memory.token_at(7, 31, &mut token), 1);
    assert_eq!(token, [0, 31, OWNER, AMOUNT, 131]);
    assert_eq!(memory.known_at(1, 1, &mut known), 2);
    assert_eq!(known[..35], *transaction(6, &[(1, 0)], &[1]).words());
    assert_eq!(known[35..], [0, 1, 0, 0, 0, 0, 0, 0]);
    // Transaction 8 is aborted by the no of shard 1 itself, which has heard no
    // other vote; 11 by one that it has heard, while at shard 4 it waits.
    let outcomes = [5, 6, 7, 8, 9, 11].map(|number| memory.outcome_of(1, number));
    assert_eq!(outcomes, [1, 2, 1, 2, 3, 2]);
    assert_eq!(memory.outcome_of(4, 11), 0);
    assert_eq!(memory.known_at(1, 3, &mut known), 2);
    assert_eq!((known[0], &known[35..]), (8, &[0, 1, 0, 0, 0, 0, 0, 0][..]));
    assert_eq!(memory.known_at(1, 4, &mut known), 2);
    assert_eq!(
        (known[0], &known[35..]),
        (11, &[0, 2, 2, 1, 2, 0, 0, 0][..])
    );

    for (shard, k) in [(7, 128), (7, usize::MAX), (0, 0), (8, 0), (u32::MAX, 0)] {
        (token, known) = ([9; 5], [9; 43]);
        assert_eq!(memory.token_at(shard, k, &mut token), 0, "{shard}, {k}");
        assert_eq!(memory.known_at(shard, k, &mut known), 3, "{shard}, {k}");
        assert_eq!((token, known), ([0; 5], [0; 43]));
    }
    for shard in [8, 15, 255, 256, u32::MAX] {
        let counts = (memory.held_count(shard), memory.known_count(shard));
        assert_eq!((counts, memory.total_at(shard)), ((0, 0), 0));
        assert_eq!(memory.outcome_of(shard, 5), 3);
    }
    assert_eq!(*memory.words(), before, "queries change nothing");
}

#[test]
fn ledgers_are_shown() {
    let mut shard = Shard::new(3);
    shard.play(&mint(3, 4)).expect("the token is given");
    let token = "Token { id: TokenId { shard: 3, creator: 0, index: 4 }, \
        owner: 16909060, amount: 1000, pledge: None }";
    let rest = format!("tokens: [{token}], transactions: [] }}");
    let shown = format!("Shard {{ number: 3, turned: false, {rest}");
    assert_eq!(format!("{shard:?}"), shown);
    shard.play(&turn(3)).expect("it was not turned");
    let turned = format!("Shard {{ number: 3, turned: true, {rest}");
    assert_eq!(format!("{shard:?}"), turned);

    let mut cluster = Cluster::new();
    cluster.play(&mint(3, 4)).expect("the token is given");
    let text = format!("{cluster:?}");
    let empty = "Shard { number: 0, turned: false, tokens: [], transactions: [] }";
    assert!(text.starts_with(&format!("Cluster [{empty}, ")), "{text}");
    assert!(text.contains(&shown), "{text}");
    assert_eq!(text.matches("number").count(), 8);
}
