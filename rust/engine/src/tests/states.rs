//! States read off words by hand, and findings in both sides' types.

use std::panic::catch_unwind;

use plankeeper::{Cluster, Input, Output, TokenId, Transaction};
use reference::{Finding, Refusal};

use Finding::{Available, NotHeld, OtherAmount, OtherOwner, Pledged};

use crate::places::{ShardWords, name};
use crate::{State, findings, findings_words, shards};

/// Shard 1 has found two things of transaction 5, whose second input is another
/// shard's.
fn words() -> ShardWords {
    let input = |shard, index, owner| Input {
        token: TokenId {
            shard,
            creator: 0,
            index,
        },
        owner,
        amount: 3,
    };
    let output = Output {
        shard: 2,
        owner: 10,
        amount: 9,
    };
    let transaction = Transaction::new(5)
        .input(input(1, 0, 20))
        .input(input(0, 0, 10))
        .input(input(1, 9, 10))
        .output(output);
    let mut cluster = Cluster::new();
    cluster.mint(1, 0, 10, 3).expect("the token is given");
    cluster.register(1, &transaction).expect("it is registered");
    shards(&cluster)[1]
}

/// Where the findings of the first known transaction stand.
const FIRST: usize = 772 + 43;

#[test]
fn findings_in_a_state() {
    let read = |words: &ShardWords| State::of(words).known[0].findings;
    let found = [Some(OtherOwner), Some(NotHeld), None, None];
    assert_eq!(read(&words()), found);
    for (what, number, finding) in [
        (1, 0, Available),
        (2, 0, NotHeld),
        (3, 0, OtherOwner),
        (4, 0, OtherAmount),
        (5, 7, Pledged(7)),
    ] {
        let mut words = words();
        words[FIRST + 2] = what;
        words[FIRST + 3] = number;
        assert_eq!(read(&words)[1], Some(finding));
    }
    // What is none, and one behind the last.
    let odd = [(0, 0), (0, 6), (1, 1), (1, 0x0100_0001), (3, 1), (4, 2)];
    for (place, word) in odd {
        let mut words = words();
        words[FIRST + place] = word;
        let read = catch_unwind(|| State::of(&words));
        assert!(read.is_err(), "{word} at {place}");
    }
}

/// Findings that differ make states that differ.
#[test]
fn findings_are_part_of_a_state() {
    let (before, mut words) = (State::of(&words()), words());
    assert_eq!(State::of(&words), before);
    words[FIRST] = 4;
    assert_ne!(State::of(&words), before);
}

#[test]
fn names_of_words() {
    let named = [
        (FIRST - 44, "token 127, pledge"),
        (FIRST - 43, "transaction 0, word 0"),
        (FIRST - 1, "transaction 0, verdict of shard 7"),
        (FIRST, "transaction 0, finding 0, what was found"),
        (FIRST + 7, "transaction 0, finding 3, pledging transaction"),
        (FIRST + 8, "transaction 1, word 0"),
        (2403, "transaction 31, finding 3, pledging transaction"),
    ];
    for (place, expected) in named {
        assert_eq!(name(place), expected);
    }
}

#[test]
fn findings_and_their_words() {
    const LENT: [u32; 8] = [9; 8];
    let found = [Some(Pledged(3)), Some(OtherAmount), None, None];
    let words = [5, 3, 4, 0, 0, 0, 0, 0];
    assert_eq!(findings_words(Ok(found), LENT), (702, words));
    assert_eq!(findings_words(Ok([None; 4]), LENT), (700, [0; 8]));
    let all = [Available, NotHeld, OtherOwner, Pledged(u32::MAX)];
    let words = [1, 0, 2, 0, 3, 0, 5, u32::MAX];
    assert_eq!(findings_words(Ok(all.map(Some)), LENT), (704, words));
    let refused = findings_words(Err(Refusal::NoSuchNumber), LENT);
    assert_eq!(refused, (18, LENT));
    let refused = Err(plankeeper::Refusal::NoSuchNumber);
    assert_eq!(findings(refused), Err(Refusal::NoSuchNumber));
}
