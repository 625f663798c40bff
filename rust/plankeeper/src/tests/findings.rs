//! What is found of a transaction's inputs, by hand: codes, words and types, in a
//! cluster and at a lone shard.

use super::story::{AMOUNT, OWNER, mint, no, register, transaction, turn, yes};
use crate::boundary::{ClusterMemory, FINDINGS_WORDS, FindingsWords, Memory, ShardMemory};
use crate::{
    Cluster, Finding, Input, Ledger, Output, Record, Refusal, Shard, TokenId, Transaction,
};

use Finding::{Available, NotHeld, OtherAmount, OtherOwner, Pledged};

/// What the words are before the library is asked.
const LENT: FindingsWords = [9; FINDINGS_WORDS];

/// A genesis token as an input names it.
fn named(shard: u8, index: u8, owner: u32, amount: u32) -> Input {
    let token = TokenId {
        shard,
        creator: 0,
        index,
    };
    Input {
        token,
        owner,
        amount,
    }
}

/// Takes these, and gives their sum at shard 2.
fn taking(number: u32, inputs: &[Input]) -> Transaction {
    let amount = inputs.iter().map(|input| input.amount).sum();
    let output = Output {
        shard: 2,
        owner: OWNER,
        amount,
    };
    let taking = inputs
        .iter()
        .fold(Transaction::new(number), |taking, &input| {
            taking.input(input)
        });
    taking.output(output)
}

/// Shard 1 finds the five, in three transactions: by registrations and by a vote
/// of shard 2.
fn story() -> Vec<Record> {
    let mine = |index| named(1, index, OWNER, AMOUNT);
    let first = taking(5, &[mine(0)]);
    let second = taking(
        6,
        &[
            mine(0),
            // Of two causes the first counts.
            named(1, 1, OWNER + 1, AMOUNT + 1),
            mine(9),
            named(1, 2, OWNER, AMOUNT + 1),
        ],
    );
    let third = taking(7, &[named(0, 0, OWNER, AMOUNT), mine(8), mine(1)]);
    let outputs_only = transaction(8, &[(3, 0)], &[1]);
    vec![
        mint(1, 0),
        mint(1, 1),
        mint(1, 2),
        register(1, first),
        register(1, second),
        register(2, third),
        yes(2, 1, third),
        register(1, outputs_only),
    ]
}

/// A number, the code, the words and what they stand for.
type Told<'a> = (u32, u32, FindingsWords, &'a [Finding]);

const FOUND: [Told; 4] = [
    (5, 701, [1, 0, 0, 0, 0, 0, 0, 0], &[Available]),
    (
        6,
        704,
        [5, 5, 3, 0, 2, 0, 4, 0],
        &[Pledged(5), OtherOwner, NotHeld, OtherAmount],
    ),
    (7, 702, [2, 0, 1, 0, 0, 0, 0, 0], &[NotHeld, Available]),
    (8, 700, [0; FINDINGS_WORDS], &[]),
];

/// Asks shard 1 for each, by words and in types.
fn check<M: Memory>(ledger: &Ledger<M>) {
    for (number, code, words, findings) in FOUND {
        let mut lent = LENT;
        assert_eq!(ledger.memory().findings(1, number, &mut lent), code);
        assert_eq!(lent, words, "transaction {number}");
        let told = ledger.findings(1, number).expect("it is known");
        assert_eq!(*told, *findings, "transaction {number}");
    }
}

/// They stay what they were at the registrations: 5 is aborted, and the token
/// that was pledged to it comes free.
#[test]
fn found_and_kept() {
    let (mut cluster, mut shard) = (Cluster::new(), Shard::new(1));
    for record in story() {
        cluster.play(&record).expect("it is carried out");
        let alone = shard.play(&record);
        assert_eq!(alone.is_ok(), record.receiver() == 1);
    }
    check(&cluster);
    check(&shard);
    let first = taking(5, &[named(1, 0, OWNER, AMOUNT)]);
    shard.play(&no(2, 1, first)).expect("it is heard");
    check(&shard);
    for record in [register(2, first), yes(2, 1, first), turn(1)] {
        cluster.play(&record).expect("it is carried out");
        check(&cluster);
    }
    shard.play(&turn(1)).expect("it was not turned");
    assert_eq!(shard.tokens().next().expect("the first").pledge, None);
    check(&shard);
}

/// 3 goes before 18. Nothing is changed, the lent words included.
#[test]
fn refused_questions() {
    let (mut cluster, mut shard) = (Cluster::new(), Shard::new(1));
    for record in story() {
        let _ = (cluster.play(&record), shard.play(&record));
    }
    let words = (*cluster.memory().words(), *shard.memory().words());
    let check = |asked: (u32, u32), in_cluster: u32, alone: u32| {
        let (number, transaction) = asked;
        let mut lent = LENT;
        let code = cluster.memory().findings(number, transaction, &mut lent);
        assert_eq!((code, lent), (in_cluster, LENT), "{asked:?}");
        let code = shard.memory().findings(number, transaction, &mut lent);
        assert_eq!((code, lent), (alone, LENT), "{asked:?}");
    };
    for none in [8, 15, 255, 256, 257, 0x0101_0101, u32::MAX] {
        for transaction in [0, 4, 5, u32::MAX] {
            check((none, transaction), 3, 3);
        }
    }
    check((1, 0), 3, 3);
    check((2, 0), 3, 3);
    for unknown in [1, 4, 9, 256 + 5, 1 << 31, u32::MAX] {
        check((1, unknown), 18, 18);
        check((0, unknown), 18, 3);
    }
    // Shard 3 is one of 8's, and has not registered it.
    check((3, 8), 18, 3);
    assert_eq!(cluster.findings(8, 5), Err(Refusal::OutOfRange));
    assert_eq!(cluster.findings(1, 0), Err(Refusal::OutOfRange));
    assert_eq!(cluster.findings(1, 9), Err(Refusal::NoSuchNumber));
    assert_eq!(shard.findings(2, 5), Err(Refusal::OutOfRange));
    assert_eq!(shard.findings(1, 9), Err(Refusal::NoSuchNumber));
    assert_eq!(words.0, *cluster.memory().words());
    assert_eq!(words.1, *shard.memory().words());
}

/// A lone shard of a number that there is not knows nothing, and refuses.
#[test]
fn shards_that_there_are_not() {
    for number in [8, 255] {
        let shard = Shard::new(number);
        for asked in [number, 0, 1] {
            assert_eq!(shard.findings(asked, 5), Err(Refusal::OutOfRange));
        }
    }
}

/// Empty ones know no number.
#[test]
fn of_empty_shards() {
    let mut lent = LENT;
    let (cluster, shard) = (ClusterMemory::new(), ShardMemory::new(7));
    assert_eq!(cluster.findings(7, 1, &mut lent), 18);
    assert_eq!(shard.findings(7, 1, &mut lent), 18);
    assert_eq!(lent, LENT);
}

/// Read as a slice, and shown as one.
#[test]
fn findings_are_shown() {
    let mut shard = Shard::new(1);
    for record in story() {
        let _ = shard.play(&record);
    }
    let findings = shard.findings(1, 6).expect("it is known");
    let shown = "[Pledged(5), OtherOwner, NotHeld, OtherAmount]";
    assert_eq!(format!("{findings:?}"), shown);
    let words: Vec<String> = findings.iter().map(Finding::to_string).collect();
    let expected = [
        "pledged to transaction 5",
        "other owner",
        "not held",
        "other amount",
    ];
    assert_eq!(words, expected);
    assert_eq!(Available.to_string(), "available");
    let (all, none) = (shard.findings(1, 7), shard.findings(1, 8));
    assert_ne!(all, none);
    assert_eq!(none.map(|none| none.len()), Ok(0));
}
