//! Answers' codes.

use std::collections::BTreeSet;
use std::panic::catch_unwind;

use super::story::{Told, cluster_story, encode, shard_stories};
use crate::answer::answered;
use crate::boundary::{Memory, taken};
use crate::finding::found;
use crate::reading::refused;
use crate::{
    Answer, Cluster, Ledger, Outcome, Record, Refusal, Shard, Verdict, answer_code,
    answer_from_code, written_from_code,
};

/// The call's code by its words.
fn code<M: Memory>(memory: &mut M, record: &Record) -> u32 {
    match *record {
        Record::Mint {
            receiver,
            index,
            owner,
            amount,
        } => memory.mint(receiver.into(), index.into(), owner, amount),
        Record::Register {
            receiver,
            transaction,
        } => memory.register(receiver.into(), transaction.words()),
        Record::Vote {
            receiver,
            sender,
            verdict,
            transaction,
        } => memory.deliver(
            receiver.into(),
            sender.into(),
            (verdict == Verdict::Yes).into(),
            transaction.words(),
        ),
        Record::Turn { receiver } => memory.turn(receiver.into()),
    }
}

/// Makes the calls, compares the codes and sees that refused calls and repeats
/// leave all words as they were. The same calls with types have the same
/// answers and leave the same words.
fn play<M: Memory + Clone>(ledger: &mut Ledger<M>, told: &[Told], codes: &mut BTreeSet<u32>) {
    for (record, expected) in told {
        let mut typed = ledger.clone();
        let before = ledger.memory().words().as_ref().to_vec();
        let code = code(ledger.memory_mut(), record);
        assert_eq!(code, *expected, "{record:?}");
        let after = ledger.memory().words().as_ref();
        let changed = *after != before;
        let carried_out = matches!(code, 100..400 | 500..);
        assert_eq!(changed, carried_out, "{record:?}: {code}");
        codes.insert(code);

        let answer = typed.play(record);
        assert_eq!(answer_from_code(code), Some(answer), "{record:?}");
        assert_eq!(after, typed.memory().words().as_ref(), "{record:?}");
    }
}

#[test]
fn codes_of_a_cluster() {
    let mut codes = BTreeSet::new();
    play(&mut Cluster::new(), &cluster_story(), &mut codes);
    let every = [
        3, 4, 5, 6, 7, 8, 9, 10, 13, 14, 16, 17, 19, 100, 202, 210, 211, 300, 301, 302, 400, 401,
        402, 500, 602, 610, 611, 612,
    ];
    assert_eq!(codes, every.into());
}

#[test]
fn codes_of_a_shard() {
    let mut codes = BTreeSet::new();
    for (number, told) in shard_stories() {
        play(&mut Shard::new(number), &told, &mut codes);
    }
    let every = [
        3, 4, 5, 6, 7, 8, 9, 10, 11, 12, 13, 14, 17, 19, 100, 202, 210, 211, 300, 301, 302, 400,
        401, 402, 500, 602, 610, 611, 612,
    ];
    assert_eq!(codes, every.into());
}

/// There is no shard 8: whatever it is called with, it refuses with 3.
#[test]
fn shards_that_there_are_not() {
    for number in [8, 9, 254, 255] {
        let mut shard = Shard::new(number);
        let before = *shard.memory().words();
        for (record, _) in shard_stories().iter().flat_map(|(_, told)| told) {
            let own = match *record {
                Record::Mint {
                    index,
                    owner,
                    amount,
                    ..
                } => shard.mint(number, index, owner, amount),
                Record::Register { transaction, .. } => shard.register(number, &transaction),
                Record::Vote {
                    sender,
                    verdict,
                    transaction,
                    ..
                } => shard.deliver(number, sender, verdict, &transaction),
                Record::Turn { .. } => shard.turn(number),
            };
            assert!(own.is_err(), "shard {number}: {record:?}");
            assert_eq!(shard.play(record), Err(Refusal::OutOfRange), "{record:?}");
        }
        assert_eq!(*shard.memory().words(), before, "shard {number}");
    }
}

/// The same calls by their bytes, with the two refusals that only bytes have.
#[test]
fn codes_of_bytes() {
    let (mut fields, mut cluster) = (Cluster::new(), Cluster::new());
    let words = |cluster: &Cluster| *cluster.memory().words();
    for (record, expected) in cluster_story() {
        let mut bytes = encode(&record);
        let whole = bytes.len();
        assert_eq!(whole, record.length());
        let memory = cluster.memory_mut();
        for length in 0..whole {
            assert_eq!(memory.apply(&bytes[..length]), 2, "{length} bytes");
            assert_eq!(taken(&bytes[..length]), length);
        }
        for kind in [0, 5, 255] {
            let mut unknown = bytes.clone();
            unknown[0] = kind;
            assert_eq!(memory.apply(&unknown), 1, "kind {kind}");
            assert_eq!(taken(&unknown), whole);
        }
        assert_eq!(words(&cluster), words(&fields), "nothing is changed");
        bytes.extend([1, 2, 3]);
        assert_eq!(taken(&bytes), whole);
        let answer = cluster.apply(&bytes);
        assert_eq!(answer_code(&answer), expected, "{record:?}");
        assert_eq!(code(fields.memory_mut(), &record), expected);
        assert_eq!(words(&cluster), words(&fields), "{record:?}");
    }
}

#[test]
fn calls_answers_are_told_apart() {
    let registered = |verdict, outcome| Ok(Answer::Registered { verdict, outcome });
    let brought = |verdict, outcome| Ok(Answer::Brought { verdict, outcome });
    let answers: [(u32, &str, Result<Answer, Refusal>); 20] = [
        (100, "OPENED", Ok(Answer::Minted)),
        (200, "NO WAIT", registered(Verdict::No, Outcome::Wait)),
        (201, "NO COMMIT", registered(Verdict::No, Outcome::Commit)),
        (202, "NO ABORT", registered(Verdict::No, Outcome::Abort)),
        (210, "YES WAIT", registered(Verdict::Yes, Outcome::Wait)),
        (211, "YES COMMIT", registered(Verdict::Yes, Outcome::Commit)),
        (212, "YES ABORT", registered(Verdict::Yes, Outcome::Abort)),
        (300, "HEARD WAIT", Ok(Answer::Heard(Outcome::Wait))),
        (301, "HEARD COMMIT", Ok(Answer::Heard(Outcome::Commit))),
        (302, "HEARD ABORT", Ok(Answer::Heard(Outcome::Abort))),
        (400, "AGAIN WAIT", Ok(Answer::Again(Outcome::Wait))),
        (401, "AGAIN COMMIT", Ok(Answer::Again(Outcome::Commit))),
        (402, "AGAIN ABORT", Ok(Answer::Again(Outcome::Abort))),
        (500, "TURNED", Ok(Answer::Turned)),
        (600, "NO WAIT", brought(Verdict::No, Outcome::Wait)),
        (601, "NO COMMIT", brought(Verdict::No, Outcome::Commit)),
        (602, "NO ABORT", brought(Verdict::No, Outcome::Abort)),
        (610, "YES WAIT", brought(Verdict::Yes, Outcome::Wait)),
        (611, "YES COMMIT", brought(Verdict::Yes, Outcome::Commit)),
        (612, "YES ABORT", brought(Verdict::Yes, Outcome::Abort)),
    ];
    for (code, text, answer) in answers {
        assert_eq!(answer_from_code(code), Some(answer), "{code}");
        assert_eq!(answer_code(&answer), code, "{answer:?}");
        assert_eq!(answer.map(|answer| answer.to_string()), Ok(text.into()));
    }
    for (number, refusal) in (1..=19).zip(Refusal::ALL) {
        assert_eq!(answer_from_code(number), Some(Err(refusal)), "{number}");
        assert_eq!(answer_code(&Err(refusal)), number, "{refusal:?}");
    }
    // No other number is one.
    let codes = (0..100_000).filter(|&code| answer_from_code(code).is_some());
    assert_eq!(codes.count(), 20 + 19);
    for odd in [
        0,
        20,
        99,
        101,
        203,
        259,
        310,
        403,
        501,
        603,
        609,
        613,
        700,
        u32::MAX,
    ] {
        assert_eq!(answer_from_code(odd), None, "{odd} passed for an answer");
        assert!(catch_unwind(|| answered(odd)).is_err(), "{odd}");
    }
}

#[test]
fn readers_answers_are_told_apart() {
    assert_eq!(refused(0), None);
    assert_eq!(refused(2), Some(Refusal::TooShort));
    assert_eq!(refused(5), Some(Refusal::SumsDiffer));
    for odd in [6, 15, 100, 255, 256, 259, u32::MAX] {
        assert!(catch_unwind(|| refused(odd)).is_err(), "{odd}");
    }
}

#[test]
fn answers_to_questions_for_findings_are_told_apart() {
    let words = [1, 0, 2, 0, 4, 0, 5, 1];
    assert_eq!(found(3, &words), Err(Refusal::OutOfRange));
    assert_eq!(found(18, &words), Err(Refusal::NoSuchNumber));
    let counts = [700, 701, 702, 703, 704].map(|code| found(code, &words).map(|all| all.len()));
    assert_eq!(counts, [0, 1, 2, 3, 4].map(Ok));
    for odd in [0, 1, 11, 17, 19, 100, 600, 699, 705, 956, u32::MAX] {
        assert!(catch_unwind(|| found(odd, &words)).is_err(), "{odd}");
    }
    // Words that are no finding, where they count.
    for odd in [[0, 0], [1, 1], [2, 5], [4, 1], [5, 0], [6, 0], [257, 0]] {
        let words = [1, 0, odd[0], odd[1], 0, 0, 0, 0];
        assert!(found(701, &words).is_ok(), "{odd:?}");
        assert!(catch_unwind(|| found(702, &words)).is_err(), "{odd:?}");
    }
}

#[test]
fn writers_answers_are_told_apart() {
    assert_eq!(written_from_code(102, 102), Some(Ok(102)));
    assert_eq!(written_from_code(102, 3000), Some(Err(Refusal::OutOfRange)));
    assert_eq!(
        written_from_code(11, 15000),
        Some(Err(Refusal::BufferTooShort))
    );
    for odd in [
        0,
        100,
        101,
        255,
        1001,
        2500,
        6000,
        15001,
        17000,
        259_000,
        u64::MAX,
    ] {
        assert_eq!(written_from_code(102, odd), None, "{odd}");
    }
}
