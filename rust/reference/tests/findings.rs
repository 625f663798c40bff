//! Document 02's slip 2, sentence by sentence: which token spoiled it.
//!
//! Most tests are about shard 1, which holds four genesis tokens, the indices 0
//! to 3, each of owner 20 and amount 4. Transaction 3 waits for the vote of shard
//! 2, and the fourth token is pledged to it.

#[path = "common/answers.rs"]
mod answers;
#[path = "common/records.rs"]
mod records;

use reference::{
    Cluster, Done, Finding, Findings, LIMITS, Outcome, Refusal, SLOTS, Shard, Transaction, Verdict,
};

use Finding::{Available, NotHeld, OtherAmount, OtherOwner, Pledged};
use Outcome::{Abort, Commit, Wait};
use Verdict::{No, Yes};
use answers::registered;
use records::{InputFields, mint, register, transaction};

const FIRST: InputFields = (1, 0, 0, 20, 4);
const SECOND: InputFields = (1, 0, 1, 20, 4);
const THIRD: InputFields = (1, 0, 2, 20, 4);
const PLEDGED: InputFields = (1, 0, 3, 20, 4);

/// Nobody has given index 9.
const NOT_HELD: InputFields = (1, 0, 9, 20, 4);
/// Of shard 0, else the first.
const ELSEWHERE: InputFields = (0, 0, 0, 20, 4);

/// Takes these, and gives their sum at that shard.
fn taking(number: u32, inputs: &[InputFields], shard: u8) -> Transaction {
    let sum = inputs.iter().map(|input| input.4).sum();
    transaction(number, inputs, &[(shard, 30, sum)])
}

/// Transaction 3.
fn waiting() -> Transaction {
    taking(3, &[PLEDGED], 2)
}

/// Shard 1.
fn holding() -> Shard {
    let mut shard = Shard::new(1, LIMITS);
    for index in 0..4 {
        assert_eq!(shard.play(&mint(1, index, 20, 4)), Ok(Done::Minted));
    }
    let answer = shard.play(&register(1, waiting()));
    assert_eq!(answer, registered(Yes, Wait));
    shard
}

/// These, and nothing behind them.
fn found(findings: &[Finding]) -> Result<Findings, Refusal> {
    let mut all = [None; SLOTS];
    for (place, &finding) in all.iter_mut().zip(findings) {
        *place = Some(finding);
    }
    Ok(all)
}

/// What shard 1 finds of these inputs, by a registration and by a vote that
/// brings the transaction, and how it votes on it.
fn look(inputs: &[InputFields]) -> (Vec<Finding>, Verdict) {
    let transaction = taking(5, inputs, 2);
    let (mut called, mut brought) = (holding(), holding());
    let answer = called.play(&register(1, transaction));
    let Ok(Done::Registered { verdict, .. }) = answer else {
        panic!("{answer:?}");
    };
    let answer = brought.hear(1, 2, 1, &transaction);
    assert!(matches!(answer, Ok(Done::Brought { .. })), "{answer:?}");
    let findings = called.findings(1, 5).expect("it is known");
    assert_eq!(brought.findings(1, 5), Ok(findings));
    (findings.into_iter().flatten().collect(), verdict)
}

#[test]
fn each_finding() {
    let cases = [
        (FIRST, Available),
        (NOT_HELD, NotHeld),
        ((1, 0, 0, 21, 4), OtherOwner),
        ((1, 0, 0, 20, 5), OtherAmount),
        (PLEDGED, Pledged(3)),
    ];
    for (input, finding) in cases {
        let verdict = if finding == Available { Yes } else { No };
        assert_eq!(look(&[input]), (vec![finding], verdict), "{input:?}");
    }
    // Held under another creator, and at another index of a transaction.
    assert_eq!(look(&[(1, 4, 0, 20, 4)]), (vec![NotHeld], No));
    assert_eq!(look(&[(1, 4, 3, 20, 4)]), (vec![NotHeld], No));
}

/// The first fitting finding counts: the owner before the amount, and both before
/// the pledge.
#[test]
fn the_first_that_fits() {
    assert_eq!(look(&[(1, 0, 0, 21, 5)]), (vec![OtherOwner], No));
    assert_eq!(look(&[(1, 0, 3, 21, 5)]), (vec![OtherOwner], No));
    assert_eq!(look(&[(1, 0, 3, 21, 4)]), (vec![OtherOwner], No));
    assert_eq!(look(&[(1, 0, 3, 20, 5)]), (vec![OtherAmount], No));
    // A token that is not held has no owner, no amount and no pledge.
    assert_eq!(look(&[(1, 0, 9, 21, 5)]), (vec![NotHeld], No));
}

/// One for each input at this shard, in input order, whatever stands between.
#[test]
fn in_input_order() {
    let all = [PLEDGED, NOT_HELD, FIRST, (1, 0, 1, 20, 7)];
    let findings = vec![Pledged(3), NotHeld, Available, OtherAmount];
    assert_eq!(look(&all), (findings, No));
    let between = [ELSEWHERE, SECOND, (0, 0, 9, 20, 4), PLEDGED];
    assert_eq!(look(&between), (vec![Available, Pledged(3)], No));
    let around = [THIRD, ELSEWHERE, (2, 0, 3, 20, 4), FIRST];
    assert_eq!(look(&around), (vec![Available, Available], Yes));
    assert_eq!(look(&[FIRST, SECOND]), (vec![Available; 2], Yes));
}

/// A shard with outputs only has no input, and nothing is found.
#[test]
fn outputs_only() {
    let mut shard = holding();
    let answer = shard.play(&register(1, taking(5, &[ELSEWHERE], 1)));
    assert_eq!(answer, registered(Yes, Wait));
    assert_eq!(shard.findings(1, 5), found(&[]));
}

/// The pledges of the registration itself are no part of what it finds: they
/// come behind.
#[test]
fn before_its_own_pledges() {
    let mut shard = holding();
    let partly = taking(5, &[FIRST, NOT_HELD, SECOND], 2);
    assert_eq!(shard.play(&register(1, partly)), registered(No, Abort));
    assert_eq!(
        shard.findings(1, 5),
        found(&[Available, NotHeld, Available])
    );
    assert_eq!(shard.tokens()[0].pledge, Some(5));
    // For the next one they count, each with its transaction's number.
    let next = taking(6, &[SECOND, THIRD, PLEDGED], 2);
    assert_eq!(shard.play(&register(1, next)), registered(No, Abort));
    let findings = [Pledged(5), Available, Pledged(3)];
    assert_eq!(shard.findings(1, 6), found(&findings));
}

/// A transaction may name what it is to make itself: that is not held.
#[test]
fn its_own_future_output() {
    let mut shard = holding();
    let own = transaction(5, &[(1, 5, 0, 30, 4), FIRST], &[(1, 30, 4), (1, 30, 4)]);
    assert_eq!(shard.play(&register(1, own)), registered(No, Abort));
    assert_eq!(shard.findings(1, 5), found(&[NotHeld, Available]));
}

/// What was found stays, whatever becomes of the tokens: after an abort and a
/// turn the first is free again, after a commit the fourth is gone.
#[test]
fn what_was_found_stays() {
    let mut shard = holding();
    let vain = taking(5, &[FIRST, NOT_HELD], 2);
    let late = taking(6, &[FIRST, PLEDGED], 2);
    for transaction in [vain, late] {
        assert_eq!(shard.play(&register(1, transaction)), registered(No, Abort));
    }
    let before = [
        found(&[Available, NotHeld]),
        found(&[Pledged(5), Pledged(3)]),
    ];
    let numbers = |shard: &Shard| [5, 6].map(|number| shard.findings(1, number));
    assert_eq!(numbers(&shard), before);
    assert_eq!(shard.turn(1), Ok(Done::Turned));
    assert_eq!(shard.tokens()[0].pledge, None);
    assert_eq!(numbers(&shard), before);
    assert_eq!(shard.hear(1, 2, 1, &waiting()), Ok(Done::Heard(Commit)));
    assert_eq!(shard.tokens().len(), 3);
    assert_eq!(shard.hear(1, 2, 0, &vain), Ok(Done::Heard(Abort)));
    assert_eq!(numbers(&shard), before);
    assert_eq!(shard.findings(1, 3), found(&[Available]));
    // Now the first is available, and the fourth is not held.
    let again = taking(7, &[FIRST, PLEDGED], 2);
    assert_eq!(shard.play(&register(1, again)), registered(No, Abort));
    assert_eq!(shard.findings(1, 7), found(&[Available, NotHeld]));
}

/// Also where the commit that comes with the registration takes the tokens.
#[test]
fn of_one_that_is_committed_at_once() {
    let mut shard = holding();
    let local = taking(5, &[SECOND, FIRST], 1);
    assert_eq!(shard.play(&register(1, local)), registered(Yes, Commit));
    assert_eq!(shard.findings(1, 5), found(&[Available, Available]));
    let made = (1, 5, 0, 30, 8);
    let next = taking(6, &[FIRST, made], 2);
    assert_eq!(shard.play(&register(1, next)), registered(No, Abort));
    assert_eq!(shard.findings(1, 6), found(&[NotHeld, Available]));
}

/// At a turned shard the abort that comes with the vote frees the token at once;
/// it was available all the same.
#[test]
fn of_one_that_a_no_brings() {
    let mut shard = holding();
    assert_eq!(shard.turn(1), Ok(Done::Turned));
    let brought = Done::Brought {
        verdict: Yes,
        outcome: Abort,
    };
    let transaction = taking(5, &[FIRST], 2);
    assert_eq!(shard.hear(1, 2, 0, &transaction), Ok(brought));
    assert_eq!(shard.tokens()[0].pledge, None);
    assert_eq!(shard.findings(1, 5), found(&[Available]));
}

/// What is refused is not registered, and nothing is found: held off, and too
/// late for a number that another transaction has.
#[test]
fn of_what_is_not_registered() {
    let mut shard = holding();
    let making = taking(5, &[ELSEWHERE], 1);
    assert_eq!(shard.play(&register(1, making)), registered(Yes, Wait));
    let behind = taking(6, &[(1, 5, 0, 30, 4)], 2);
    let answer = shard.play(&register(1, behind));
    assert_eq!(answer, Err(Refusal::HeldOff));
    assert_eq!(shard.hear(1, 2, 1, &behind), Err(Refusal::HeldOff));
    assert_eq!(shard.findings(1, 6), Err(Refusal::NoSuchNumber));
    // The findings are those of the transaction that has the number here.
    let other = taking(5, &[FIRST, SECOND], 2);
    let answer = shard.play(&register(1, other));
    assert_eq!(answer, Err(Refusal::NumberTaken));
    assert_eq!(shard.findings(1, 5), found(&[]));
    // Held off no longer, it is registered, and its finding is of then.
    assert_eq!(shard.hear(1, 0, 0, &making), Ok(Done::Heard(Abort)));
    assert_eq!(shard.play(&register(1, behind)), registered(No, Abort));
    assert_eq!(shard.findings(1, 6), found(&[NotHeld]));
}

/// 3 for a shard or a number that there is not, and at a lone shard for another
/// one; 18 behind it. Nothing is changed.
#[test]
fn refused_questions() {
    let shard = holding();
    let before = shard.clone();
    for other in (0..=255).filter(|&other| other != 1) {
        assert_eq!(shard.findings(other, 3), Err(Refusal::OutOfRange));
        assert_eq!(shard.findings(other, 4), Err(Refusal::OutOfRange));
    }
    assert_eq!(shard.findings(1, 0), Err(Refusal::OutOfRange));
    for number in [1, 2, 4, 1 << 31, u32::MAX] {
        assert_eq!(shard.findings(1, number), Err(Refusal::NoSuchNumber));
    }
    assert_eq!(shard.findings(1, 3), found(&[Available]));
    assert_eq!(shard, before);
    let numbers = [Refusal::OutOfRange, Refusal::NoSuchNumber].map(Refusal::number);
    assert_eq!(numbers, [3, 18]);
}

/// In a cluster each shard has its own: one number, two transactions, and shards
/// that do not know it.
#[test]
fn in_a_cluster() {
    let mut cluster = Cluster::new(LIMITS);
    for shard in 0..4 {
        assert_eq!(cluster.mint(shard, 0, 20, 4), Ok(Done::Minted));
    }
    let both = taking(7, &[(0, 0, 0, 20, 4), (1, 0, 1, 20, 4)], 1);
    let other = taking(7, &[(2, 0, 0, 21, 4), (3, 0, 0, 20, 4)], 3);
    assert_eq!(cluster.register(0, &both), registered(Yes, Wait));
    assert_eq!(cluster.findings(1, 7), Err(Refusal::NoSuchNumber));
    let brought = Done::Brought {
        verdict: No,
        outcome: Abort,
    };
    assert_eq!(cluster.deliver(1, 0, 1, &both), Ok(brought));
    assert_eq!(cluster.register(3, &other), registered(Yes, Wait));
    assert_eq!(cluster.register(2, &other), registered(No, Abort));
    assert_eq!(cluster.findings(0, 7), found(&[Available]));
    assert_eq!(cluster.findings(1, 7), found(&[NotHeld]));
    assert_eq!(cluster.findings(2, 7), found(&[OtherOwner]));
    assert_eq!(cluster.findings(3, 7), found(&[Available]));
    assert_eq!(cluster.findings(4, 7), Err(Refusal::NoSuchNumber));
    assert_eq!(cluster.findings(0, 6), Err(Refusal::NoSuchNumber));
    for shard in 8..=255 {
        assert_eq!(cluster.findings(shard, 7), Err(Refusal::OutOfRange));
    }
    for shard in 0..8 {
        assert_eq!(cluster.findings(shard, 0), Err(Refusal::OutOfRange));
    }
}
