//! Document 02's slip 4, sentence by sentence: tokens come free after an abort.
//!
//! Shard 1 holds three genesis tokens. Transaction 5 takes the first of them and
//! one of shard 0, and is to make a token at shard 2: shard 1 votes yes on it and
//! waits for two votes, and one no aborts it.

#[path = "common/answers.rs"]
mod answers;
#[path = "common/records.rs"]
mod records;

use reference::{
    Answer, Cluster, Done, LIMITS, Limits, Outcome, Reading, Record, Refusal, Shard, Token,
    Transaction, Verdict, read, rest, write,
};

use Outcome::{Abort, Commit, Wait};
use Verdict::{No, Yes};
use answers::registered;
use records::{mint, register, transaction};

const HEARD_ABORT: Answer = Ok(Done::Heard(Abort));
const TURNED: Answer = Ok(Done::Turned);

/// Takes the token of this index at shard 1, and one of shard 0.
fn shared(number: u32, index: u8) -> Transaction {
    let inputs = [(1, 0, index, 20, 4), (0, 0, 0, 10, 3)];
    transaction(number, &inputs, &[(2, 30, 7)])
}

/// Takes the token of this index at shard 1, and nothing elsewhere.
fn local(number: u32, index: u8) -> Transaction {
    transaction(number, &[(1, 0, index, 20, 4)], &[(1, 40, 4)])
}

/// Takes the token of this index at shard 1, and one that is not there.
fn partly(number: u32, index: u8) -> Transaction {
    let inputs = [(1, 0, index, 20, 4), (1, 0, 99, 20, 4)];
    transaction(number, &inputs, &[(2, 20, 8)])
}

/// Shard 1 with its tokens.
fn holding(limits: Limits) -> Shard {
    let mut shard = Shard::new(1, limits);
    for index in 0..3 {
        assert_eq!(shard.play(&mint(1, index, 20, 4)), Ok(Done::Minted));
    }
    shard
}

/// Shard 1 waits for the votes of 0 and 2 on transaction 5.
fn waiting() -> Shard {
    let mut shard = holding(LIMITS);
    let answer = shard.play(&register(1, shared(5, 0)));
    assert_eq!(answer, registered(Yes, Wait));
    shard
}

/// Shard 1 has aborted transaction 5 by the no of shard 0.
fn aborted() -> Shard {
    let mut shard = waiting();
    assert_eq!(hear(&mut shard, 0, No, &shared(5, 0)), HEARD_ABORT);
    shard
}

fn hear(shard: &mut Shard, sender: u8, verdict: Verdict, transaction: &Transaction) -> Answer {
    shard.hear(1, sender, u8::from(verdict == Yes), transaction)
}

fn turn(shard: &mut Shard) {
    assert!(!shard.is_turned());
    assert_eq!(shard.play(&Record::Turn { receiver: 1 }), TURNED);
    assert!(shard.is_turned());
}

fn pledges(shard: &Shard) -> Vec<Option<u32>> {
    shard.tokens().iter().map(|token| token.pledge).collect()
}

/// What a token is but for its pledge.
fn unpledged(shard: &Shard) -> Vec<Token> {
    let tokens = shard.tokens().iter();
    let free = |&token| Token {
        pledge: None,
        ..token
    };
    tokens.map(free).collect()
}

/// As document 01 has it, by a no heard, by the own no, and by all votes.
#[test]
fn a_shard_that_is_not_turned_keeps_its_pledges() {
    let mut shard = aborted();
    assert_eq!(pledges(&shard), [Some(5), None, None]);
    assert_eq!(hear(&mut shard, 2, No, &shared(5, 0)), HEARD_ABORT);
    assert_eq!(shard.register(1, &partly(6, 1)), registered(No, Abort));
    assert_eq!(pledges(&shard), [Some(5), Some(6), None]);
    // A third transaction finds both bound.
    assert_eq!(shard.register(1, &local(7, 0)), registered(No, Abort));
    assert_eq!(shard.register(1, &local(8, 1)), registered(No, Abort));
    assert!(!shard.is_turned());
}

/// The turn frees what was pledged to the aborted ones, by whichever no, and
/// nothing else: neither a pledge of an undecided one nor anything but pledges.
#[test]
fn turning_frees_what_aborted_transactions_hold() {
    let mut shard = aborted();
    assert_eq!(shard.register(1, &shared(6, 1)), registered(Yes, Wait));
    assert_eq!(shard.register(1, &partly(7, 2)), registered(No, Abort));
    assert_eq!(pledges(&shard), [Some(5), Some(6), Some(7)]);
    let before = shard.clone();
    turn(&mut shard);
    assert_eq!(pledges(&shard), [None, Some(6), None]);
    assert_eq!(unpledged(&shard), unpledged(&before));
    assert_eq!(shard.known(), before.known());
    assert_eq!(shard.given(), before.given());
    assert_eq!(shard.number(), before.number());
}

/// A token that a transaction has made, pledged to another one.
#[test]
fn a_made_token_comes_free() {
    let mut shard = holding(LIMITS);
    assert_eq!(shard.register(1, &local(6, 0)), registered(Yes, Commit));
    let inputs = [(1, 6, 0, 40, 4), (0, 0, 0, 10, 1)];
    let behind = transaction(7, &inputs, &[(2, 40, 5)]);
    assert_eq!(shard.register(1, &behind), registered(Yes, Wait));
    turn(&mut shard);
    assert_eq!(pledges(&shard), [None, None, Some(7)]);
    assert_eq!(hear(&mut shard, 0, No, &behind), HEARD_ABORT);
    assert_eq!(pledges(&shard), [None, None, None]);
}

/// It comes free with the no, while the vote of shard 2 is missing, and with
/// the last vote where the no comes last.
#[test]
fn an_undecided_transaction_goes_on_and_a_later_abort_frees() {
    let five = shared(5, 0);
    let mut shard = waiting();
    turn(&mut shard);
    assert_eq!(pledges(&shard), [Some(5), None, None]);
    assert_eq!(shard.register(1, &local(7, 0)), registered(No, Abort));
    let mut late = shard.clone();
    assert_eq!(hear(&mut shard, 0, No, &five), HEARD_ABORT);
    assert_eq!(pledges(&shard), [None, None, None]);

    assert_eq!(hear(&mut late, 2, Yes, &five), Ok(Done::Heard(Wait)));
    assert_eq!(hear(&mut late, 2, Yes, &five), Ok(Done::Again(Wait)));
    assert_eq!(pledges(&late), [Some(5), None, None]);
    assert_eq!(hear(&mut late, 0, No, &five), HEARD_ABORT);
    assert_eq!(pledges(&late), [None, None, None]);
}

/// The own no: what is available is pledged and freed in the same call, and what
/// another has pledged stays with that one.
#[test]
fn an_abort_inside_a_registration_frees() {
    let mut shard = waiting();
    turn(&mut shard);
    assert_eq!(shard.register(1, &partly(6, 1)), registered(No, Abort));
    assert_eq!(pledges(&shard), [Some(5), None, None]);
    assert_eq!(shard.register(1, &partly(7, 0)), registered(No, Abort));
    assert_eq!(pledges(&shard), [Some(5), None, None]);
    // So the next one finds the token that 6 wanted.
    assert_eq!(shard.register(1, &local(8, 1)), registered(Yes, Commit));
}

/// The token that came free is available again, and is spent; whatever comes
/// later on the aborted transaction touches it no more.
#[test]
fn a_freed_token_is_pledged_again_and_spent() {
    let (five, six) = (shared(5, 0), shared(6, 0));
    let mut shard = aborted();
    turn(&mut shard);
    assert_eq!(shard.register(1, &six), registered(Yes, Wait));
    assert_eq!(pledges(&shard), [Some(6), None, None]);
    // A late vote on 5 is noted, and ends no pledge of 6.
    assert_eq!(hear(&mut shard, 2, Yes, &five), HEARD_ABORT);
    assert_eq!(hear(&mut shard, 0, No, &five), Ok(Done::Again(Abort)));
    assert_eq!(pledges(&shard), [Some(6), None, None]);
    assert_eq!(shard.register(1, &local(7, 0)), registered(No, Abort));

    assert_eq!(hear(&mut shard, 0, Yes, &six), Ok(Done::Heard(Wait)));
    assert_eq!(hear(&mut shard, 2, Yes, &six), Ok(Done::Heard(Commit)));
    assert_eq!(shard.total(), 8, "the token has gone to shard 2");
    assert_eq!(shard.register(1, &local(8, 0)), registered(No, Abort));
}

/// With the tokens of 5, which the turn leaves alone.
#[test]
fn a_commit_at_a_turned_shard() {
    let five = shared(5, 0);
    let mut shard = waiting();
    turn(&mut shard);
    assert_eq!(hear(&mut shard, 0, Yes, &five), Ok(Done::Heard(Wait)));
    assert_eq!(hear(&mut shard, 2, Yes, &five), Ok(Done::Heard(Commit)));
    assert_eq!(shard.tokens().len(), 2);
    assert_eq!(hear(&mut shard, 2, Yes, &five), Ok(Done::Again(Commit)));
    // Of this shard alone, and it makes its token here.
    assert_eq!(shard.register(1, &local(6, 1)), registered(Yes, Commit));
    let made = shard
        .tokens()
        .last()
        .map(|token| (token.creator, token.pledge));
    assert_eq!(made, Some((6, None)));
    assert_eq!(shard.total(), 8);
}

/// 3 for any other receiver, turned or not, then 19; both change nothing.
#[test]
fn three_and_then_nineteen() {
    let mut shard = aborted();
    let others = (0..=255).filter(|&receiver| receiver != 1);
    for receiver in others.clone() {
        let before = shard.clone();
        assert_eq!(shard.turn(receiver), Err(Refusal::OutOfRange));
        assert_eq!(shard, before);
    }
    turn(&mut shard);
    let before = shard.clone();
    assert_eq!(shard.turn(1), Err(Refusal::TurnedAlready));
    for receiver in others {
        assert_eq!(shard.turn(receiver), Err(Refusal::OutOfRange));
    }
    assert_eq!(shard, before);
}

/// Before any mint, between two of them, and behind the last: a turn registers
/// nothing, so 13 does not come with it, and 14 is as before.
#[test]
fn mints_around_a_turn() {
    let mut shard = Shard::new(1, LIMITS);
    turn(&mut shard);
    assert_eq!(shard.mint(1, 0, 20, 4), Ok(Done::Minted));
    assert_eq!(shard.mint(1, 0, 20, 4), Err(Refusal::IndexGiven));
    let mut between = Shard::new(1, LIMITS);
    assert_eq!(between.mint(1, 0, 20, 4), Ok(Done::Minted));
    turn(&mut between);
    assert_eq!(between, shard);
    assert_eq!(shard.mint(1, 1, 20, 4), Ok(Done::Minted));
    assert_eq!(shard.register(1, &local(5, 0)), registered(Yes, Commit));
    assert_eq!(shard.mint(1, 2, 20, 4), Err(Refusal::MintTooLate));
}

/// It stays turned, whatever comes: also a commit, a refusal, a repeat.
#[test]
fn a_turned_shard_stays_turned() {
    let mut shard = holding(LIMITS);
    turn(&mut shard);
    for (number, index) in [(5, 0), (6, 1), (7, 2)] {
        assert_eq!(
            shard.register(1, &local(number, index)),
            registered(Yes, Commit)
        );
        assert_eq!(
            shard.register(1, &local(number, index)),
            Err(Refusal::KnownAlready)
        );
        assert!(shard.is_turned());
    }
    assert_eq!(shard.turn(1), Err(Refusal::TurnedAlready));
}

/// The space that undecided transactions need is what it was (10), and so is
/// what they hold off (17): a turn decides nothing.
#[test]
fn room_and_those_held_off_are_as_before() {
    let four = Limits {
        tokens: 4,
        ..LIMITS
    };
    let giving = |number| transaction(number, &[(4, 0, 0, 40, 1)], &[(1, 40, 1)]);
    let behind = transaction(9, &[(1, 5, 0, 40, 1)], &[(2, 50, 1)]);
    let mut shard = holding(four);
    assert_eq!(shard.register(1, &giving(5)), registered(Yes, Wait));
    turn(&mut shard);
    assert_eq!(shard.register(1, &giving(6)), Err(Refusal::TokensFull));
    assert_eq!(shard.register(1, &behind), Err(Refusal::HeldOff));
    assert_eq!(hear(&mut shard, 4, No, &giving(5)), HEARD_ABORT);
    assert_eq!(shard.register(1, &giving(6)), registered(Yes, Wait));
    assert_eq!(shard.register(1, &behind), registered(No, Abort));
}

/// The pledge that a contended token lost at shard 0, which is turned, it keeps
/// at shard 1, which is not; each shard turns by itself.
#[test]
fn shards_turn_one_by_one() {
    let mut cluster = Cluster::new(LIMITS);
    for shard in [0, 1] {
        cluster.mint(shard, 0, 20, 4).unwrap();
    }
    // Shard 2 has no token.
    let inputs = [(0, 0, 0, 20, 4), (1, 0, 0, 20, 4), (2, 0, 0, 20, 4)];
    let three = transaction(5, &inputs, &[(2, 30, 12)]);
    assert_eq!(cluster.turn(0), TURNED);
    assert_eq!(cluster.turn(0), Err(Refusal::TurnedAlready));
    assert_eq!(cluster.turn(8), Err(Refusal::OutOfRange));
    let turned = cluster.shards().each_ref().map(Shard::is_turned);
    assert_eq!(
        turned,
        [true, false, false, false, false, false, false, false]
    );

    assert_eq!(cluster.register(0, &three), registered(Yes, Wait));
    assert_eq!(cluster.register(1, &three), registered(Yes, Wait));
    assert_eq!(cluster.register(2, &three), registered(No, Abort));
    for receiver in [0, 1] {
        assert_eq!(cluster.deliver(receiver, 2, 0, &three), HEARD_ABORT);
    }
    let take = |shard, number| transaction(number, &[(shard, 0, 0, 20, 4)], &[(3, 40, 4)]);
    assert_eq!(cluster.register(0, &take(0, 6)), registered(Yes, Wait));
    assert_eq!(cluster.register(1, &take(1, 7)), registered(No, Abort));
    assert_eq!(cluster.turn(1), TURNED);
    assert_eq!(cluster.register(1, &take(1, 8)), registered(Yes, Wait));
    for (number, shard) in [(6, 0), (8, 1)] {
        let taken = take(shard, number);
        assert_eq!(cluster.register(3, &taken), registered(Yes, Wait));
        for (sender, receiver) in [(shard, 3), (3, shard)] {
            let answer = cluster.deliver(receiver, sender, 1, &taken);
            assert_eq!(answer, Ok(Done::Heard(Commit)));
        }
    }
    assert_eq!(cluster.shards()[3].total(), 8);
    assert_eq!(cluster.total(), 8);
}

/// Two bytes. The writer looks for 3, then 15.
#[test]
fn reading_and_writing() {
    for receiver in 0..=255 {
        let record = Record::Turn { receiver };
        let fits = receiver <= 7;
        let outcome = if fits {
            Ok(record)
        } else {
            Err(Refusal::OutOfRange)
        };
        let bytes = [4, receiver, 9, 9];
        assert_eq!(read(&bytes), Reading { outcome, taken: 2 });
        assert_eq!(rest(&bytes), [9, 9]);
        for room in 0..4 {
            let mut buffer = [7; 4];
            let answer = write(&record, &mut buffer[..room]);
            let expected = match (fits, room) {
                (false, _) => Err(Refusal::OutOfRange),
                (true, 0..2) => Err(Refusal::BufferTooShort),
                (true, _) => Ok(2),
            };
            assert_eq!(answer, expected, "{room} bytes");
            let written = if answer.is_ok() {
                [4, receiver, 7, 7]
            } else {
                [7; 4]
            };
            assert_eq!(buffer, written);
        }
    }
    let short = Reading {
        outcome: Err(Refusal::TooShort),
        taken: 1,
    };
    assert_eq!(read(&[4]), short);
    assert!(rest(&[4]).is_empty());
}

/// The kinds are 1 to 4 now.
#[test]
fn unknown_kinds() {
    for kind in [0, 5, 255] {
        let unknown = Reading {
            outcome: Err(Refusal::UnknownKind),
            taken: 2,
        };
        assert_eq!(read(&[kind, 0]), unknown, "kind {kind}");
    }
}
