//! Document 02's slip 5, sentence by sentence: one no suffices for an abort.
//!
//! Transaction 5 has three shards: it takes a genesis token of shard 0 and one
//! of shard 1, and is to make (1, 5, 0) and (2, 5, 1). Most tests are about
//! shard 1, which votes yes where it holds its token and no where it does not.

#[path = "common/answers.rs"]
mod answers;
#[path = "common/records.rs"]
mod records;

use reference::{
    Answer, Cluster, Done, LIMITS, Limits, Outcome, Refusal, Shard, Transaction, Verdict,
};

use Outcome::{Abort, Commit, Wait};
use Verdict::{No, Yes};
use answers::registered;
use records::{mint, register, transaction};

const HEARD_ABORT: Answer = Ok(Done::Heard(Abort));

/// Space for two tokens.
const TWO_TOKENS: Limits = Limits {
    tokens: 2,
    ..LIMITS
};

fn three() -> Transaction {
    let inputs = [(0, 0, 0, 10, 3), (1, 0, 0, 20, 4)];
    transaction(5, &inputs, &[(1, 30, 5), (2, 30, 2)])
}

/// Takes nothing at shard 1 and is to make a token there.
fn giving(number: u32) -> Transaction {
    transaction(number, &[(4, 0, 0, 40, 1)], &[(1, 40, 1)])
}

/// Takes what transaction 5 is to make at shard 1.
fn behind() -> Transaction {
    transaction(6, &[(1, 5, 0, 30, 5)], &[(1, 50, 5)])
}

/// Shard 1 with its token.
fn holding(limits: Limits) -> Shard {
    let mut shard = Shard::new(1, limits);
    assert_eq!(shard.play(&mint(1, 0, 20, 4)), Ok(Done::Minted));
    shard
}

/// Shard 1 has voted yes and waits for the votes of 0 and 2.
fn waiting(limits: Limits) -> Shard {
    let mut shard = holding(limits);
    let answer = shard.play(&register(1, three()));
    assert_eq!(answer, registered(Yes, Wait));
    shard
}

/// Shard 1 does not hold the token.
fn voting_no() -> Shard {
    let mut shard = Shard::new(1, LIMITS);
    let answer = shard.play(&register(1, three()));
    assert_eq!(answer, registered(No, Abort));
    shard
}

/// Shard 1 tells what it has heard of transaction 5 from the shards 0, 1 and 2.
fn heard(shard: &Shard) -> [Option<Verdict>; 3] {
    let known = shard.known()[0];
    assert_eq!(known.heard[3..], [None; 5]);
    [known.heard[0], known.heard[1], known.heard[2]]
}

fn hear(shard: &mut Shard, sender: u8, verdict: Verdict) -> Answer {
    shard.hear(1, sender, u8::from(verdict == Yes), &three())
}

/// The shard's own no is enough, before any other vote.
#[test]
fn its_own_no_aborts_at_once() {
    let shard = voting_no();
    assert_eq!(heard(&shard), [None, Some(No), None]);
    assert_eq!(shard.known()[0].outcome(), Abort);
}

/// And so is a no heard, whoever is still missing.
#[test]
fn a_no_heard_aborts_while_a_vote_is_missing() {
    let mut shard = waiting(LIMITS);
    assert_eq!(hear(&mut shard, 0, No), HEARD_ABORT);
    assert_eq!(heard(&shard), [Some(No), Some(Yes), None]);
    let mut shard = waiting(LIMITS);
    assert_eq!(hear(&mut shard, 2, No), HEARD_ABORT);
    assert_eq!(heard(&shard), [None, Some(Yes), Some(No)]);
}

#[test]
fn a_commit_needs_every_yes() {
    for [first, last] in [[0, 2], [2, 0]] {
        let mut shard = waiting(LIMITS);
        assert_eq!(hear(&mut shard, first, Yes), Ok(Done::Heard(Wait)));
        assert_eq!(hear(&mut shard, first, Yes), Ok(Done::Again(Wait)));
        assert_eq!(shard.total(), 4, "the token is still there");
        assert_eq!(hear(&mut shard, last, Yes), Ok(Done::Heard(Commit)));
        assert_eq!(shard.total(), 5, "it is exchanged");
        // The one no may also come last.
        let mut shard = waiting(LIMITS);
        assert_eq!(hear(&mut shard, first, Yes), Ok(Done::Heard(Wait)));
        assert_eq!(hear(&mut shard, last, No), HEARD_ABORT);
    }
}

/// After its own no and after a no heard, a yes and a no.
#[test]
fn later_votes_are_noted() {
    for verdict in [Yes, No] {
        let mut shard = voting_no();
        assert_eq!(hear(&mut shard, 2, verdict), HEARD_ABORT);
        assert_eq!(heard(&shard), [None, Some(No), Some(verdict)]);
        assert_eq!(hear(&mut shard, 0, verdict), HEARD_ABORT);
        assert_eq!(heard(&shard), [Some(verdict), Some(No), Some(verdict)]);

        let mut shard = waiting(LIMITS);
        assert_eq!(hear(&mut shard, 0, No), HEARD_ABORT);
        assert_eq!(hear(&mut shard, 2, verdict), HEARD_ABORT);
        assert_eq!(heard(&shard), [Some(No), Some(Yes), Some(verdict)]);
    }
}

/// The vote that aborted it, its own and a later one: each again, and each with
/// the other verdict. Neither changes anything.
#[test]
fn votes_again_and_contrary_ones_after_the_abort() {
    let mut shard = waiting(LIMITS);
    assert_eq!(hear(&mut shard, 0, No), HEARD_ABORT);
    let early = shard.clone();
    assert_eq!(hear(&mut shard, 2, Yes), HEARD_ABORT);
    let mut told = vec![(early, vec![(0, No), (1, Yes)])];
    told.push((shard, vec![(0, No), (1, Yes), (2, Yes)]));
    for (mut shard, votes) in told {
        let before = shard.clone();
        for (sender, verdict) in votes {
            let contrary = if verdict == Yes { No } else { Yes };
            assert_eq!(hear(&mut shard, sender, verdict), Ok(Done::Again(Abort)));
            let refused = hear(&mut shard, sender, contrary);
            assert_eq!(refused, Err(Refusal::OtherVerdict));
            assert_eq!(shard, before);
        }
    }
}

/// The rule in other words, for the votes heard of three.
fn decided(heard: &[Verdict]) -> Outcome {
    match heard {
        _ if heard.contains(&No) => Abort,
        [Yes, Yes, Yes] => Commit,
        _ => Wait,
    }
}

/// Every verdict of every shard, the others' in both orders: an abort stays as
/// all other votes come in, and a decision comes with the k - 1 = 2 others'
/// votes at the latest.
#[test]
fn every_three_votes() {
    let verdicts = [Yes, No];
    let others = verdicts.map(|zero| verdicts.map(|two| [(0, zero), (2, two)]));
    for [one, other] in others.into_iter().flatten() {
        for order in [[one, other], [other, one]] {
            for own in verdicts {
                let mut shard = match own {
                    Yes => waiting(LIMITS),
                    No => voting_no(),
                };
                let mut heard = vec![own];
                for (sender, verdict) in order {
                    heard.push(verdict);
                    let answer = hear(&mut shard, sender, verdict);
                    assert_eq!(answer, Ok(Done::Heard(decided(&heard))), "{heard:?}");
                }
            }
        }
    }
}

/// At a shard that is not turned an abort changes no token, early or late.
#[test]
fn pledges_stay() {
    let mut shard = waiting(LIMITS);
    let pledges = |shard: &Shard| -> Vec<_> {
        let tokens = shard.tokens().iter();
        tokens.map(|token| token.pledge).collect()
    };
    assert_eq!(hear(&mut shard, 0, No), HEARD_ABORT);
    assert_eq!(pledges(&shard), [Some(5)]);
    assert_eq!(hear(&mut shard, 2, No), HEARD_ABORT);
    assert_eq!(pledges(&shard), [Some(5)]);
    let later = transaction(7, &[(1, 0, 0, 20, 4)], &[(2, 20, 4)]);
    assert_eq!(shard.register(1, &later), registered(No, Abort));

    // One input is available and is pledged, the other is not there.
    let mut shard = holding(LIMITS);
    let inputs = [(1, 0, 0, 20, 4), (1, 0, 1, 20, 4)];
    let partly = transaction(8, &inputs, &[(2, 20, 8)]);
    assert_eq!(shard.register(1, &partly), registered(No, Abort));
    assert_eq!(pledges(&shard), [Some(8)]);
}

/// One token is held and one may be made: 10 refuses the next until the first
/// no.
#[test]
fn an_early_abort_gives_its_space_back() {
    let mut shard = waiting(TWO_TOKENS);
    assert_eq!(shard.register(1, &giving(7)), Err(Refusal::TokensFull));
    assert_eq!(hear(&mut shard, 0, No), HEARD_ABORT);
    assert_eq!(shard.register(1, &giving(7)), registered(Yes, Wait));
    assert_eq!(shard.register(1, &giving(8)), Err(Refusal::TokensFull));
    // A vote on the aborted one takes nothing back.
    assert_eq!(hear(&mut shard, 2, Yes), HEARD_ABORT);
    assert_eq!(shard.hear(1, 4, 1, &giving(7)), Ok(Done::Heard(Commit)));
    assert_eq!(shard.tokens().len(), 2);
}

/// What is aborted by its own no never had any.
#[test]
fn its_own_no_takes_no_space() {
    let mut shard = holding(TWO_TOKENS);
    let inputs = [(0, 0, 0, 10, 3), (1, 0, 0, 21, 4)];
    let vain = transaction(4, &inputs, &[(1, 30, 7)]);
    assert_eq!(shard.register(1, &vain), registered(No, Abort));
    assert_eq!(shard.register(1, &giving(7)), registered(Yes, Wait));
    assert_eq!(shard.register(1, &giving(8)), Err(Refusal::TokensFull));
}

/// 17 ends with the first no. The token never comes, so the vote is no.
#[test]
fn it_holds_nobody_off_any_more() {
    let mut shard = waiting(LIMITS);
    let held_off = Err(Refusal::HeldOff);
    assert_eq!(shard.register(1, &behind()), held_off);
    assert_eq!(hear(&mut shard, 0, Yes), Ok(Done::Heard(Wait)));
    assert_eq!(shard.register(1, &behind()), held_off);

    let mut shard = waiting(LIMITS);
    assert_eq!(shard.register(1, &behind()), held_off);
    assert_eq!(hear(&mut shard, 0, No), HEARD_ABORT);
    assert_eq!(shard.register(1, &behind()), registered(No, Abort));

    let mut shard = voting_no();
    assert_eq!(shard.register(1, &behind()), registered(No, Abort));
}

/// Shard 0 votes no, and each shard aborts by the votes that it has heard.
#[test]
fn three_shards_of_a_cluster() {
    let mut cluster = Cluster::new(LIMITS);
    cluster.mint(1, 0, 20, 4).unwrap();
    let three = three();
    let outcomes = |cluster: &Cluster| -> Vec<Outcome> {
        let shards = cluster.shards()[..3].iter();
        shards.map(|shard| shard.known()[0].outcome()).collect()
    };
    assert_eq!(cluster.register(2, &three), registered(Yes, Wait));
    assert_eq!(cluster.register(1, &three), registered(Yes, Wait));
    assert_eq!(cluster.register(0, &three), registered(No, Abort));
    assert_eq!(outcomes(&cluster), [Abort, Wait, Wait]);
    assert_eq!(cluster.deliver(2, 0, 0, &three), HEARD_ABORT);
    assert_eq!(outcomes(&cluster), [Abort, Wait, Abort]);
    assert_eq!(cluster.deliver(1, 2, 1, &three), Ok(Done::Heard(Wait)));
    assert_eq!(cluster.deliver(1, 0, 0, &three), HEARD_ABORT);
    // Late votes, where the abort is long known.
    assert_eq!(cluster.deliver(2, 1, 1, &three), HEARD_ABORT);
    assert_eq!(cluster.deliver(0, 1, 1, &three), HEARD_ABORT);
    assert_eq!(cluster.deliver(0, 2, 1, &three), HEARD_ABORT);
    let other = cluster.deliver(2, 0, 1, &three);
    assert_eq!(other, Err(Refusal::VoteNotGiven));
    assert_eq!(outcomes(&cluster), [Abort; 3]);
    assert_eq!(cluster.total(), 4);
}
