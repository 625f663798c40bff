//! Demand 3's clauses over random weeks and over every order of the small
//! scenarios, on the reference alone; and wrong states, which the clauses have
//! to shut out.

use std::collections::BTreeSet;
use std::panic::{AssertUnwindSafe, catch_unwind};

use reference::{
    Answer, Cluster, Finding, Input, Known, LIMITS, Output, Record, SHARDS, Token, TokenId,
    Transaction, Verdict,
};
use weeks::{
    BROUGHT, BROUGHT_LATER, Before, CLUSTER_EVENTS, Case, Clauses, EARLY_ABORTS, Giver, Rng, SEED,
    TURNS, Tally, View, changes_nothing, cluster_week, finding_labels, label, never_given_by,
    scenarios, second_cause_labels, shard_week, views,
};

const WEEKS: u64 = 3000;

/// What the clauses have to be tried on.
const MET: [&str; 15] = [
    "REFUSED 17",
    "REFUSED 19",
    "TURNED",
    "held off, later committed",
    "HEARD COMMIT",
    "HEARD ABORT",
    "AGAIN COMMIT",
    "brought YES WAIT",
    "brought YES COMMIT",
    "brought YES ABORT",
    "brought NO ABORT",
    "made token destroyed",
    "serial ledger, all decided",
    "serial ledger, some undecided",
    BY_VOTES,
];

/// Counted once a week, at its end.
const BY_VOTES: &str = "serial order by what votes have brought";

#[test]
fn random_weeks_keep_the_clauses() {
    let mut tally = Tally::default();
    for week in 0..WEEKS {
        let records = cluster_week(&mut Rng::new(SEED, week));
        let mut cluster = Cluster::new(LIMITS);
        let mut clauses = Clauses::new();
        let mut events = tally.week();
        let mut commits = 0;
        for (call, record) in (0..).zip(&records) {
            let handed = record;
            let _case = Case { week, call, handed };
            let before = Before::of(cluster.shards(), record);
            let answer = cluster.play(record);
            events.call(record, answer, before, cluster.shards());
            clauses.step(record, answer.is_err(), &views(&cluster));
            if call % 16 == 0 || call + 1 == records.len() as u64 {
                events.tally.add(if clauses.serial() {
                    "serial ledger, all decided"
                } else {
                    "serial ledger, some undecided"
                });
                assert!(clauses.commits() >= commits, "a commit is gone");
                commits = clauses.commits();
            }
        }
        if clauses.is_ordered_by_votes() {
            events.tally.add(BY_VOTES);
        }
    }
    let title = "clauses over random weeks";
    tally.report(title, &MET, 100);
    tally.check(title, &EARLY_ABORTS, 100);
    tally.check(title, &TURNS, 100);
    tally.check(title, &BROUGHT, 100);
    tally.check(title, &BROUGHT_LATER, 20);
    tally.check(title, &CLUSTER_EVENTS, 100);
    tally.check(title, &finding_labels(), 100);
    tally.check(title, &second_cause_labels(), 20);
}

#[test]
fn every_order_keeps_the_clauses() {
    for scenario in scenarios() {
        let (mut tally, mut ends) = (Tally::default(), BTreeSet::new());
        let orders = scenario.orders(|order, calls, repeats| {
            let mut cluster = Cluster::new(LIMITS);
            let mut clauses = Clauses::new();
            let mut whole = false;
            for (call, record) in (0..).zip(calls.iter().chain(repeats)) {
                let _case = Case {
                    week: order,
                    call,
                    handed: record,
                };
                let answer = cluster.play(record);
                tally.add(label(answer));
                clauses.step(record, answer.is_err(), &views(&cluster));
                if !changes_nothing(answer) {
                    whole = clauses.serial();
                }
            }
            assert!(whole, "order {order} leaves a transaction undecided");
            ends.insert(clauses.committed_numbers());
        });
        let ends: Vec<&[u32]> = ends.iter().map(Vec::as_slice).collect();
        assert_eq!(ends, scenario.ends, "{}", scenario.name);
        tally.print(&format!("{}, {orders} orders", scenario.name));
    }
}

/// The reference keeps its promises about answers: a no aborts at once, a
/// registration decides nothing else where other shards take part, and eleven
/// and twelve are never met in a cluster.
#[test]
fn answers_that_cannot_be() {
    let mut lone = Tally::default();
    let mut cluster_tally = Tally::default();
    for week in 0..500 {
        let (number, records) = shard_week(&mut Rng::new(SEED, week));
        let mut shard = reference::Shard::new(number, LIMITS);
        for record in &records {
            lone.add(label(shard.play(record)));
        }
        let mut cluster = Cluster::new(LIMITS);
        for record in &cluster_week(&mut Rng::new(SEED, week)) {
            cluster_tally.add(label(cluster.play(record)));
        }
    }
    lone.check_never("a lone shard", &never_given_by(&[Giver::Shard]));
    cluster_tally.check_never("a cluster", &never_given_by(&[Giver::Cluster]));
    // What tells the two apart.
    assert_eq!(lone.count("REFUSED 16"), 0);
    assert!(cluster_tally.count("REFUSED 16") > 0);
    for only_alone in ["REFUSED 11", "REFUSED 12"] {
        assert!(lone.count(only_alone) > 0, "{only_alone}");
        assert_eq!(cluster_tally.count(only_alone), 0, "{only_alone}");
    }
}

// Wrong states. Each starts from what the reference does and changes one thing.

/// Token (0, 0, 0) goes to shard 1.
fn away(number: u32) -> Transaction {
    let mut transaction = Transaction {
        number,
        input_count: 1,
        output_count: 1,
        ..Transaction::default()
    };
    transaction.inputs[0] = Input {
        token: TokenId::default(),
        owner: 10,
        amount: 3,
    };
    transaction.outputs[0] = Output {
        shard: 1,
        owner: 10,
        amount: 3,
    };
    transaction
}

/// Transaction 6: what 5 brings away goes further, to shard 2.
fn further() -> Transaction {
    let mut transaction = away(6);
    transaction.inputs[0].token = TokenId {
        shard: 1,
        creator: 5,
        index: 0,
    };
    transaction.outputs[0].shard = 2;
    transaction
}

/// Token (0, 0, 0).
fn mint() -> Record {
    Record::Mint {
        receiver: 0,
        index: 0,
        owner: 10,
        amount: 3,
    }
}

fn register(receiver: u8, transaction: Transaction) -> Record {
    Record::Register {
        receiver,
        transaction,
    }
}

fn vote(verdict: u8, sender: u8, receiver: u8, transaction: Transaction) -> Record {
    Record::Vote {
        receiver,
        sender,
        verdict,
        transaction,
    }
}

fn calls(transaction: Transaction) -> Vec<Record> {
    vec![
        mint(),
        register(0, transaction),
        register(1, transaction),
        vote(1, 0, 1, transaction),
        vote(1, 1, 0, transaction),
        vote(1, 1, 0, transaction),
    ]
}

type Shards = [(Vec<Token>, Vec<Known>, bool); SHARDS];

/// Plays the calls, with `wrong` changing the shards seen after a call; the
/// change lasts only if it is made after every later call too.
fn caught(records: &[Record], wrong: impl Fn(usize, &mut Shards)) -> bool {
    let follow = || {
        let mut cluster = Cluster::new(LIMITS);
        let mut clauses = Clauses::new();
        for (call, record) in records.iter().enumerate() {
            let answer: Answer = cluster.play(record);
            let mut shards: Shards = cluster.shards().each_ref().map(|shard| {
                let (tokens, known) = (shard.tokens().to_vec(), shard.known().to_vec());
                (tokens, known, shard.is_turned())
            });
            wrong(call, &mut shards);
            let views = shards.each_ref().map(|(tokens, known, turned)| View {
                tokens,
                known,
                turned: *turned,
            });
            clauses.step(record, answer.is_err(), &views);
            clauses.serial();
        }
    };
    catch_unwind(AssertUnwindSafe(follow)).is_err()
}

#[test]
fn wrong_states_are_caught() {
    let records = calls(away(5));
    assert!(!caught(&records, |_, _| ()), "nothing is wrong");

    let token = |creator, index| Token {
        creator,
        index,
        owner: 10,
        amount: 3,
        pledge: None,
    };
    type Wrong<'a> = (&'a str, Box<dyn Fn(usize, &mut Shards)>);
    let cases: Vec<Wrong> = vec![
        (
            "a commit moves no token",
            Box::new(move |call, shards| {
                if call >= 4 {
                    shards[0].0 = vec![token(0, 0)];
                }
            }),
        ),
        (
            "an output is not made",
            Box::new(|call, shards| {
                if call >= 3 {
                    shards[1].0.clear();
                }
            }),
        ),
        (
            "an output is made at both shards",
            Box::new(move |call, shards| {
                if call >= 4 {
                    shards[0].0 = vec![token(5, 0)];
                }
            }),
        ),
        (
            "an output has another index",
            Box::new(|call, shards| {
                if call >= 3 {
                    shards[1].0[0].index = 1;
                }
            }),
        ),
        (
            "a second shard changes",
            Box::new(move |call, shards| {
                if call >= 2 {
                    shards[7].0 = vec![token(0, 0)];
                }
            }),
        ),
        (
            "votes no although all is available",
            Box::new(|call, shards| {
                for (_, known, _) in &mut shards[..2] {
                    for known in known.iter_mut().filter(|_| call >= 1) {
                        known.heard[0] = known.heard[0].map(|_| Verdict::No);
                    }
                }
            }),
        ),
        (
            "decides otherwise at one shard",
            Box::new(|call, shards| {
                if call >= 4 {
                    shards[0].1[0].heard[1] = Some(Verdict::No);
                }
            }),
        ),
        (
            "a verdict is forgotten",
            Box::new(|call, shards| {
                if call >= 5 {
                    shards[0].1[0].heard[1] = None;
                }
            }),
        ),
        (
            "a decided transaction is forgotten",
            Box::new(|call, shards| {
                if call >= 4 {
                    shards[0].1.clear();
                }
            }),
        ),
    ];
    for (name, wrong) in cases {
        assert!(caught(&records, wrong), "{name}");
    }

    // Commits although the input is not there: nothing was minted.
    let unminted = &records[1..];
    assert!(!caught(unminted, |_, _| ()), "nothing is wrong");
    let yes = |_: usize, shards: &mut Shards| {
        for (_, known, _) in &mut shards[..2] {
            for known in known {
                known.heard[0] = known.heard[0].map(|_| Verdict::Yes);
            }
        }
    };
    assert!(
        caught(unminted, yes),
        "commits without its input, known to both"
    );

    // A refused call changes something.
    let again = [&records[..2], &records[1..2]].concat();
    assert!(!caught(&again, |_, _| ()), "nothing is wrong");
    let released = |call: usize, shards: &mut Shards| {
        if call >= 2 {
            shards[0].0[0].pledge = None;
        }
    };
    assert!(caught(&again, released), "a refused call releases a pledge");
}

/// Token (0, 0, 0) is shared out between the shards 1 and 2.
fn shared() -> Transaction {
    let mut transaction = away(5);
    transaction.output_count = 2;
    transaction.outputs[0].amount = 2;
    transaction.outputs[1] = Output {
        shard: 2,
        owner: 10,
        amount: 1,
    };
    transaction
}

/// A no that nobody has given aborts at shard 2, with a vote missing there, while
/// all inputs are available: no token is ever made there.
#[test]
fn wrong_noes_are_caught() {
    let shared = shared();
    let mut records = vec![mint()];
    records.extend([0, 1, 2].map(|shard| register(shard, shared)));
    records.extend([(0, 2), (0, 1), (2, 1), (1, 2)].map(|(s, r)| vote(1, s, r, shared)));
    assert!(!caught(&records, |_, _| ()), "nothing is wrong");

    let wrong = |call: usize, shards: &mut Shards| {
        if call >= 4 {
            shards[2].0.clear();
            shards[2].1[0].heard[0] = Some(Verdict::No);
        }
    };
    assert!(!caught(&records[..6], wrong), "nobody decides otherwise");
    assert!(caught(&records[..7], wrong), "shard 1 commits");

    // Without what shard 1 hears: now shard 2 has all votes.
    let records = [&records[..5], &records[7..]].concat();
    assert!(!caught(&records[..5], wrong), "not all votes are in");
    assert!(caught(&records, wrong), "each input was available");
}

/// Votes that come after an abort.
#[test]
fn wrong_states_after_a_no_are_caught() {
    let shared = shared();
    let mut records = Vec::from([0, 1, 2].map(|shard| register(shard, shared)));
    records.push(vote(0, 0, 2, shared));
    records.push(vote(1, 1, 2, shared));
    assert!(!caught(&records, |_, _| ()), "nothing is wrong");
    let after = |heard: [Option<Verdict>; 2]| {
        move |call: usize, shards: &mut Shards| {
            if call >= 4 {
                shards[2].1[0].heard[..2].copy_from_slice(&heard);
            }
        }
    };
    let (no, yes) = (Some(Verdict::No), Some(Verdict::Yes));
    assert!(!caught(&records, after([no, yes])), "nothing is wrong");
    assert!(caught(&records, after([no, None])), "a vote is not noted");
    assert!(caught(&records, after([yes, yes])), "the no is forgotten");
}

/// A no of shard 1 that brings an abort at shard 0, where a token is pledged.
fn bound() -> Vec<Record> {
    let mut both = away(5);
    both.input_count = 2;
    both.inputs[1] = Input {
        token: TokenId {
            shard: 1,
            ..TokenId::default()
        },
        owner: 10,
        amount: 3,
    };
    both.outputs[0].amount = 6;
    let mut records = vec![mint(), register(0, both), register(1, both)];
    records.push(vote(0, 1, 0, both));
    records
}

const TURN: Record = Record::Turn { receiver: 0 };

/// Sets the pledge of shard 0's token from this call on.
fn pledging(from: usize, pledge: Option<u32>) -> impl Fn(usize, &mut Shards) {
    move |call, shards| {
        if call >= from {
            shards[0].0[0].pledge = pledge;
        }
    }
}

/// At a shard that is not turned a pledge stays; at one that is turned it ends
/// with the abort, and not before.
#[test]
fn wrong_pledges_are_caught() {
    let records = bound();
    assert!(!caught(&records, |_, _| ()), "nothing is wrong");
    assert!(caught(&records, pledging(3, None)), "an abort frees");
    assert!(caught(&records[..3], pledging(2, None)), "another shard's");
    assert!(caught(&records, pledging(1, Some(6))), "another's pledge");
    assert!(caught(&records, pledging(3, Some(6))), "another's later");
    assert!(
        caught(&records[..1], pledging(0, Some(5))),
        "a mint pledges"
    );

    // Turned before the abort, and behind it.
    let first = [&records[..2], &[TURN], &records[2..]].concat();
    let last = [&records[..], &[TURN]].concat();
    for records in [&first, &last] {
        assert!(!caught(records, |_, _| ()), "nothing is wrong");
        assert!(caught(records, pledging(4, Some(5))), "nothing is freed");
    }
    assert!(caught(&first, pledging(2, None)), "freed while undecided");
    assert!(caught(&last, pledging(3, None)), "freed before the turn");
}

/// A turn changes no token but its pledge, no known transaction and no other
/// shard, and lasts.
#[test]
fn wrong_turns_are_caught() {
    let records = [&bound()[..], &[TURN, register(0, away(6))]].concat();
    assert!(!caught(&records, |_, _| ()), "nothing is wrong");
    let from = |from: usize, change: fn(&mut Shards)| {
        move |call: usize, shards: &mut Shards| {
            if call >= from {
                change(shards);
            }
        }
    };
    type Change = fn(&mut Shards);
    let cases: [(usize, &str, Change); 8] = [
        (4, "a token is gone", |shards| shards[0].0.clear()),
        (4, "another owner", |shards| shards[0].0[0].owner = 11),
        (4, "another amount", |shards| shards[0].0[0].amount = 4),
        (4, "another index", |shards| shards[0].0[0].index = 1),
        (4, "forgets the aborted one", |shards| shards[0].1.clear()),
        (4, "is not noted", |shards| shards[0].2 = false),
        (4, "turns another, too", |shards| shards[1].2 = true),
        (5, "does not last", |shards| shards[0].2 = false),
    ];
    for (call, name, change) in cases {
        assert!(caught(&records[..=call], from(call, change)), "{name}");
    }
    let unasked = from(3, |shards| shards[0].2 = true);
    assert!(caught(&records[..4], unasked), "an abort turns the shard");
}

/// What a registration has found is what was there before it, and stays so:
/// transaction 6 finds a token that is pledged to 5, also after 5 is aborted and
/// the token has come free, and after another one has found it free.
#[test]
fn wrong_findings_are_caught() {
    let late = register(0, away(6));
    let again = register(0, away(7));
    let records = [&bound()[..], &[late, TURN, again]].concat();
    assert!(!caught(&records, |_, _| ()), "nothing is wrong");
    let found = |from: usize, place: usize, finding: Option<Finding>| {
        move |call: usize, shards: &mut Shards| {
            if call >= from {
                shards[0].1[place].findings[0] = finding;
            }
        }
    };
    let pledged = |number| Some(Finding::Pledged(number));
    let available = Some(Finding::Available);
    let wrong = [
        ("no finding", None),
        ("available", available),
        ("not held", Some(Finding::NotHeld)),
        ("other owner", Some(Finding::OtherOwner)),
        ("other amount", Some(Finding::OtherAmount)),
        ("pledged to itself", pledged(6)),
    ];
    for (name, finding) in wrong {
        let first = found(4, 1, finding);
        assert!(caught(&records[..5], first), "{name}, registered");
        for later in [5, 6] {
            let records = &records[..=later];
            assert!(caught(records, found(later, 1, finding)), "{name}, later");
        }
    }
    assert!(caught(&records, found(1, 0, pledged(5))), "its own pledge");
    assert!(caught(&records, found(5, 0, pledged(5))), "the turn's");
    assert!(caught(&records, found(6, 2, pledged(5))), "ended before");
    let second = |call: usize, shards: &mut Shards| {
        if call >= 1 {
            shards[0].1[0].findings[1] = available;
        }
    };
    assert!(caught(&records, second), "of another shard's input");
}

/// Transaction 5 is brought to shard 1 by shard 0's vote, behind another one
/// that shard 1 knows.
fn bringing() -> Vec<Record> {
    let (five, mut other) = (shared(), away(6));
    other.inputs[0].token.shard = 1;
    vec![
        mint(),
        register(1, other),
        register(0, five),
        vote(1, 0, 1, five),
        vote(1, 1, 2, five),
    ]
}

/// A vote that brings its transaction notes it behind what was known, with two
/// verdicts, and changes nothing else.
#[test]
fn wrong_bringings_are_caught() {
    let records = bringing();
    assert!(!caught(&records, |_, _| ()), "nothing is wrong");
    type Change = fn(&mut Shards);
    let cases: [(&str, Change); 8] = [
        ("finds an input that there is not", |shards| {
            shards[1].1[1].findings[0] = Some(Finding::NotHeld);
        }),
        ("is not known", |shards| shards[1].1.truncate(1)),
        ("known before the other", |shards| shards[1].1.swap(0, 1)),
        ("instead of the other", |shards| {
            shards[1].1.remove(0);
        }),
        ("the vote is not heard", |shards| {
            shards[1].1[1].heard[0] = None;
        }),
        ("the own vote is missing", |shards| {
            shards[1].1[1].heard[1] = None;
        }),
        ("changes the other", |shards| {
            shards[1].1[0].heard[0] = Some(Verdict::Yes);
        }),
        ("is known elsewhere, too", |shards| {
            let brought = shards[1].1[1];
            shards[2].1.push(brought);
        }),
    ];
    for (name, change) in cases {
        let wrong = |call: usize, shards: &mut Shards| {
            if call == 3 {
                change(shards);
            }
        };
        assert!(caught(&records[..4], wrong), "{name}");
    }
}

/// Shard 1 has no input of 5, so it votes yes; else the commit rule is broken
/// at shard 2, to which its vote brings 5.
#[test]
fn a_wrong_vote_on_what_is_brought_is_caught() {
    let mut records = bringing();
    records.push(vote(1, 0, 2, shared()));
    let voted = |own| {
        move |call: usize, shards: &mut Shards| {
            for place in [1, 2] {
                if call >= 2 + place {
                    shards[place].1.last_mut().expect("it is known").heard[1] = Some(own);
                }
            }
        }
    };
    assert!(!caught(&records, voted(Verdict::Yes)), "nothing is wrong");
    assert!(caught(&records, voted(Verdict::No)), "votes no");
}

/// A refused vote brings nothing; and a pledge begins with what is brought.
#[test]
fn what_a_refused_vote_leaves_is_caught() {
    let (first, second) = (away(5), further());
    let records = [
        mint(),
        register(1, first),
        register(2, second),
        vote(1, 2, 1, second),
    ];
    assert!(!caught(&records, |_, _| ()), "nothing is wrong");
    let kept = |call: usize, shards: &mut Shards| {
        if call == 3 {
            let second = shards[2].1[0];
            shards[1].1.push(second);
        }
    };
    assert!(caught(&records, kept), "the registration is kept");

    // Shard 1's yes brings 5 to shard 0, where its token is pledged.
    let mut three = shared();
    three.outputs[0].shard = 1;
    let records = [mint(), register(1, three), vote(1, 1, 0, three)];
    assert!(!caught(&records, |_, _| ()), "nothing is wrong");
    assert!(caught(&records, pledging(2, Some(6))), "another's pledge");
    let behind = [&records[..], &[vote(1, 1, 0, three)]].concat();
    assert!(caught(&behind, pledging(3, None)), "a repeat frees");
}

/// Last registration counts those that votes bring. Shard 2 registers 6 before
/// anybody knows 5, and shard 1 comes to know it when 5 has made what it takes.
#[test]
fn the_order_counts_what_votes_bring() {
    let (five, six) = (away(5), further());
    let records = [
        mint(),
        register(2, six),
        register(0, five),
        vote(1, 0, 1, five),
        vote(1, 2, 1, six),
        vote(1, 1, 2, six),
        vote(1, 1, 0, five),
    ];
    let (mut cluster, mut clauses) = (Cluster::new(LIMITS), Clauses::new());
    for record in &records {
        let answer = cluster.play(record);
        assert!(answer.is_ok(), "{record:?}");
        clauses.step(record, false, &views(&cluster));
        clauses.serial();
    }
    assert!(clauses.serial(), "both are decided at all their shards");
    assert_eq!(clauses.committed_numbers(), [5, 6]);
    assert!(clauses.is_ordered_by_votes());
}
