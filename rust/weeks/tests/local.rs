//! The local step by hand, from documents 000 and 01: what each of the four
//! yields, and what is found of the inputs; and wrong answers and states, in
//! which the fault has to be found.
//!
//! All is about shard 1, which holds three genesis tokens. Transaction 3 waits
//! for the vote of shard 0, and the second token is pledged to it.

#[path = "../../reference/tests/common/answers.rs"]
mod answers;
#[path = "../../reference/tests/common/records.rs"]
mod records;

use reference::{
    Answer, Done, Finding, Input, Known, LIMITS, Outcome, Record, Shard, Token, Transaction,
    Verdict,
};
use weeks::local::{available_here, findings_here, inputs_here, pledged, verdict};
use weeks::{Registration, Tally, View, finding_labels, registration_labels, second_cause_labels};

use Outcome::{Abort, Commit, Wait};
use Verdict::{No, Yes};
use answers::registered;
use records::{InputFields, OutputFields, mint, register, transaction};

const FIRST: InputFields = (1, 0, 0, 20, 4);
const PLEDGED: InputFields = (1, 0, 1, 20, 4);
const THIRD: InputFields = (1, 0, 2, 21, 6);
const OTHER_OWNER: InputFields = (1, 0, 2, 20, 6);
const OTHER_AMOUNT: InputFields = (1, 0, 2, 21, 4);
const NOT_HELD: InputFields = (1, 0, 3, 20, 4);
/// Else the first.
const NOT_MADE: InputFields = (1, 4, 0, 20, 4);
/// Of shard 0, else the first.
const ELSEWHERE: InputFields = (0, 0, 0, 20, 4);

/// Transaction 5 takes these, and gives their sum there.
fn taking(inputs: &[InputFields], shard: u8) -> Transaction {
    let sum = inputs.iter().map(|input| input.4).sum();
    let output: OutputFields = (shard, 30, sum);
    transaction(5, inputs, &[output])
}

fn inputs(fields: &[InputFields]) -> Vec<Input> {
    taking(fields, 1).used_inputs().to_vec()
}

/// The three tokens with these pledges.
fn tokens(pledges: [Option<u32>; 3]) -> Vec<Token> {
    let token = |((index, owner, amount), pledge)| Token {
        creator: 0,
        index,
        owner,
        amount,
        pledge,
    };
    let tokens = [(0, 20, 4), (1, 20, 4), (2, 21, 6)]
        .into_iter()
        .zip(pledges);
    tokens.map(token).collect()
}

/// The pledges before the call.
const BEFORE: [Option<u32>; 3] = [None, Some(3), None];

#[test]
fn the_inputs_of_this_shard() {
    let all = taking(&[ELSEWHERE, THIRD, FIRST], 2);
    assert_eq!(inputs_here(1, &all), inputs(&[THIRD, FIRST]));
    assert_eq!(inputs_here(0, &all), inputs(&[ELSEWHERE]));
    assert_eq!(inputs_here(2, &all), []);
    // An unused slot is all zero, and no input of shard 0.
    assert_eq!(inputs_here(0, &taking(&[FIRST], 1)), []);
}

#[test]
fn the_available_ones_among_them() {
    let available = |fields: &[InputFields]| available_here(&inputs(fields), &tokens(BEFORE));
    assert_eq!(available(&[]), []);
    assert_eq!(available(&[THIRD, FIRST]), inputs(&[THIRD, FIRST]));
    for missing in [NOT_HELD, NOT_MADE, OTHER_OWNER, OTHER_AMOUNT, PLEDGED] {
        assert_eq!(available(&[missing]), [], "{missing:?}");
        assert_eq!(
            available(&[missing, FIRST]),
            inputs(&[FIRST]),
            "{missing:?}"
        );
    }
}

#[test]
fn the_pledges() {
    let pledged = |fields: &[InputFields]| pledged(&tokens(BEFORE), &inputs(fields), 5);
    assert_eq!(pledged(&[]), tokens(BEFORE));
    assert_eq!(pledged(&[FIRST]), tokens([Some(5), Some(3), None]));
    assert_eq!(
        pledged(&[THIRD, FIRST]),
        tokens([Some(5), Some(3), Some(5)])
    );
}

#[test]
fn the_message() {
    let verdict = |here: &[_], available: &[_]| verdict(&inputs(here), &inputs(available));
    assert_eq!(verdict(&[], &[]), Yes);
    assert_eq!(verdict(&[THIRD, FIRST], &[THIRD, FIRST]), Yes);
    assert_eq!(verdict(&[PLEDGED], &[]), No);
    assert_eq!(verdict(&[PLEDGED, FIRST], &[FIRST]), No);
}

#[test]
fn the_findings() {
    let found = |fields: &[InputFields]| findings_here(&inputs(fields), &tokens(BEFORE));
    assert_eq!(found(&[]), []);
    let cases = [
        (FIRST, Finding::Available),
        (NOT_HELD, Finding::NotHeld),
        (NOT_MADE, Finding::NotHeld),
        (OTHER_OWNER, Finding::OtherOwner),
        (OTHER_AMOUNT, Finding::OtherAmount),
        (PLEDGED, Finding::Pledged(3)),
        // The first that fits.
        ((1, 0, 2, 20, 4), Finding::OtherOwner),
        ((1, 0, 1, 21, 6), Finding::OtherOwner),
        ((1, 0, 1, 21, 4), Finding::OtherOwner),
        ((1, 0, 1, 20, 6), Finding::OtherAmount),
    ];
    for (input, finding) in cases {
        assert_eq!(found(&[input]), [finding], "{input:?}");
        assert_eq!(found(&[THIRD, input])[1], finding, "{input:?}");
    }
}

// Whole registrations. Each starts from what the reference does.

/// What a shard keeps.
struct Kept {
    tokens: Vec<Token>,
    known: Vec<Known>,
    turned: bool,
}

impl Kept {
    fn of(shard: &Shard) -> Self {
        Kept {
            tokens: shard.tokens().to_vec(),
            known: shard.known().to_vec(),
            turned: shard.is_turned(),
        }
    }

    fn view(&self) -> View<'_> {
        View {
            tokens: &self.tokens,
            known: &self.known,
            turned: self.turned,
        }
    }

    /// What was heard from this sender on the transaction known last.
    fn heard(&mut self, sender: usize) -> &mut Option<Verdict> {
        let last = self.known.last_mut().expect("a transaction is known");
        &mut last.heard[sender]
    }

    /// What was found of the input at this place among those here, by the
    /// transaction known last.
    fn found(&mut self, place: usize) -> &mut Option<Finding> {
        let last = self.known.last_mut().expect("a transaction is known");
        &mut last.findings[place]
    }
}

/// Shard 1, turned or not.
fn holding(turned: bool) -> Shard {
    let mut shard = Shard::new(1, LIMITS);
    let waits = transaction(3, &[PLEDGED], &[(0, 20, 4)]);
    let records = [
        mint(1, 0, 20, 4),
        mint(1, 1, 20, 4),
        mint(1, 2, 21, 6),
        register(1, waits),
    ];
    let turn = turned.then_some(Record::Turn { receiver: 1 });
    for record in records.into_iter().chain(turn) {
        assert!(shard.play(&record).is_ok(), "{record:?}");
    }
    assert_eq!(shard.tokens(), tokens(BEFORE));
    shard
}

/// Makes an answer and a state wrong.
type Spoil = fn(&mut Answer, &mut Kept);

/// What is wrong with the registration once it is spoilt, if anything.
fn fault(turned: bool, record: &Record, spoil: Spoil) -> Option<&'static str> {
    let mut shard = holding(turned);
    let before = Kept::of(&shard);
    let mut answer = shard.play(record);
    let mut after = Kept::of(&shard);
    spoil(&mut answer, &mut after);
    let registration = Registration::of(record, answer, before.view());
    registration.expect("it is registered").fault(after.view())
}

/// The registration is right, and each of these is found to be wrong.
fn check(turned: bool, record: &Record, wrong: &[(&str, &'static str, Spoil)]) {
    assert_eq!(fault(turned, record, |_, _| ()), None);
    for &(name, expected, spoil) in wrong {
        assert_eq!(fault(turned, record, spoil), Some(expected), "{name}");
    }
}

/// The vote of shard 0 that brings transaction 5, which takes these.
fn vote(said: u8, inputs: &[InputFields]) -> Record {
    Record::Vote {
        receiver: 1,
        sender: 0,
        verdict: said,
        transaction: taking(inputs, 0),
    }
}

#[test]
fn a_wrong_no_is_caught() {
    let partly = register(1, taking(&[PLEDGED, FIRST, OTHER_OWNER], 1));
    let wrong: [(_, _, Spoil); 8] = [
        ("yes with one available", "the message", |answer, kept| {
            *answer = registered(Yes, Abort);
            *kept.heard(1) = Some(Yes);
        }),
        ("its no is not heard", "the votes heard", |_, kept| {
            *kept.heard(1) = None;
        }),
        ("another is forgotten", "the votes heard", |_, kept| {
            kept.known.remove(0);
        }),
        ("it waits", "the outcome", |answer, _| {
            *answer = registered(No, Wait);
        }),
        ("nothing pledged", "the tokens", |_, kept| {
            kept.tokens[0].pledge = None;
        }),
        ("another's pledge taken over", "the tokens", |_, kept| {
            kept.tokens[1].pledge = Some(5);
        }),
        ("pledged to another owner", "the tokens", |_, kept| {
            kept.tokens[2].pledge = Some(5);
        }),
        ("turned by it", "turned", |_, kept| kept.turned = true),
    ];
    check(false, &partly, &wrong);
}

#[test]
fn wrong_findings_are_caught() {
    let inputs = [PLEDGED, FIRST, ELSEWHERE, OTHER_OWNER];
    let wrong: [(_, _, Spoil); 8] = [
        ("not held", "the findings", |_, kept| {
            *kept.found(0) = Some(Finding::NotHeld);
        }),
        ("pledged to itself", "the findings", |_, kept| {
            *kept.found(0) = Some(Finding::Pledged(5));
        }),
        ("of its own pledge", "the findings", |_, kept| {
            *kept.found(1) = Some(Finding::Pledged(5));
        }),
        ("of the wrong amount", "the findings", |_, kept| {
            *kept.found(2) = Some(Finding::OtherAmount);
        }),
        ("in another order", "the findings", |_, kept| {
            let last = kept.known.last_mut().expect("it is known");
            last.findings[..3].reverse();
        }),
        ("of an input elsewhere", "the findings", |_, kept| {
            *kept.found(3) = Some(Finding::Available);
        }),
        ("one is missing", "the findings", |_, kept| {
            *kept.found(2) = None;
        }),
        ("another's has changed", "the votes heard", |_, kept| {
            kept.known[0].findings[0] = Some(Finding::NotHeld);
        }),
    ];
    check(false, &register(1, taking(&inputs, 1)), &wrong);
    check(true, &vote(1, &inputs), &wrong);
    // Not where the vote says so, but where the state does.
    let all: [(_, _, Spoil); 1] = [("pledged, with a yes", "the findings", |_, kept| {
        *kept.found(0) = Some(Finding::Pledged(3));
    })];
    check(false, &register(1, taking(&[FIRST], 2)), &all);
}

/// A pledge to a transaction that the shard has never known is told rightly, and
/// is wrong.
#[test]
fn a_finding_of_an_unknown_transaction_is_caught() {
    let mut shard = holding(false);
    let record = register(1, taking(&[PLEDGED], 1));
    let mut before = Kept::of(&shard);
    let answer = shard.play(&record);
    let fault = |before: &Kept| {
        let registration = Registration::of(&record, answer, before.view());
        let after = Kept {
            known: [&before.known[..], &shard.known()[1..]].concat(),
            ..Kept::of(&shard)
        };
        registration.expect("it is registered").fault(after.view())
    };
    assert_eq!(fault(&before), None);
    before.known[0].transaction.number = 4;
    assert_eq!(fault(&before), Some("the findings"));
}

#[test]
fn a_wrong_no_at_a_turned_shard_is_caught() {
    let partly = register(1, taking(&[PLEDGED, FIRST], 1));
    let wrong: [(_, _, Spoil); 2] = [
        ("still pledged", "the tokens", |_, kept| {
            kept.tokens[0].pledge = Some(5);
        }),
        ("another's pledge ended", "the tokens", |_, kept| {
            kept.tokens[1].pledge = None;
        }),
    ];
    check(true, &partly, &wrong);
}

#[test]
fn a_wrong_yes_is_caught() {
    let all = register(1, taking(&[THIRD, ELSEWHERE], 1));
    let wrong: [(_, _, Spoil); 5] = [
        ("no for a token elsewhere", "the message", |answer, kept| {
            *answer = registered(No, Abort);
            *kept.heard(1) = Some(No);
        }),
        ("committed without the other", "the outcome", |answer, _| {
            *answer = registered(Yes, Commit);
        }),
        ("not pledged", "the tokens", |_, kept| {
            kept.tokens[2].pledge = None;
        }),
        ("pledged by a name elsewhere", "the tokens", |_, kept| {
            kept.tokens[0].pledge = Some(5);
        }),
        ("in another order", "the tokens", |_, kept| {
            kept.tokens.reverse();
        }),
    ];
    check(false, &all, &wrong);

    let outputs_only = register(1, taking(&[ELSEWHERE], 1));
    let wrong: [(_, _, Spoil); 1] = [("no", "the message", |answer, kept| {
        *answer = registered(No, Abort);
        *kept.heard(1) = Some(No);
    })];
    check(false, &outputs_only, &wrong);
}

#[test]
fn a_wrong_commit_is_caught() {
    let local = register(1, taking(&[FIRST], 1));
    let wrong: [(_, _, Spoil); 4] = [
        ("the input is held", "the tokens", |_, kept| {
            kept.tokens = tokens([Some(5), Some(3), None]);
        }),
        ("the output is not made", "the tokens", |_, kept| {
            kept.tokens.pop();
        }),
        ("it is made at another index", "the tokens", |_, kept| {
            kept.tokens[2].index = 1;
        }),
        ("another's pledge ended", "the tokens", |_, kept| {
            kept.tokens[0].pledge = None;
        }),
    ];
    check(false, &local, &wrong);
}

#[test]
fn a_wrong_step_for_a_vote_is_caught() {
    let wrong: [(_, _, Spoil); 4] = [
        ("its own no", "the message", |answer, kept| {
            *answer = Ok(Done::Brought {
                verdict: No,
                outcome: Abort,
            });
            *kept.heard(1) = Some(No);
        }),
        ("the vote is not heard", "the votes heard", |_, kept| {
            *kept.heard(0) = None;
        }),
        ("the yes is not heard", "the votes heard", |_, kept| {
            *kept.heard(1) = None;
        }),
        ("never pledged", "the tokens", |_, kept| {
            kept.tokens[0].pledge = None;
        }),
    ];
    check(false, &vote(0, &[FIRST]), &wrong);
    let freed: [(_, _, Spoil); 1] = [("still pledged", "the tokens", |_, kept| {
        kept.tokens[0].pledge = Some(5);
    })];
    check(true, &vote(0, &[FIRST]), &freed);
    let committed: [(_, _, Spoil); 1] = [("still held", "the tokens", |_, kept| {
        kept.tokens = tokens([Some(5), Some(3), None]);
    })];
    check(true, &vote(1, &[FIRST]), &committed);
}

/// What the registration is counted as.
fn counted(turned: bool, record: &Record) -> Tally {
    let mut shard = holding(turned);
    let before = Kept::of(&shard);
    let answer = shard.play(record);
    let registration = Registration::of(record, answer, before.view());
    let mut tally = Tally::default();
    registration.expect("it is registered").count(&mut tally);
    tally
}

/// The registration shows these things, each once, and nothing else.
fn check_shown(turned: bool, record: &Record, way: &str, kinds: &[&str]) {
    let tally = counted(turned, record);
    let mut labels = registration_labels();
    labels.retain(|label| tally.count(label) == 1);
    let expected: Vec<String> = kinds.iter().map(|kind| format!("{way}: {kind}")).collect();
    assert_eq!(labels, expected);
}

#[test]
fn what_registrations_show() {
    let elsewhere = [
        "an input elsewhere",
        "an input elsewhere, named like a free token here",
    ];
    let none = [&["no input here"][..], &elsewhere].concat();
    check_shown(
        false,
        &register(1, taking(&[ELSEWHERE], 1)),
        "registered",
        &none,
    );
    let all = ["all available", "pledged, committed"];
    check_shown(false, &register(1, taking(&[THIRD], 1)), "registered", &all);
    check_shown(true, &vote(1, &[THIRD]), "brought", &all);
    let waits = ["all available", "pledged, waits", "an input elsewhere"];
    let away = (0, 0, 9, 20, 4);
    check_shown(
        false,
        &register(1, taking(&[THIRD, away], 1)),
        "registered",
        &waits,
    );
    let partly = [
        "some available",
        "no, pledged alone",
        "pledged, bound after the abort",
        "two inputs here or more",
        "available behind one that is not",
    ];
    check_shown(
        false,
        &register(1, taking(&[PLEDGED, FIRST], 1)),
        "registered",
        &partly,
    );
}

#[test]
fn what_causes_of_a_no_show() {
    let causes = [
        (NOT_HELD, "no, not held"),
        (OTHER_OWNER, "no, other owner alone"),
        (OTHER_AMOUNT, "no, other amount alone"),
        (PLEDGED, "no, pledged alone"),
    ];
    for (input, cause) in causes {
        check_shown(
            false,
            &vote(1, &[input]),
            "brought",
            &["none available", cause],
        );
        let partly = [
            "some available",
            cause,
            "pledged, freed by the abort",
            "two inputs here or more",
        ];
        check_shown(true, &vote(1, &[FIRST, input]), "brought", &partly);
    }
    // Two causes, of two inputs or of one.
    let two = ["none available", "two inputs here or more"];
    check_shown(false, &vote(1, &[NOT_HELD, PLEDGED]), "brought", &two);
    let both = (1, 0, 2, 20, 4);
    check_shown(false, &vote(1, &[both]), "brought", &["none available"]);
}

/// Each finding is counted, and what else is wrong with the token behind it.
#[test]
fn what_findings_are_counted_as() {
    let wrong = |index, owner, amount| (1, 0, index, owner, amount);
    let inputs = [PLEDGED, FIRST, NOT_HELD, wrong(2, 20, 4)];
    let others = [wrong(1, 21, 4), wrong(2, 21, 4), ELSEWHERE];
    let doubly = [wrong(1, 20, 6), THIRD];
    let cases: [(&[InputFields], &[&str]); 3] = [
        (
            &inputs,
            &[
                "available",
                "not held",
                "other owner",
                "pledged",
                "other owner, and other amount",
            ],
        ),
        (
            &others,
            &["other owner", "other amount", "other owner, and pledged"],
        ),
        (
            &doubly,
            &["available", "other amount", "other amount, and pledged"],
        ),
    ];
    for (inputs, kinds) in cases {
        for (way, record) in [
            ("registered", register(1, taking(inputs, 0))),
            ("brought", vote(1, inputs)),
        ] {
            let tally = counted(false, &record);
            let mut labels = [finding_labels(), second_cause_labels()].concat();
            labels.retain(|label| tally.count(label) == 1);
            let expected = kinds.iter().map(|kind| format!("{way}: found {kind}"));
            assert_eq!(labels, Vec::from_iter(expected));
        }
    }
}
