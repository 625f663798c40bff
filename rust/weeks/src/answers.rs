//! Every answer there is, and who gives it: the one table that the tests have
//! of it. A new refusal or a new answer is a row here. From then on it has a
//! word, and every test that counts answers asks for it where it can be met,
//! and shuts it out where it cannot.

use std::collections::BTreeSet;

use reference::Outcome::{Abort, Commit, Wait};
use reference::Verdict::{No, Yes};
use reference::{Answer, Done, Outcome, Refusal, Verdict};

/// Who gives answers.
#[derive(Clone, Copy, Debug, PartialEq, Eq)]
pub enum Giver {
    /// The reader of records.
    Reader,
    /// The writers of records.
    Writer,
    /// The calls on a lone shard.
    Shard,
    /// The calls on a cluster.
    Cluster,
    /// The question for findings, at a lone shard and in a cluster. It changes
    /// nothing, and is none of the calls.
    Findings,
}

/// An answer.
#[derive(Clone, Copy, Debug, PartialEq, Eq)]
pub struct Reply {
    /// Its number at the engine's boundary.
    pub code: u32,
    /// It in the reference's types.
    pub answer: Answer,
    /// The words of document 01's listing.
    pub words: &'static str,
    /// What it is counted as: the words, with another one in front where they
    /// are the words of two answers. Of a call that was carried out it is, in
    /// capitals, the name in the header.
    pub label: &'static str,
    /// A letter for each who gives it, none where it cannot be: r for the
    /// reader, w for the writers, m for a mint, g for a registration, v for a
    /// vote, t for a turn, f for a question for findings; s for a vote at a lone
    /// shard alone, c for one in a cluster alone.
    givers: &'static str,
}

/// A cause of refusal.
#[derive(Clone, Copy, Debug, PartialEq, Eq)]
pub struct Cause {
    /// The refusal.
    pub reply: Reply,
    /// Its name in the header, without what all names have in front.
    pub name: &'static str,
    /// Document 01's sentence, to the letter but for the kinds that document 02
    /// has added; from 17 on what that asks for, in the same words.
    pub sentence: &'static str,
}

/// What a reading or a writing without a refusal is counted as.
pub const ACCEPTED: &str = "accepted";

/// An answer that cannot be, although it has a number: a registration with a no
/// aborts at once, also one that a vote has brought, and one with a yes has
/// heard no other vote, unless a vote has brought it.
const NOBODY: &str = "";

/// The answer with this number to a vote that has brought its transaction. Its
/// words are a registration's.
macro_rules! brought {
    ($number:literal, $verdict:ident, $outcome:ident, $words:literal, $givers:expr) => {
        Reply {
            code: $number,
            answer: Ok(Done::Brought {
                verdict: $verdict,
                outcome: $outcome,
            }),
            words: $words,
            label: concat!("brought ", $words),
            givers: $givers,
        }
    };
}

/// Every answer to a call that was carried out, in the order of the numbers.
pub const DONE: &[Reply] = &[
    done(100, Done::Minted, "OPENED", "m"),
    done(200, registered(No, Wait), "NO WAIT", NOBODY),
    done(201, registered(No, Commit), "NO COMMIT", NOBODY),
    done(202, registered(No, Abort), "NO ABORT", "g"),
    done(210, registered(Yes, Wait), "YES WAIT", "g"),
    done(211, registered(Yes, Commit), "YES COMMIT", "g"),
    done(212, registered(Yes, Abort), "YES ABORT", NOBODY),
    done(300, Done::Heard(Wait), "HEARD WAIT", "v"),
    done(301, Done::Heard(Commit), "HEARD COMMIT", "v"),
    done(302, Done::Heard(Abort), "HEARD ABORT", "v"),
    done(400, Done::Again(Wait), "AGAIN WAIT", "v"),
    done(401, Done::Again(Commit), "AGAIN COMMIT", "v"),
    done(402, Done::Again(Abort), "AGAIN ABORT", "v"),
    done(500, Done::Turned, "TURNED", "t"),
    brought!(600, No, Wait, "NO WAIT", NOBODY),
    brought!(601, No, Commit, "NO COMMIT", NOBODY),
    brought!(602, No, Abort, "NO ABORT", "v"),
    brought!(610, Yes, Wait, "YES WAIT", "v"),
    brought!(611, Yes, Commit, "YES COMMIT", "v"),
    brought!(612, Yes, Abort, "YES ABORT", "v"),
];

const fn done(code: u32, done: Done, words: &'static str, givers: &'static str) -> Reply {
    let answer = Ok(done);
    Reply {
        code,
        answer,
        words,
        label: words,
        givers,
    }
}

const fn registered(verdict: Verdict, outcome: Outcome) -> Done {
    Done::Registered { verdict, outcome }
}

/// The cause with this number: the reference's refusal, who gives it, its name
/// and its sentence.
macro_rules! cause {
    ($number:literal, $refusal:ident, $givers:literal, $name:literal, $sentence:literal) => {
        Cause {
            reply: Reply {
                code: $number,
                answer: Err(Refusal::$refusal),
                words: concat!("REFUSED ", $number),
                label: concat!("REFUSED ", $number),
                givers: $givers,
            },
            name: $name,
            sentence: $sentence,
        }
    };
}

/// Every cause of refusal, in the order of the numbers. The reader checks 1 to
/// 5, the writers 3 to 5 and 15, a call from 3 on; a mint and a turn have no
/// transaction, so neither 4 nor 5 nor 6, and a question for findings has 3 and
/// 18 alone. A registration and a vote that brings
/// its transaction look for 9, 10 and 17, in this order and last. In a cluster
/// 16 goes before 12, and before 11, which is the answer to a shard's own vote
/// on a number that it does not know. A row is a line.
#[rustfmt::skip]
pub const CAUSES: &[Cause] = &[
    cause!(1, UnknownKind, "r", "UNKNOWN_KIND", "kind not 1 to 4"),
    cause!(2, TooShort, "r", "TOO_SHORT", "no bytes, or fewer than the kind's length"),
    cause!(3, OutOfRange, "rwmgvtf", "OUT_OF_RANGE", "field or count outside its range; pantry above 7; unused slot not zero"),
    cause!(4, TokenTwice, "rwgv", "TOKEN_TWICE", "one token named twice"),
    cause!(5, SumsDiffer, "rwgv", "SUMS_DIFFER", "sums differ"),
    cause!(6, NotTakingPart, "gv", "NOT_TAKING_PART", "receiver or sender not among the swap's pantries"),
    cause!(7, NumberTaken, "gv", "NUMBER_TAKEN", "number known here for a different swap"),
    cause!(8, KnownAlready, "g", "KNOWN_ALREADY", "kind 1: this swap known here"),
    cause!(9, TransactionsFull, "gv", "TRANSACTIONS_FULL", "kind 1 or 2: 32 swaps known"),
    cause!(10, TokensFull, "gv", "TOKENS_FULL", "kind 1 or 2: tokens would pass 128"),
    cause!(11, NumberUnknown, "s", "NUMBER_UNKNOWN", "kind 2: number unknown here"),
    cause!(12, OtherVerdict, "s", "OTHER_VERDICT", "kind 2: other verdict heard from this sender"),
    cause!(13, MintTooLate, "m", "MINT_TOO_LATE", "kind 3: a swap is known here"),
    cause!(14, IndexGiven, "m", "INDEX_GIVEN", "kind 3: this opening position was given"),
    cause!(15, BufferTooShort, "w", "BUFFER_TOO_SHORT", "writer: lent bytes fewer than the record"),
    cause!(16, VoteNotGiven, "c", "VOTE_NOT_GIVEN", "round, kind 2: sender has not given this vote on this swap"),
    cause!(17, HeldOff, "gv", "HELD_OFF", "kind 1 or 2: takes what an undecided swap is to make here"),
    cause!(18, NoSuchNumber, "f", "NO_SUCH_NUMBER", "findings: number not known at that pantry"),
    cause!(19, TurnedAlready, "t", "TURNED_ALREADY", "kind 4: this pantry is turned already"),
];

impl Giver {
    /// Its letters in the table.
    fn letters(self) -> &'static [char] {
        match self {
            Giver::Reader => &['r'],
            Giver::Writer => &['w'],
            Giver::Shard => &['m', 'g', 'v', 't', 's'],
            Giver::Cluster => &['m', 'g', 'v', 't', 'c'],
            Giver::Findings => &['f'],
        }
    }
}

impl Reply {
    fn is_given_by(&self, givers: &[Giver]) -> bool {
        let mut givers = givers.iter();
        givers.any(|giver| self.givers.contains(giver.letters()))
    }
}

impl Cause {
    /// The letters of those who give it as the header has them, where a vote
    /// is a vote.
    pub fn letters(&self) -> String {
        self.reply.givers.replace(['s', 'c'], "v")
    }
}

/// Every answer.
pub fn replies() -> impl Iterator<Item = &'static Reply> {
    let refused = CAUSES.iter().map(|cause| &cause.reply);
    DONE.iter().chain(refused)
}

/// What the answer is counted as.
pub fn label(answer: Answer) -> &'static str {
    let found = replies().find(|reply| reply.answer == answer);
    let reply = found.unwrap_or_else(|| panic!("{answer:?} is not in the table of answers"));
    reply.label
}

/// Whether a call with this answer has changed nothing: it was refused, or it
/// was a repeat.
pub fn changes_nothing(answer: Answer) -> bool {
    matches!(answer, Err(_) | Ok(Done::Again(_)))
}

/// What a reading or a writing is counted as whose refusal has this number; 0
/// stands for none.
pub fn refused(number: u8) -> &'static str {
    if number == 0 {
        return ACCEPTED;
    }
    let found = CAUSES
        .iter()
        .find(|cause| cause.reply.code == number.into());
    let cause = found.unwrap_or_else(|| panic!("there is no refusal {number}"));
    cause.reply.label
}

/// The labels of all answers that one of these gives.
pub fn given_by(givers: &[Giver]) -> Vec<&'static str> {
    labels(|reply| reply.is_given_by(givers))
}

/// The labels of all answers that none of these gives.
pub fn never_given_by(givers: &[Giver]) -> Vec<&'static str> {
    labels(|reply| !reply.is_given_by(givers))
}

/// The labels of all answers to calls that were carried out.
pub fn carried_out() -> Vec<&'static str> {
    labels(|reply| reply.answer.is_ok() && reply.givers != NOBODY)
}

/// The labels of those among them that tell of a registration, by a call of its
/// own or by a vote.
pub fn registering() -> Vec<&'static str> {
    let registers = |done| matches!(done, Done::Registered { .. } | Done::Brought { .. });
    labels(|reply| reply.answer.is_ok_and(registers) && reply.givers != NOBODY)
}

fn labels(keep: impl Fn(&Reply) -> bool) -> Vec<&'static str> {
    let kept = replies().filter(|reply| keep(reply));
    kept.map(|reply| reply.label).collect()
}

/// The listing's words for the answers that one of these gives, and those that
/// it never has for them. Words may be shared: a listing does not tell how a
/// transaction came to be registered.
pub fn shown_for(givers: &[Giver]) -> [Vec<&'static str>; 2] {
    let given = replies().filter(|reply| reply.is_given_by(givers));
    let shown: BTreeSet<&str> = given.map(|reply| reply.words).collect();
    let others = replies().filter(|reply| !shown.contains(reply.words));
    let never = others.map(|reply| reply.words).collect();
    [shown.into_iter().collect(), never]
}
