//! What a call answers.

use std::fmt::{self, Display, Formatter};

use crate::Refusal;
use crate::defect::nameless;

/// A shard's vote on a transaction. Shown as text: NO, YES.
#[derive(Clone, Copy, Debug, PartialEq, Eq, Hash)]
pub enum Verdict {
    /// Some input at the shard is not available.
    No = 0,
    /// All inputs at the shard are available.
    Yes = 1,
}

/// What a shard has decided on a transaction. Shown as text: WAIT, COMMIT,
/// ABORT.
#[derive(Clone, Copy, Debug, PartialEq, Eq, Hash)]
pub enum Outcome {
    /// Nothing yet: votes are missing, and those heard are yes.
    Wait = 0,
    /// All votes are heard and are yes: the inputs here are destroyed, the
    /// outputs here are made.
    Commit = 1,
    /// A no was heard, whatever votes are missing: no token is changed but for
    /// its pledge. At a shard that is turned what was pledged to the
    /// transaction is free; at one that is not pledges stay.
    Abort = 2,
}

/// What came of a call that was carried out. Shown as text it is the listing's
/// words, which tell no difference between a transaction that was registered by
/// its own call and one that a vote has brought.
///
/// ```
/// use plankeeper::{Answer, Outcome, Verdict};
///
/// let (verdict, outcome) = (Verdict::Yes, Outcome::Wait);
/// assert_eq!(Answer::Registered { verdict, outcome }.to_string(), "YES WAIT");
/// assert_eq!(Answer::Heard(Outcome::Commit).to_string(), "HEARD COMMIT");
/// assert_eq!(Answer::Brought { verdict, outcome }.to_string(), "YES WAIT");
/// ```
#[derive(Clone, Copy, Debug, PartialEq, Eq, Hash)]
pub enum Answer {
    /// The shard holds the genesis token now (document 01: opened).
    Minted,
    /// The shard knows the transaction now and has voted on it.
    Registered {
        /// The shard's own vote.
        verdict: Verdict,
        /// What the shard has decided: abort where its own vote is no, and
        /// commit where that is yes and there is no other shard.
        outcome: Outcome,
    },
    /// The vote was fresh; this is what the shard has decided with it. After an
    /// abort a vote is still noted, and the abort stays.
    Heard(Outcome),
    /// The shard had heard the vote before, and nothing is changed; this is
    /// what it had decided.
    Again(Outcome),
    /// The shard is turned now: what aborted transactions had pledged there is
    /// free, and each later abort frees what is pledged to its transaction.
    Turned,
    /// The vote was on a number that the shard did not know, and has brought
    /// its transaction: the shard has registered it and then heard the vote.
    Brought {
        /// The shard's own vote.
        verdict: Verdict,
        /// What the shard has decided with both votes: abort where one of them
        /// is no, and commit where both are yes and there is no third shard.
        outcome: Outcome,
    },
}

impl Outcome {
    /// The outcome with this number, if there is one.
    #[inline]
    pub(crate) fn from_number(number: u32) -> Option<Self> {
        match number {
            0 => Some(Outcome::Wait),
            1 => Some(Outcome::Commit),
            2 => Some(Outcome::Abort),
            _ => None,
        }
    }
}

/// The number that stands for the answer at the [boundary](crate::boundary).
///
/// ```
/// use plankeeper::{Answer, Outcome, Refusal, answer_code, answer_from_code};
///
/// assert_eq!(answer_code(&Ok(Answer::Heard(Outcome::Commit))), 301);
/// assert_eq!(answer_code(&Err(Refusal::SumsDiffer)), 5);
/// assert_eq!(answer_from_code(301), Some(Ok(Answer::Heard(Outcome::Commit))));
/// assert_eq!(answer_from_code(20), None);
/// ```
#[inline]
pub fn answer_code(answer: &Result<Answer, Refusal>) -> u32 {
    match *answer {
        Err(refusal) => refusal.number().into(),
        Ok(Answer::Minted) => 100,
        Ok(Answer::Registered { verdict, outcome }) => 200 + entered_code(verdict, outcome),
        Ok(Answer::Heard(outcome)) => 300 + outcome as u32,
        Ok(Answer::Again(outcome)) => 400 + outcome as u32,
        Ok(Answer::Turned) => 500,
        Ok(Answer::Brought { verdict, outcome }) => 600 + entered_code(verdict, outcome),
    }
}

/// What the number of an answer tells of a transaction that the shard knows
/// now.
#[inline]
fn entered_code(verdict: Verdict, outcome: Outcome) -> u32 {
    10 * verdict as u32 + outcome as u32
}

/// The answer that the number stands for; nothing if it stands for none.
#[inline]
pub fn answer_from_code(code: u32) -> Option<Result<Answer, Refusal>> {
    let outcome = |first| Outcome::from_number(code - first);
    let registered = |verdict, first| {
        let outcome = outcome(first)?;
        Some(Answer::Registered { verdict, outcome })
    };
    let brought = |verdict, first| {
        let outcome = outcome(first)?;
        Some(Answer::Brought { verdict, outcome })
    };
    let answer = match code {
        100 => Some(Answer::Minted),
        200..=202 => registered(Verdict::No, 200),
        210..=212 => registered(Verdict::Yes, 210),
        300..=302 => outcome(300).map(Answer::Heard),
        400..=402 => outcome(400).map(Answer::Again),
        500 => Some(Answer::Turned),
        600..=602 => brought(Verdict::No, 600),
        610..=612 => brought(Verdict::Yes, 610),
        _ => {
            let number = u8::try_from(code).ok()?;
            return Refusal::from_number(number).map(Err);
        }
    };
    answer.map(Ok)
}

/// The answer that the library's number stands for.
#[inline]
pub(crate) fn answered(code: u32) -> Result<Answer, Refusal> {
    answer_from_code(code).unwrap_or_else(|| nameless("a call", code))
}

impl Display for Verdict {
    fn fmt(&self, f: &mut Formatter<'_>) -> fmt::Result {
        f.pad(match self {
            Verdict::No => "NO",
            Verdict::Yes => "YES",
        })
    }
}

impl Display for Outcome {
    fn fmt(&self, f: &mut Formatter<'_>) -> fmt::Result {
        f.pad(match self {
            Outcome::Wait => "WAIT",
            Outcome::Commit => "COMMIT",
            Outcome::Abort => "ABORT",
        })
    }
}

impl Display for Answer {
    fn fmt(&self, f: &mut Formatter<'_>) -> fmt::Result {
        match self {
            Answer::Minted => f.write_str("OPENED"),
            Answer::Registered { verdict, outcome } | Answer::Brought { verdict, outcome } => {
                write!(f, "{verdict} {outcome}")
            }
            Answer::Heard(outcome) => write!(f, "HEARD {outcome}"),
            Answer::Again(outcome) => write!(f, "AGAIN {outcome}"),
            Answer::Turned => f.write_str("TURNED"),
        }
    }
}
