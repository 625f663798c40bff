//! Answers in the reference's types, and their codes.

use reference::{Answer, Done, Outcome, Refusal, Verdict};

/// The engine's answer in the reference's types.
pub fn answer(answer: Result<plankeeper::Answer, plankeeper::Refusal>) -> Answer {
    match answer {
        Err(cause) => Err(refusal(cause)),
        Ok(plankeeper::Answer::Minted) => Ok(Done::Minted),
        Ok(plankeeper::Answer::Registered {
            verdict: said,
            outcome: decided,
        }) => Ok(Done::Registered {
            verdict: verdict(said),
            outcome: outcome(decided),
        }),
        Ok(plankeeper::Answer::Heard(decided)) => Ok(Done::Heard(outcome(decided))),
        Ok(plankeeper::Answer::Again(decided)) => Ok(Done::Again(outcome(decided))),
        Ok(plankeeper::Answer::Turned) => Ok(Done::Turned),
        Ok(plankeeper::Answer::Brought {
            verdict: said,
            outcome: decided,
        }) => Ok(Done::Brought {
            verdict: verdict(said),
            outcome: outcome(decided),
        }),
    }
}

/// The refusal with the same number. Panics if there is none.
pub fn refusal(refusal: plankeeper::Refusal) -> Refusal {
    let cause = Refusal::from_number(refusal.number());
    cause.unwrap_or_else(|| panic!("the reference has no refusal for {refusal:?}"))
}

pub(crate) fn verdict(verdict: plankeeper::Verdict) -> Verdict {
    match verdict {
        plankeeper::Verdict::No => Verdict::No,
        plankeeper::Verdict::Yes => Verdict::Yes,
    }
}

fn outcome(outcome: plankeeper::Outcome) -> Outcome {
    match outcome {
        plankeeper::Outcome::Wait => Outcome::Wait,
        plankeeper::Outcome::Commit => Outcome::Commit,
        plankeeper::Outcome::Abort => Outcome::Abort,
    }
}

/// The code of the reference's outcome.
pub fn outcome_code(outcome: Outcome) -> u32 {
    match outcome {
        Outcome::Wait => 0,
        Outcome::Commit => 1,
        Outcome::Abort => 2,
    }
}

/// The code of the reference's answer.
pub fn answer_code(answer: Answer) -> u32 {
    match answer {
        Err(refusal) => refusal.number().into(),
        Ok(Done::Minted) => 100,
        Ok(Done::Registered { verdict, outcome }) => 200 + entered_code(verdict, outcome),
        Ok(Done::Heard(outcome)) => 300 + outcome_code(outcome),
        Ok(Done::Again(outcome)) => 400 + outcome_code(outcome),
        Ok(Done::Turned) => 500,
        Ok(Done::Brought { verdict, outcome }) => 600 + entered_code(verdict, outcome),
    }
}

/// What the code of an answer tells of a transaction that the shard knows now.
fn entered_code(verdict: Verdict, outcome: Outcome) -> u32 {
    10 * u32::from(verdict == Verdict::Yes) + outcome_code(outcome)
}
