//! Answers from their parts.

use reference::{Answer, Done, Outcome, Verdict};

pub fn registered(verdict: Verdict, outcome: Outcome) -> Answer {
    Ok(Done::Registered { verdict, outcome })
}
