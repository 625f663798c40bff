//! What registrations find of their inputs (document 02, slip 2): each finding is
//! counted, and so is what else is wrong with the token, for the first that fits
//! counts.

use reference::{Finding, Input, Token};

use crate::tally::Tally;
use crate::transactions::held;

/// The five findings.
const KINDS: [&str; 5] = [
    "found available",
    "found not held",
    "found other owner",
    "found other amount",
    "found pledged",
];

/// Those with a second cause behind the first.
const SECOND_CAUSES: [&str; 3] = [
    "found other owner, and other amount",
    "found other owner, and pledged",
    "found other amount, and pledged",
];

/// How a registration came about.
#[derive(Clone, Copy, Debug, PartialEq, Eq)]
pub(crate) enum Way {
    /// By a call of its own.
    Registered,
    /// By a vote.
    Brought,
}

impl Way {
    /// In front of what is counted.
    pub(crate) fn word(self) -> &'static str {
        match self {
            Way::Registered => "registered",
            Way::Brought => "brought",
        }
    }
}

/// Each of these behind the word for each way.
pub(crate) fn labels(kinds: &[&str]) -> Vec<String> {
    let ways = [Way::Registered, Way::Brought].iter();
    let labels = ways.flat_map(|way| kinds.iter().map(|kind| format!("{}: {kind}", way.word())));
    labels.collect()
}

/// What findings are counted as, those of registrations by a call of their own
/// and of those that votes bring.
pub fn finding_labels() -> Vec<String> {
    labels(&KINDS)
}

/// What those findings are counted as, too, that have another one behind them.
pub fn second_cause_labels() -> Vec<String> {
    labels(&SECOND_CAUSES)
}

/// Counts what a registration has found of these inputs, which stand in the order
/// of the findings; the tokens are those held before it.
pub(crate) fn count(
    tally: &mut Tally,
    way: Way,
    inputs: &[Input],
    findings: &[Finding],
    tokens: &[Token],
) {
    let mut add = |kind: &str| tally.add(&format!("{}: {kind}", way.word()));
    for (input, finding) in inputs.iter().zip(findings) {
        add(match finding {
            Finding::Available => "found available",
            Finding::NotHeld => "found not held",
            Finding::OtherOwner => "found other owner",
            Finding::OtherAmount => "found other amount",
            Finding::Pledged(_) => "found pledged",
        });
        let Some(token) = held(tokens, input.token) else {
            continue;
        };
        let (amount, pledged) = (token.amount != input.amount, token.pledge.is_some());
        match finding {
            Finding::OtherOwner if amount => add("found other owner, and other amount"),
            Finding::OtherOwner if pledged => add("found other owner, and pledged"),
            Finding::OtherAmount if pledged => add("found other amount, and pledged"),
            _ => {}
        }
    }
}
