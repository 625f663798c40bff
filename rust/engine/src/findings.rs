//! Findings in the reference's types, and their words.

use plankeeper::boundary::{FINDINGS_WORDS, FindingsWords};
use reference::{Finding, Findings, Refusal};

use crate::answers::refusal;
use crate::places::FINDING_WORDS;

/// The engine's findings in the reference's types.
pub fn findings(
    findings: Result<plankeeper::Findings, plankeeper::Refusal>,
) -> Result<Vec<Finding>, Refusal> {
    let finding = |finding: &plankeeper::Finding| match *finding {
        plankeeper::Finding::Available => Finding::Available,
        plankeeper::Finding::NotHeld => Finding::NotHeld,
        plankeeper::Finding::OtherOwner => Finding::OtherOwner,
        plankeeper::Finding::OtherAmount => Finding::OtherAmount,
        plankeeper::Finding::Pledged(number) => Finding::Pledged(number),
    };
    let findings = findings.map(|findings| findings.iter().map(finding).collect());
    findings.map_err(refusal)
}

/// The code of the reference's findings, and the words: those that were lent
/// where the question is refused.
pub fn findings_words(
    findings: Result<Findings, Refusal>,
    lent: FindingsWords,
) -> (u32, FindingsWords) {
    let findings = match findings {
        Ok(findings) => findings,
        Err(refusal) => return (refusal.number().into(), lent),
    };
    let mut words = [0; FINDINGS_WORDS];
    let (places, _) = words.as_chunks_mut::<FINDING_WORDS>();
    for (place, finding) in places.iter_mut().zip(findings.iter().flatten()) {
        *place = match *finding {
            Finding::Available => [1, 0],
            Finding::NotHeld => [2, 0],
            Finding::OtherOwner => [3, 0],
            Finding::OtherAmount => [4, 0],
            Finding::Pledged(number) => [5, number],
        };
    }
    (700 + findings.iter().flatten().count() as u32, words)
}

/// The finding of these words. Panics if they are none.
pub(crate) fn finding(words: [u32; FINDING_WORDS]) -> Finding {
    match words {
        [1, 0] => Finding::Available,
        [2, 0] => Finding::NotHeld,
        [3, 0] => Finding::OtherOwner,
        [4, 0] => Finding::OtherAmount,
        [5, number] if number != 0 => Finding::Pledged(number),
        _ => panic!("the engine found {words:?}"),
    }
}
