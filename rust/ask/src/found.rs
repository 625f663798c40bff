//! What a shard found of a transaction's inputs there.

use plankeeper::{Cluster, Finding, Input, Refusal, Transaction};

/// What a shard found of an input there.
#[derive(Clone, Copy, Debug, PartialEq, Eq)]
pub struct Found {
    /// The input's place among all inputs of the transaction, from 1.
    pub place: usize,
    /// The input.
    pub input: Input,
    /// What was found of it.
    pub finding: Finding,
}

/// The transaction's inputs at the shard, with what it found of each when it
/// registered the transaction.
pub fn found(
    cluster: &Cluster,
    shard: u8,
    transaction: &Transaction,
) -> Result<Vec<Found>, Refusal> {
    let findings = cluster.findings(shard, transaction.number())?;
    let inputs = (1..).zip(transaction.inputs());
    let here = inputs.filter(|(_, input)| input.token.shard == shard);
    let found = here
        .zip(findings.iter())
        .map(|((place, input), finding)| Found {
            place,
            input,
            finding: *finding,
        });
    Ok(found.collect())
}

/// Document 02's words for a finding.
pub fn words(finding: &Finding) -> String {
    match finding {
        Finding::Available => "available".into(),
        Finding::NotHeld => "not held".into(),
        Finding::OtherOwner => "other household".into(),
        Finding::OtherAmount => "other portions".into(),
        Finding::Pledged(number) => format!("pledged to swap {number}"),
    }
}
