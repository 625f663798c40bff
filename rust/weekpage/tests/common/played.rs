//! A week's records on the reference, step by step.

use reference::{Answer, Cluster, LIMITS, Record, read};

/// A record that was read and played. One that could not be read has an answer
/// and nothing else.
pub type Played<'a> = (Option<&'a Record>, Answer);

/// Plays the records and shows each, with the cluster after it, as far as the
/// listing reads them. Gives the cluster at the end.
pub fn play(bytes: &[u8], mut show: impl FnMut(Played<'_>, &Cluster)) -> Cluster {
    let mut cluster = Cluster::new(LIMITS);
    let mut rest = bytes;
    while !rest.is_empty() {
        let reading = read(rest);
        let record = reading.outcome.as_ref();
        let answer = record
            .map_err(|refusal| *refusal)
            .and_then(|record| cluster.play(record));
        show((record.ok(), answer), &cluster);
        rest = &rest[reading.taken..];
    }
    cluster
}
