//! What a planner prints, from documents 01 and 02 alone.

use std::fmt::Write;

use reference::{Cluster, Finding, Known, LIMITS, Outcome, Shard, Token, Verdict, read};
use weeks::CAUSES;

/// The text for these records, whose listing is given: its lines, each refusal
/// with its sentence, then what the shards hold and know, with the inputs that
/// were not available, then its total.
pub fn planner_text(bytes: &[u8], listing: &str) -> String {
    let (answers, total) = listing.split_at(listing.rfind("TOTAL").expect("it has a total"));
    let mut text = String::new();
    for line in answers.lines() {
        text += line;
        if let Some((_, number)) = line.split_once("REFUSED ") {
            let number: u32 = number.parse().expect("a refusal has a number");
            let cause = CAUSES.iter().find(|cause| cause.reply.code == number);
            text += ": ";
            text += cause.expect("the cause has a row").sentence;
        }
        text += "\n";
    }
    for shard in played(bytes).shards() {
        put_shard(&mut text, shard).expect("a string takes every text");
    }
    text + total
}

/// The cluster after these records.
fn played(mut bytes: &[u8]) -> Cluster {
    let mut cluster = Cluster::new(LIMITS);
    while !bytes.is_empty() {
        let reading = read(bytes);
        if let Ok(record) = reading.outcome {
            // A refused call changes nothing; the listing has its line.
            let _ = cluster.play(&record);
        }
        bytes = &bytes[reading.taken..];
    }
    cluster
}

fn put_shard(text: &mut String, shard: &Shard) -> std::fmt::Result {
    let number = shard.number();
    let (tokens, known) = (shard.tokens(), shard.known());
    let (held, total, swaps) = (tokens.len(), shard.total(), known.len());
    let turned = if shard.is_turned() { ", turned" } else { "" };
    writeln!(
        text,
        "pantry {number}: tokens {held}, portions {total}, swaps {swaps}{turned}"
    )?;
    for token in tokens {
        put_token(text, number, token)?;
    }
    for known in known {
        put_known(text, known)?;
        put_spoilt(text, number, known)?;
    }
    Ok(())
}

fn put_token(text: &mut String, shard: u8, token: &Token) -> std::fmt::Result {
    let Token {
        creator,
        index,
        owner,
        amount,
        pledge,
    } = token;
    write!(
        text,
        "  token {shard}/{creator}/{index}: household {owner}, portions {amount}"
    )?;
    if let Some(number) = pledge {
        write!(text, ", pledged to swap {number}")?;
    }
    writeln!(text)
}

fn put_known(text: &mut String, known: &Known) -> std::fmt::Result {
    let outcome = match known.outcome() {
        Outcome::Wait => "WAIT",
        Outcome::Commit => "COMMIT",
        Outcome::Abort => "ABORT",
    };
    write!(
        text,
        "  swap {}: {outcome}, heard",
        known.transaction.number
    )?;
    for (sender, verdict) in known.heard.iter().enumerate() {
        match verdict {
            Some(Verdict::Yes) => write!(text, " {sender} yes")?,
            Some(Verdict::No) => write!(text, " {sender} no")?,
            None => {}
        }
    }
    writeln!(text)
}

/// The inputs here that were not available, by their places among all inputs.
fn put_spoilt(text: &mut String, shard: u8, known: &Known) -> std::fmt::Result {
    let inputs = (1..).zip(known.transaction.used_inputs());
    let here = inputs.filter(|(_, input)| input.token.shard == shard);
    for ((place, _), finding) in here.zip(known.findings.iter().flatten()) {
        match finding {
            Finding::Available => {}
            Finding::NotHeld => writeln!(text, "    input {place}: not held")?,
            Finding::OtherOwner => writeln!(text, "    input {place}: other household")?,
            Finding::OtherAmount => writeln!(text, "    input {place}: other portions")?,
            Finding::Pledged(number) => {
                writeln!(text, "    input {place}: pledged to swap {number}")?;
            }
        }
    }
    Ok(())
}
