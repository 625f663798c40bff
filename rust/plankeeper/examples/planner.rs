//! Plays a week's records on a fresh cluster: a line for each record, then what
//! every shard holds and knows at the end, with the inputs that it found to spoil
//! a transaction, then the sum of all amounts.
//!
//! What it prints speaks document 01's words (pantry, swap, household,
//! portions), for the people of that trade read it.

use std::env;
use std::ffi::OsString;
use std::fs;
use std::io::{self, BufWriter, Read, Write};
use std::process::ExitCode;

use plankeeper::{Cluster, Finding, Known, Token, Verdict, records};

const USAGE: &str = "usage: planner [FILE]

Plays a week's records, from FILE or from standard input where none is named,
and prints each answer, what each pantry then holds and knows, the inputs that
it found to spoil a swap, and the total.
Exit status: 0; 1 if something cannot be read or written; 2 bad usage.";

fn main() -> ExitCode {
    let arguments: Vec<OsString> = env::args_os().skip(1).collect();
    let bytes = match arguments.as_slice() {
        [] => read_input(),
        [flag] if flag == "--help" => {
            println!("{USAGE}");
            return ExitCode::SUCCESS;
        }
        [file] if !file.as_encoded_bytes().starts_with(b"-") => {
            fs::read(file).map_err(|error| named(file, error))
        }
        _ => {
            eprintln!("{USAGE}");
            return ExitCode::from(2);
        }
    };
    let report = |bytes: Vec<u8>| report(&bytes, BufWriter::new(io::stdout()));
    match bytes.and_then(report) {
        Ok(()) => ExitCode::SUCCESS,
        Err(error) => {
            eprintln!("planner: {error}");
            ExitCode::FAILURE
        }
    }
}

fn named(file: &OsString, error: io::Error) -> io::Error {
    io::Error::new(error.kind(), format!("{}: {error}", file.display()))
}

fn read_input() -> io::Result<Vec<u8>> {
    let mut bytes = Vec::new();
    io::stdin().read_to_end(&mut bytes)?;
    Ok(bytes)
}

fn report(bytes: &[u8], mut out: impl Write) -> io::Result<()> {
    let mut cluster = Cluster::new();
    for (step, record) in (1..).zip(records(bytes)) {
        // The receiver of a record that could not be read is not known.
        let shard = record.map_or("-".into(), |record| record.receiver().to_string());
        match record.and_then(|record| cluster.play(&record)) {
            Ok(answer) => writeln!(out, "{step} {shard} {answer}")?,
            Err(refusal) => {
                let number = refusal.number();
                writeln!(out, "{step} {shard} REFUSED {number}: {refusal}")?;
            }
        }
    }
    for shard in 0..8 {
        let (tokens, known) = (cluster.tokens(shard), cluster.transactions(shard));
        let (held, amount, swaps) = (tokens.len(), cluster.total_at(shard), known.len());
        let turned = if cluster.is_turned(shard) {
            ", turned"
        } else {
            ""
        };
        writeln!(
            out,
            "pantry {shard}: tokens {held}, portions {amount}, swaps {swaps}{turned}"
        )?;
        for token in tokens {
            writeln!(out, "  {}", token_line(&token))?;
        }
        for known in known {
            writeln!(out, "  {}", transaction_line(&known))?;
            for line in spoilt_lines(&cluster, shard, &known) {
                writeln!(out, "    {line}")?;
            }
        }
    }
    writeln!(out, "TOTAL {}", cluster.total())?;
    out.flush()
}

fn token_line(token: &Token) -> String {
    let (id, owner, amount) = (token.id, token.owner, token.amount);
    let pledge = token
        .pledge
        .map(|number| format!(", pledged to swap {number}"));
    format!(
        "token {}/{}/{}: household {owner}, portions {amount}{}",
        id.shard,
        id.creator,
        id.index,
        pledge.unwrap_or_default()
    )
}

fn transaction_line(known: &Known) -> String {
    let heard = (0..8).zip(known.heard).filter_map(|(sender, verdict)| {
        let word = match verdict? {
            Verdict::Yes => "yes",
            Verdict::No => "no",
        };
        Some(format!(" {sender} {word}"))
    });
    let (number, outcome) = (known.transaction.number(), known.outcome);
    format!(
        "swap {number}: {outcome}, heard{}",
        heard.collect::<String>()
    )
}

/// The inputs there that were not available when the transaction was registered,
/// by their places among all its inputs.
fn spoilt_lines(cluster: &Cluster, shard: u8, known: &Known) -> Vec<String> {
    let Ok(findings) = cluster.findings(shard, known.transaction.number()) else {
        return Vec::new();
    };
    let inputs = (1..).zip(known.transaction.inputs());
    let here = inputs.filter(|(_, input)| input.token.shard == shard);
    let lines = here
        .zip(findings.iter())
        .filter_map(|((place, _), finding)| {
            let words = match finding {
                Finding::Available => return None,
                Finding::NotHeld => "not held".into(),
                Finding::OtherOwner => "other household".into(),
                Finding::OtherAmount => "other portions".into(),
                Finding::Pledged(number) => format!("pledged to swap {number}"),
            };
            Some(format!("input {place}: {words}"))
        });
    lines.collect()
}
