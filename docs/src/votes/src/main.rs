//! Time to read and check votes: the proved reader, through the crate for
//! planners, against a baseline with the same checks and the same answers.

#![forbid(unsafe_code)]

mod baseline;
mod buffer;
mod readers;
#[cfg(test)]
mod tests;
mod timing;

use std::env;
use std::hint::black_box;
use std::process::ExitCode;

use buffer::{Buffer, VOTES};
use readers::READERS;
use timing::{compare, report, time};

const USAGE: &str = "usage: votes [--smoke | --only READER] (baseline, words or records)";

/// Votes that are read unless a short run is asked for.
const MANY: usize = 1_000_000;

fn main() -> ExitCode {
    let arguments: Vec<String> = env::args().skip(1).collect();
    let arguments: Vec<&str> = arguments.iter().map(String::as_str).collect();
    if let Err(message) = run(&arguments) {
        eprintln!("{message}");
        return ExitCode::FAILURE;
    }
    ExitCode::SUCCESS
}

fn run(arguments: &[&str]) -> Result<(), String> {
    match arguments {
        [] => all(MANY, 15),
        ["--smoke"] => all(20_000, 3),
        ["--only", name] => only(name),
        _ => Err(USAGE.into()),
    }
}

/// All readers, compared first.
fn all(count: usize, rounds: usize) -> Result<(), String> {
    let buffer = Buffer::new();
    let votes = buffer.votes();
    compare(&READERS, votes)?;
    println!(
        "{count} votes from a buffer of {VOTES} ({} bytes), least of {rounds} rounds each",
        votes.len()
    );
    report(&time(&READERS, votes, count, rounds), count)
}

/// One reader and nothing else, for its instructions to be counted.
fn only(name: &str) -> Result<(), String> {
    let reader = READERS.iter().find(|reader| reader.name == name);
    let reader = reader.ok_or(USAGE)?;
    let buffer = Buffer::new();
    let sum = (reader.run)(black_box(buffer.votes()), black_box(MANY));
    println!("{MANY} votes read by {name}, sum {sum}");
    Ok(())
}
