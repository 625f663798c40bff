//! `ask`: questions about a week.

#![forbid(unsafe_code)]

use std::ffi::{OsStr, OsString};
use std::process::ExitCode;

use ask::{QUESTIONS, Question, Week};
use command::{Failure, contents, is_help, print, source};

const HELP: &str = "\
usage: ask WEEK QUESTION

  WEEK   a week's text, or its records where the name ends in .records, or - for
         text from standard input

Plays the week through the proved library and answers a question about it:

";

const STATUS: &str = "
Exit status: 0; 1 if there is nothing to tell, or if something cannot be read or
written; 2 bad usage.
";

fn main() -> ExitCode {
    command::main("ask", &help(), run)
}

fn run(arguments: &[OsString]) -> Result<(), Failure> {
    let (name, words) = match arguments {
        [word] if is_help(word) => return print(help().as_bytes()),
        [name, words @ ..] if is_week(name) => (name, words),
        _ => return Err(Failure::Usage),
    };
    let question = Question::parse(words).ok_or(Failure::Usage)?;
    let answer = question.answer(&week(name)?).map_err(Failure::Message)?;
    print(answer.as_bytes())
}

/// How it is used, with a line for each question.
fn help() -> String {
    let widths = QUESTIONS.iter().map(|(words, _)| words.len());
    let width = widths.max().unwrap_or(0);
    let lines = QUESTIONS.iter();
    let lines = lines.map(|(words, told)| format!("  {words:width$}   {told}\n"));
    lines.fold(HELP.to_owned(), |help, line| help + &line) + STATUS
}

/// Whether the argument may name a week: options begin with a hyphen.
fn is_week(argument: &OsStr) -> bool {
    let bytes = argument.as_encoded_bytes();
    bytes == b"-" || bytes.first().is_some_and(|&byte| byte != b'-')
}

/// The week of that name.
fn week(name: &OsStr) -> Result<Week, Failure> {
    let file = (name != "-").then_some(name);
    let bytes = contents(file)?;
    if name.as_encoded_bytes().ends_with(b".records") {
        return Ok(Week::of_records(&bytes));
    }
    let wrong = |error| Failure::Message(format!("{}: {error}", source(file)));
    Week::of_text(&bytes).map_err(wrong)
}
