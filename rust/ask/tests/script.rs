//! `./ask`: arguments, messages, exit status, and what it answers.

use std::fs;
use std::path::{Path, PathBuf};
use std::process::Output;

use ask::QUESTIONS;
use program::{example, root, script, told};

/// `./ask` with these arguments, in a folder of the tests' own.
fn ask(arguments: &[&str], input: &[u8]) -> Output {
    script("ask", &folder(), arguments, input)
}

fn folder() -> PathBuf {
    let folder = Path::new(env!("CARGO_TARGET_TMPDIR")).join("ask");
    fs::create_dir_all(&folder).expect("there is room for the weeks");
    folder
}

/// Help has a line for each question, the command's own.
#[test]
fn help() {
    for help in ["--help", "-h"] {
        let output = ask(&[help], b"");
        let (status, text, message) = told(&output);
        assert_eq!((status, message), (Some(0), ""));
        assert!(text.starts_with("usage: ./ask WEEK QUESTION\n"));
        let mut parts = text
            .split("\n\n")
            .skip_while(|part| *part != "The questions:");
        let questions = parts.nth(1).expect("there are questions");
        let lines: Vec<&str> = questions.lines().map(str::trim).collect();
        assert_eq!(lines.len(), QUESTIONS.len());
        for (line, (words, told)) in lines.iter().zip(QUESTIONS) {
            let rest = line.strip_prefix(words).expect("the words come first");
            assert_eq!(rest.trim_start(), *told);
        }
    }
}

/// Before anything is built.
#[test]
fn bad_usage() {
    for arguments in [
        &[][..],
        &[""],
        &["-"],
        &["--what"],
        &["--help", "why"],
        &["one.txt"],
        &["one.txt", "what"],
        &["one.txt", "why"],
        &["one.txt", "why", "1"],
        &["one.txt", "why", "1", "x"],
        &["one.txt", "why", "-1", "2"],
        &["one.txt", "why", "", "2"],
        &["one.txt", "why", "1", "4294967296"],
        &["one.txt", "why", "1", "2", "3"],
        &["one.txt", "--why", "1", "2"],
        &["--why", "1", "2"],
        &["", "why", "1", "2"],
        &["why", "1", "2"],
    ] {
        let output = ask(arguments, b"");
        let (status, text, message) = told(&output);
        assert_eq!((status, text), (Some(2), ""), "{arguments:?}");
        assert!(message.starts_with("usage: "), "{arguments:?}: {message}");
    }
}

/// Likewise.
#[test]
fn weeks_that_are_not_there() {
    for (week, sentence) in [
        (
            "no-such.txt",
            "'no-such.txt' is not there or cannot be read",
        ),
        ("..", "'..' is a folder"),
    ] {
        let output = ask(&[week, "why", "1", "2"], b"");
        let message = format!("ask: {sentence}\n");
        assert_eq!(told(&output), (Some(1), "", message.as_str()));
    }
}

/// A week as text, as records and from standard input: one answer.
#[test]
fn answers() {
    let text = fs::read(root().join("weeks/example.txt")).expect("the week can be read");
    fs::write(folder().join("a b.txt"), &text).expect("the week can be written");
    fs::write(folder().join("sent.records"), example()).expect("so can its records");
    fs::write(folder().join("wrong.txt"), "open pantry 0\n").expect("so can another");
    let known = "swap 5 at pantry 1, voted YES, outcome COMMIT\n\
        input 2, token (pantry 1, making swap 0, position 0), household 20, 2 portions: available\n";
    for week in ["a b.txt", "sent.records", "-"] {
        let output = ask(&[week, "why", "1", "5"], &text);
        let (status, answer, message) = told(&output);
        assert_eq!((status, answer), (Some(0), known), "{week}: {message}");
        let output = ask(&[week, "why", "2", "5"], &text);
        let (status, answer, message) = told(&output);
        assert_eq!((status, answer), (Some(1), ""), "{week}");
        assert!(
            message.ends_with("ask: pantry 2 knows no swap 5\n"),
            "{message}"
        );
    }
    let output = ask(&["wrong.txt", "why", "0", "5"], b"");
    let (status, answer, message) = told(&output);
    assert_eq!((status, answer), (Some(1), ""));
    assert!(
        message.contains("ask: wrong.txt: line 1: first word"),
        "{message}"
    );
}
