//! The command `week`: files and pipes, errors, exit status.

use std::fs;
use std::io::{self, Write};
use std::path::PathBuf;
use std::process::{Child, Command, Output, Stdio};

const WEEK: &str = "opening pantry 0 position 1 household 10 portions 3\n";
const RECORDS: [u8; 11] = [3, 0, 1, 0, 0, 0, 10, 0, 0, 0, 3];

fn start(arguments: &[&str]) -> Child {
    let mut command = Command::new(env!("CARGO_BIN_EXE_week"));
    command
        .args(arguments)
        .stdin(Stdio::piped())
        .stdout(Stdio::piped())
        .stderr(Stdio::piped());
    command.spawn().expect("the command starts")
}

/// Hands the bytes to the command as its whole standard input.
fn feed(child: &mut Child, input: &[u8]) -> io::Result<()> {
    let mut stdin = child.stdin.take().expect("its input is a pipe");
    stdin.write_all(input)
}

/// What the command says in the end.
fn ended(child: Child) -> Output {
    child.wait_with_output().expect("the command ends")
}

/// Runs the command with these bytes as its standard input.
fn run(arguments: &[&str], input: &[u8]) -> Output {
    let mut child = start(arguments);
    // It may end without reading.
    let _ = feed(&mut child, input);
    ended(child)
}

fn told(output: &Output) -> (Option<i32>, &str) {
    let message = str::from_utf8(&output.stderr).expect("messages are UTF-8");
    (output.status.code(), message)
}

#[test]
fn pipes_both_ways() {
    let output = run(&["records"], WEEK.as_bytes());
    assert_eq!(output.stdout, RECORDS);
    assert_eq!(told(&output), (Some(0), ""));
    let output = run(&["text"], &RECORDS);
    assert_eq!(output.stdout, WEEK.as_bytes());
    assert_eq!(told(&output), (Some(0), ""));
}

#[test]
fn a_named_file() {
    let file = PathBuf::from(env!("CARGO_TARGET_TMPDIR")).join("week.txt");
    fs::write(&file, WEEK).expect("the file can be written");
    let output = run(&["records", file.to_str().expect("the path is UTF-8")], b"");
    assert_eq!(output.stdout, RECORDS);
    assert_eq!(told(&output), (Some(0), ""));
}

#[test]
fn a_file_that_is_not_there() {
    for command in ["records", "text"] {
        let output = run(&[command, "no-such-week.txt"], b"");
        let (status, message) = told(&output);
        assert_eq!((status, output.stdout.as_slice()), (Some(1), &b""[..]));
        assert!(message.starts_with("week: no-such-week.txt: "), "{message}");
    }
}

/// Nothing is written, although the first line is fine.
#[test]
fn an_error_in_the_text() {
    let week = format!("{WEEK}opening pantry x\n");
    let output = run(&["records"], week.as_bytes());
    let message =
        "week: standard input: line 2: pantry: expected a number from 0 to 255, found 'x'\n";
    assert_eq!(told(&output), (Some(1), message));
    assert_eq!(output.stdout, b"");
}

#[test]
fn help_and_bad_usage() {
    for help in ["--help", "-h"] {
        let output = run(&[help], b"");
        assert!(output.stdout.starts_with(b"week: "));
        assert_eq!(told(&output), (Some(0), ""));
    }
    for arguments in [
        &[][..],
        &["list"],
        &["records", "a", "b"],
        &["text", "a", "b"],
    ] {
        let output = run(arguments, b"");
        let usage = "usage: week records|text [FILE], or week --help\n";
        assert_eq!(told(&output), (Some(2), usage));
        assert_eq!(output.stdout, b"");
    }
}

/// A reader that goes away early is no error.
#[test]
fn a_closed_pipe() {
    let mut child = start(&["records"]);
    drop(child.stdout.take());
    feed(&mut child, WEEK.repeat(20_000).as_bytes()).expect("the command reads its input");
    assert_eq!(told(&ended(child)), (Some(0), ""));
}
