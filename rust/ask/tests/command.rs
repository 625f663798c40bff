//! The command `ask`: arguments, messages, exit status.

use std::fs;
use std::path::PathBuf;
use std::process::{Child, Command, Output, Stdio};

use program::{fed, full_device, told};

fn started(arguments: &[&str], stdout: Stdio) -> Child {
    let mut command = Command::new(env!("CARGO_BIN_EXE_ask"));
    command.args(arguments).stdout(stdout);
    command.stdin(Stdio::piped()).stderr(Stdio::piped());
    command.spawn().expect("the command starts")
}

/// Runs the command with these bytes as its standard input.
fn run(arguments: &[&str], input: &[u8]) -> Output {
    fed(started(arguments, Stdio::piped()), input)
}

/// Pantry 0 votes no on swap 8, which takes a token that nobody has given. Swap 9
/// is refused.
const WEEK: &str = "\
swap 8
  take pantry 0 opening 3 household 9 portions 4
  give pantry 1 household 9 portions 4
register 8 at 0
swap 9
  take pantry 0 opening 3 household 9 portions 4
  give pantry 1 household 9 portions 3
register 9 at 0
";

const TEXT: &str = "swap 8 at pantry 0, voted NO, outcome ABORT\n\
    input 1, token (pantry 0, making swap 0, position 3), household 9, 4 portions: not held\n";

/// A file of the tests' own.
fn stored(name: &str, contents: &[u8]) -> String {
    let file = PathBuf::from(env!("CARGO_TARGET_TMPDIR")).join(name);
    fs::write(&file, contents).expect("the file can be written");
    file.into_os_string()
        .into_string()
        .expect("the path is UTF-8")
}

/// The week as records.
fn records() -> Vec<u8> {
    weektext::records(WEEK.as_bytes()).expect("the week has no error")
}

#[test]
fn from_a_pipe_and_from_files() {
    let text = stored("ask.txt", WEEK.as_bytes());
    let records = stored("ask.records", &records());
    let output = run(&["-", "why", "0", "8"], WEEK.as_bytes());
    assert_eq!(told(&output), (Some(0), TEXT, ""));
    for file in [&text, &records] {
        for (pantry, swap) in [("0", "8"), ("00", "08")] {
            let output = run(&[file, "why", pantry, swap], b"");
            assert_eq!(told(&output), (Some(0), TEXT, ""), "{file}");
        }
    }
}

/// There is nothing to tell: the sentences, and the records that were refused.
#[test]
fn refused_questions() {
    let sums = "refused, 5: the portions taken and given have different sums";
    let (file, records) = (
        stored("refused.txt", WEEK.as_bytes()),
        stored("refused.records", &records()),
    );
    for (week, pantry, swap, sentence) in [
        (&file, "1", "8", "pantry 1 knows no swap 8".into()),
        (&file, "0", "7", "pantry 0 knows no swap 7".to_owned()),
        (
            &file,
            "0",
            "9",
            format!("pantry 0 knows no swap 9\nline 8, register 9 at 0: {sums}"),
        ),
        (
            &records,
            "0",
            "9",
            format!("pantry 0 knows no swap 9\nstep 2, register 9 at 0: {sums}"),
        ),
        (
            &file,
            "8",
            "8",
            "there is no pantry 8: pantries are 0 to 7".into(),
        ),
        (
            &file,
            "4294967295",
            "8",
            "there is no pantry 4294967295: pantries are 0 to 7".into(),
        ),
        (
            &file,
            "0",
            "0",
            "there is no swap 0: swap numbers are not 0".into(),
        ),
    ] {
        let output = run(&[week, "why", pantry, swap], b"");
        let message = format!("ask: {sentence}\n");
        assert_eq!(told(&output), (Some(1), "", message.as_str()));
    }
}

#[test]
fn weeks_that_cannot_be_read() {
    let output = run(&["no-such.txt", "why", "0", "8"], b"");
    let (status, text, message) = told(&output);
    assert_eq!((status, text), (Some(1), ""));
    assert!(message.starts_with("ask: no-such.txt: "), "{message}");
    let wrong = stored("wrong.txt", b"turn pantry 0\nturn 1\n");
    let error = "line 2: pantry: expected the word 'pantry', found '1'";
    for (week, name) in [(&*wrong, &*wrong), ("-", "standard input")] {
        let output = run(&[week, "why", "0", "8"], b"turn pantry 0\nturn 1\n");
        let message = format!("ask: {name}: {error}\n");
        assert_eq!(told(&output), (Some(1), "", message.as_str()));
    }
}

#[test]
fn help_and_bad_usage() {
    for help in ["--help", "-h"] {
        let output = run(&[help], b"");
        let (status, text, message) = told(&output);
        assert_eq!((status, message), (Some(0), ""));
        assert!(text.starts_with("usage: ask WEEK QUESTION\n"));
    }
    for arguments in [
        &[][..],
        &["-"],
        &["-", "what"],
        &["-", "why"],
        &["-", "why", "0"],
        &["-", "why", "0", "x"],
        &["-", "why", "-1", "8"],
        &["-", "why", "+1", "8"],
        &["-", "why", "", "8"],
        &["-", "why", "0", "4294967296"],
        &["-", "why", "0", "8", "9"],
        &["", "why", "0", "8"],
        &["--why", "0", "8"],
        &["--text", "why", "0", "8"],
        &["--help", "why"],
    ] {
        let output = run(arguments, b"");
        let (status, text, message) = told(&output);
        assert_eq!((status, text), (Some(2), ""), "{arguments:?}");
        assert!(message.starts_with("usage: "), "{arguments:?}: {message}");
    }
}

#[test]
fn an_output_that_fails() {
    let question = ["-", "why", "0", "8"];
    let output = fed(started(&question, full_device().into()), WEEK.as_bytes());
    let (status, _, message) = told(&output);
    assert_eq!(status, Some(1));
    assert!(message.starts_with("ask: standard output: "), "{message}");
    let mut closed = started(&question, Stdio::piped());
    drop(closed.stdout.take());
    assert_eq!(told(&fed(closed, WEEK.as_bytes())), (Some(0), "", ""));
}
