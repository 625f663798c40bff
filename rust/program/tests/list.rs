//! `./list` as far as it builds nothing: arguments, messages, exit status.

use std::process::Output;

use program::{root, script, told};

/// `./list` with these arguments, which has nothing to build for them.
fn list(arguments: &[&str]) -> Output {
    script("list", root(), arguments, b"")
}

#[test]
fn help_and_bad_usage() {
    for help in ["--help", "-h"] {
        let output = list(&[help]);
        let (status, text, message) = told(&output);
        assert_eq!((status, message), (Some(0), ""));
        assert!(text.starts_with("usage: ./list [WEEK]\n"));
    }
    for arguments in [
        &["one.txt", "two.txt"][..],
        &["--what"],
        &[""],
        &["--help", "one.txt"],
    ] {
        let output = list(arguments);
        let (status, text, message) = told(&output);
        assert_eq!((status, text), (Some(2), ""), "{arguments:?}");
        assert!(message.starts_with("usage: "), "{arguments:?}: {message}");
    }
}

/// Who asks is told whom to ask.
#[test]
fn a_question() {
    let message = "list: --why is a question now: ./ask WEEK why PANTRY SWAP\n";
    for arguments in [
        &["--why"][..],
        &["--why", "1", "2"],
        &["one.txt", "--why", "1", "2"],
        &["--why", "1", "2", "one.txt"],
    ] {
        assert_eq!(told(&list(arguments)), (Some(2), "", message));
    }
}

#[test]
fn a_week_that_is_not_there() {
    let message = "list: 'no-such.txt' is not there or cannot be read\n";
    assert_eq!(told(&list(&["no-such.txt"])), (Some(1), "", message));
}
