//! The planner as a process: what it prints for records, and how it ends where
//! there are none to be had or nobody reads.

use std::fs;
use std::path::{Path, PathBuf};
use std::process::{Child, Command, Output, Stdio};
use std::sync::OnceLock;

use clients::{Language, link, planner_text, run, rust_example, scratch, well};
use program::{
    assert_same, ends_by_closed_pipe, example, fed, full_device, input, root, votes_again, weeks,
};
use reference::listing;

const TESTS: &str = env!("CARGO_TARGET_TMPDIR");

/// The planner's name among the tests, and where it is built.
type Planner = (&'static str, PathBuf);

fn planners() -> &'static [Planner] {
    static PLANNERS: OnceLock<Vec<Planner>> = OnceLock::new();
    PLANNERS.get_or_init(|| {
        let in_c = scratch(TESTS, "planner");
        link(Language::C, &root().join("examples/planner.c"), &in_c);
        vec![("in C", in_c), ("in Rust", rust_example(TESTS, "planner"))]
    })
}

/// Starts the planner, which waits for its standard input.
fn start(planner: &Path, stdout: Stdio) -> Child {
    Command::new(planner)
        .stdin(Stdio::piped())
        .stdout(stdout)
        .stderr(Stdio::piped())
        .spawn()
        .expect("the planner starts")
}

/// What it prints; it has to end well and without a message.
fn printed(output: Output, case: &str) -> Vec<u8> {
    let message = String::from_utf8_lossy(&output.stderr);
    let status = output.status;
    assert!(
        status.success() && message.is_empty(),
        "{case} ended with {status}: {message}"
    );
    output.stdout
}

/// Every planner prints this text for these bytes, from standard input and, if
/// they are stored there, from the file.
fn check(bytes: &[u8], file: Option<&Path>, expected: &str, week: &str) {
    for (name, planner) in planners() {
        let case = format!("{week}, the planner {name}");
        let text = printed(fed(start(planner, Stdio::piped()), bytes), &case);
        assert_same(&text, expected.as_bytes(), bytes, &case);
        if let Some(file) = file {
            let case = format!("{case}, from a file");
            let text = well(Command::new(planner).arg(file));
            assert_same(&text, expected.as_bytes(), bytes, &case);
        }
    }
}

/// The stored listing's lines, each refusal with its sentence, and the pantries
/// of the Rust reference.
#[test]
fn every_week() {
    for week in weeks() {
        let file = scratch(TESTS, &format!("{}.records", week.name));
        fs::write(&file, &week.bytes).expect("the records can be written");
        let stored = str::from_utf8(&week.listing).expect("a listing is ASCII");
        let expected = planner_text(&week.bytes, stored);
        check(&week.bytes, Some(&file), &expected, &week.name);
    }
}

#[test]
fn random_and_damaged_inputs() {
    for case in 0..1_000 {
        let bytes = input(case, false).bytes;
        let listing = String::from_utf8(listing(&bytes)).expect("a listing is ASCII");
        let expected = planner_text(&bytes, &listing);
        check(&bytes, None, &expected, &format!("input {case}"));
    }
}

/// A text by hand: a pledge, refusals of the cluster, one of the reader, a pantry
/// that is turned, inputs that spoil a swap, and pantries with nothing.
#[test]
fn a_text_by_hand() {
    let week = "opening pantry 0 position 3 household 9 portions 4\n\
                swap 8\n  take pantry 0 opening 3 household 9 portions 4\n  \
                give pantry 1 household 9 portions 4\n\
                register 8 at 0\nregister 8 at 2\n\
                opening pantry 8 position 0 household 1 portions 1\n\
                turn pantry 1\nturn pantry 1\n\
                swap 9\n  take pantry 1 opening 3 household 9 portions 4\n  \
                take pantry 0 opening 3 household 9 portions 4\n  \
                take pantry 0 opening 4 household 9 portions 4\n  \
                give pantry 0 household 9 portions 12\n\
                register 9 at 0\n";
    let bytes = weektext::records(week.as_bytes()).expect("the week has no error");
    let mut expected = "1 0 OPENED\n2 0 YES WAIT\n\
        3 2 REFUSED 6: receiver or sender not among the swap's pantries\n\
        4 - REFUSED 3: field or count outside its range; pantry above 7; unused slot not zero\n\
        5 1 TURNED\n6 1 REFUSED 19: kind 4: this pantry is turned already\n\
        7 0 NO ABORT\n\
        pantry 0: tokens 1, portions 4, swaps 2\n  \
        token 0/0/3: household 9, portions 4, pledged to swap 8\n  \
        swap 8: WAIT, heard 0 yes\n  \
        swap 9: ABORT, heard 0 no\n    \
        input 2: pledged to swap 8\n    \
        input 3: not held\n\
        pantry 1: tokens 0, portions 0, swaps 0, turned\n"
        .to_owned();
    for pantry in 2..8 {
        expected += &format!("pantry {pantry}: tokens 0, portions 0, swaps 0\n");
    }
    expected += "TOTAL 4\n";
    check(&bytes, None, &expected, "a week by hand");
}

#[test]
fn an_empty_input() {
    let file = scratch(TESTS, "nothing.records");
    fs::write(&file, "").expect("the file can be written");
    let pantries = (0..8).map(|pantry| format!("pantry {pantry}: tokens 0, portions 0, swaps 0\n"));
    let expected = pantries.collect::<String>() + "TOTAL 0\n";
    check(&[], Some(&file), &expected, "no records");
}

/// Runs every planner with these arguments: it ends with this status, prints
/// nothing and has a message with these words.
fn check_fails(arguments: &[&str], status: i32, words: &str) {
    for (name, planner) in planners() {
        let output = run(Command::new(planner).args(arguments).stdin(Stdio::null()));
        let message = String::from_utf8_lossy(&output.stderr);
        let case = format!("the planner {name}, {arguments:?}: {message}");
        assert_eq!(output.status.code(), Some(status), "{case}");
        assert!(output.stdout.is_empty(), "{case}");
        assert!(message.contains(words), "{case}");
    }
}

#[test]
fn bad_usage() {
    check_fails(&["--what"], 2, "usage: planner [FILE]");
    check_fails(&["one", "two"], 2, "usage: planner [FILE]");
    check_fails(&["--help", "two"], 2, "usage: planner [FILE]");
}

#[test]
fn help() {
    for (name, planner) in planners() {
        let text = well(Command::new(planner).arg("--help"));
        assert!(text.starts_with(b"usage: planner [FILE]\n"), "{name}");
    }
}

#[test]
fn a_file_that_cannot_be_read() {
    let missing = scratch(TESTS, "missing.records");
    check_fails(&[missing.to_str().expect("UTF-8")], 1, "missing.records");
    check_fails(&[TESTS], 1, TESTS);
}

/// More than a pipe takes, so that the planner meets the closed end.
fn long_week() -> Vec<u8> {
    [example(), votes_again(10_000)].concat()
}

#[test]
fn a_closed_output() {
    for (name, planner) in planners() {
        let mut child = start(planner, Stdio::piped());
        drop(child.stdout.take());
        let output = fed(child, &long_week());
        let message = String::from_utf8_lossy(&output.stderr);
        let case = format!("the planner {name}: {}, {message}", output.status);
        let told = matches!(output.status.code(), Some(0 | 1)) && !message.contains("panicked");
        assert!(ends_by_closed_pipe(output.status) || told, "{case}");
    }
}

/// Long or short: what cannot be written is told of.
#[test]
fn a_full_device() {
    for (name, planner) in planners() {
        for bytes in [Vec::new(), long_week()] {
            let output = fed(start(planner, full_device().into()), &bytes);
            let message = String::from_utf8_lossy(&output.stderr);
            assert_eq!(output.status.code(), Some(1), "the planner {name}");
            assert!(message.starts_with("planner: "), "{name}: {message}");
        }
    }
}
