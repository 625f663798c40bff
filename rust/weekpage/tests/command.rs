//! The command `weekpage`: files, messages, exit status.

#[path = "common/by_hand.rs"]
mod by_hand;

use std::fs;
use std::io::pipe;
use std::path::PathBuf;
use std::process::{Child, Command, Output, Stdio};

use by_hand::by_hand;
use program::{full_device, told};
use weekpage::{Week, page, picture};
use weektext::{entries, entries_of_text};

/// Its last record is refused.
const WEEK: &str = "opening pantry 0 position 3 household 9 portions 4\n\
    swap 8\n  take pantry 0 opening 3 household 9 portions 4\n  \
    give pantry 1 household 9 portions 4\nregister 8 at 0\nregister 8 at 9\n";

/// The command with these arguments.
fn command(arguments: &[&str]) -> Command {
    let mut command = Command::new(env!("CARGO_BIN_EXE_weekpage"));
    command.args(arguments).stdin(Stdio::null());
    command
}

fn run(arguments: &[&str]) -> Output {
    command(arguments).output().expect("the command starts")
}

/// A file with this in it; the tests run side by side, so each has its own.
fn file(name: &str, contents: impl AsRef<[u8]>) -> String {
    let path = PathBuf::from(env!("CARGO_TARGET_TMPDIR")).join(name);
    fs::write(&path, contents).expect("the file can be written");
    path.into_os_string()
        .into_string()
        .expect("the path is UTF-8")
}

/// The files of the week: records and listing.
fn files(test: &str) -> [String; 2] {
    let (bytes, listing) = by_hand(WEEK);
    let records = file(&format!("{test}.records"), bytes);
    [records, file(&format!("{test}.listing"), listing)]
}

#[test]
fn a_page_and_a_picture() {
    let (bytes, listing) = by_hand(WEEK);
    let week = Week::read(&bytes, &listing, entries(&bytes));
    let week = week.expect("they are of one week");
    let [records, listing] = files("page");
    for name in ["one", "a < b & c", "früh", ""] {
        let output = run(&[name, &records, &listing]);
        let expected = page(name, &week);
        assert_eq!(told(&output), (Some(0), expected.as_str(), ""));
    }
    let output = run(&["--picture", &records, &listing]);
    let expected = picture(&week);
    assert_eq!(told(&output), (Some(0), expected.as_str(), ""));
}

/// With the text that the records were made of, lines are told.
#[test]
fn a_page_with_lines() {
    let (bytes, listing) = by_hand(WEEK);
    let written = entries_of_text(WEEK.as_bytes()).expect("the text has no error");
    let week = Week::read(&bytes, &listing, written).expect("they are of one week");
    let [records, listing] = files("lines");
    let text = file("lines.txt", WEEK);
    let output = run(&["one", &records, &listing, &text]);
    let expected = page("one", &week);
    assert_eq!(told(&output), (Some(0), expected.as_str(), ""));
    let lined = "line 6: <span class=\"own\">";
    assert!(expected.contains(lined));
    let output = run(&["one", &records, &listing]);
    let (status, without, message) = told(&output);
    assert_eq!((status, message), (Some(0), ""));
    assert!(!without.contains("line 6"));
}

/// A text of other records, and one with an error.
#[test]
fn a_text_of_another_week() {
    let [records, listing] = files("text");
    let message = "weekpage: record 2 of the text is not that of the records: they are not of \
        one week\n";
    let text = file("another.txt", WEEK.replace("household 9", "household 7"));
    let output = run(&["one", &records, &listing, &text]);
    let first = message.replace("record 2", "record 1");
    assert_eq!(told(&output), (Some(1), "", first.as_str()));
    let text = file("another.txt", WEEK.replace("register 8 at 0", ""));
    let output = run(&["one", &records, &listing, &text]);
    assert_eq!(told(&output), (Some(1), "", message));
    let text = file("wrong.txt", "turn pantry 0\nturn\n");
    let output = run(&["one", &records, &listing, &text]);
    let message = format!(
        "weekpage: {text}: line 2: pantry: expected the word 'pantry', found the end of the line\n"
    );
    assert_eq!(told(&output), (Some(1), "", message.as_str()));
}

#[test]
fn a_week_without_records() {
    let records = file("nothing.records", "");
    let listing = file("nothing.listing", "TOTAL 0\n");
    let output = run(&["nothing", &records, &listing]);
    let (status, text, message) = told(&output);
    assert_eq!((status, message), (Some(0), ""));
    assert!(text.starts_with("<!DOCTYPE html>\n"));
}

#[test]
fn help_and_bad_usage() {
    for help in ["--help", "-h"] {
        let output = run(&[help]);
        let (status, text, message) = told(&output);
        assert_eq!((status, message), (Some(0), ""));
        assert!(text.starts_with("usage: weekpage NAME RECORDS LISTING [TEXT]\n"));
    }
    let [records, listing] = files("usage");
    let (records, listing) = (records.as_str(), listing.as_str());
    for arguments in [
        &[][..],
        &["one"],
        &["one", records],
        &["--picture"],
        &["--picture", records],
        &["one", records, listing, "two", "three"],
        &["--picture", "one", records, listing],
        &["--picture", records, listing, "one"],
        &["--what", records, listing],
        &["-", records, listing],
        &["--help", records, listing],
    ] {
        let output = run(arguments);
        let (status, text, message) = told(&output);
        assert_eq!((status, text), (Some(2), ""), "{arguments:?}");
        assert!(message.starts_with("usage: "), "{arguments:?}: {message}");
    }
}

#[test]
fn files_that_are_not_there() {
    let [records, listing] = files("missing");
    for first in ["one", "--picture"] {
        for arguments in [
            &[first, "no-such.file", &listing][..],
            &[first, &records, "no-such.file"],
            &["one", &records, &listing, "no-such.file"],
        ] {
            let output = run(arguments);
            let (status, text, message) = told(&output);
            assert_eq!((status, text), (Some(1), ""), "{arguments:?}");
            let front = "weekpage: no-such.file: ";
            assert!(message.starts_with(front), "{arguments:?}: {message}");
        }
    }
}

#[test]
fn a_listing_of_another_week() {
    let [records, _] = files("other");
    let listing = "1 0 OPENED\n2 0 NO ABORT\n3 - REFUSED 3\nTOTAL 4\n";
    let listing = file("other-week.listing", listing);
    let message = "weekpage: line 2 of the listing is '2 0 NO ABORT', and the records give \
        '2 0 YES WAIT': they are not of one week\n";
    for first in ["one", "--picture"] {
        let output = run(&[first, &records, &listing]);
        assert_eq!(told(&output), (Some(1), "", message));
    }
    // What is no text is no listing either.
    let listing = file("other-bytes.listing", b"1 0 OPENED\xff\n");
    let output = run(&["one", &records, &listing]);
    let (status, text, message) = told(&output);
    assert_eq!((status, text), (Some(1), ""));
    assert!(message.starts_with("weekpage: line 1 of the listing is '1 0 OPENED\u{fffd}'"));
}

/// Runs the command with this as its standard output.
fn printed_to(arguments: &[&str], stdout: impl Into<Stdio>) -> Output {
    let mut command = command(arguments);
    let started = command.stdout(stdout).stderr(Stdio::piped()).spawn();
    let ended = started.and_then(Child::wait_with_output);
    ended.expect("the command starts and ends")
}

#[test]
fn an_output_that_fails() {
    let [records, listing] = files("output");
    for first in ["one", "--picture"] {
        let arguments = [first, &records, &listing];
        let output = printed_to(&arguments, full_device());
        let (status, _, message) = told(&output);
        assert_eq!(status, Some(1));
        let front = "weekpage: standard output: ";
        assert!(message.starts_with(front), "{message}");

        let (reader, closed) = pipe().expect("there are pipes");
        drop(reader);
        assert_eq!(told(&printed_to(&arguments, closed)), (Some(0), "", ""));
    }
}
