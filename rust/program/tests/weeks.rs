//! The weeks in the repository's folder `weeks`: the program, the Rust listing
//! and the stored listing agree, and each text comes back.

use std::fs;
use std::path::PathBuf;

use program::{CHUNKS, Week, assert_same, input, list, root, week_files, weeks};
use reference::listing;
use weektext::{entries, entries_of_text, records, text};

#[test]
fn every_week() {
    let weeks = weeks();
    for Week {
        name,
        bytes,
        listing: stored,
    } in &weeks
    {
        assert_same(
            &listing(bytes),
            stored,
            bytes,
            &format!("{name}, the Rust listing"),
        );
        for chunk in CHUNKS {
            let case = format!("{name}, the program, writes of {chunk}");
            assert_same(&list(bytes, chunk), stored, bytes, &case);
        }
        let again = records(text(bytes).as_bytes());
        assert!(again.as_ref() == Ok(bytes), "weeks/{name}.txt comes back");
    }
    println!("{} weeks", weeks.len());
}

#[test]
fn every_week_is_there_with_its_listing() {
    let listings: Vec<PathBuf> = week_files("txt")
        .iter()
        .map(|week| week.with_extension("listing"))
        .collect();
    assert!(listings.len() >= 21, "{} weeks", listings.len());
    assert_eq!(week_files("listing"), listings);
}

/// The worked example is the record sample that is stored with the program.
#[test]
fn the_example_is_the_stored_sample() {
    let folder = root().join("crates/plankeeper");
    let source = fs::read(root().join("weeks/example.txt")).expect("the week can be read");
    let sample = fs::read(folder.join("stdin")).expect("the sample can be read");
    assert!(records(&source) == Ok(sample));
    let stored = fs::read(root().join("weeks/example.listing")).expect("it can be read");
    let printed = fs::read(folder.join("stdout")).expect("the sample can be read");
    assert_eq!(stored, printed);
}

/// The inputs of `random.rs`, without the program: each has a text whose records
/// are the same bytes.
#[test]
fn random_and_damaged_inputs_come_back_as_text() {
    for case in 0..20_000 {
        let bytes = input(case, false).bytes;
        let again = records(text(&bytes).as_bytes());
        assert!(again.as_ref() == Ok(&bytes), "input {case}");
    }
}

/// Likewise: the entries are as many as the listing has lines for records, and
/// each stands on its line of the text.
#[test]
fn random_and_damaged_inputs_one_by_one() {
    for case in 0..2_000 {
        let bytes = input(case, false).bytes;
        let listing = listing(&bytes);
        let lines = listing.iter().filter(|&&byte| byte == b'\n').count();
        let text = text(&bytes);
        let found = entries_of_text(text.as_bytes()).expect("the text has no error");
        assert_eq!(found.len(), lines - 1, "input {case}");
        let text: Vec<&str> = text.lines().collect();
        for (mut entry, of_records) in found.into_iter().zip(entries(&bytes)) {
            let line = entry.line.take().expect("it came as text");
            let (line, told) = (text[line - 1], &entry.text);
            // More bytes than a line has are counted.
            assert!(line == told || told.starts_with(&format!("{line} and ")));
            assert_eq!(entry, of_records, "input {case}");
        }
    }
}
