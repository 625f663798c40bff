//! The rules name the definitions that say them: `model/Steps`: `decide` is the
//! definition `decide` in `crates/model/specs/Steps.antt`. Each has to be there.

use std::collections::HashMap;
use std::fs;

use program::root;
use repository::{Page, pages};

/// A definition that a page names.
#[derive(Debug, PartialEq, Eq)]
struct Place<'a> {
    /// Crate and file.
    file: &'a str,
    /// The definition.
    name: &'a str,
}

/// Whether it is a crate and a file of it, whose names begin with capitals.
fn is_file(text: &str) -> bool {
    let lower = |part: &str| part.bytes().all(|byte| byte.is_ascii_lowercase());
    let upper = |part: &str| part.starts_with(|first: char| first.is_ascii_uppercase());
    text.split_once('/').is_some_and(|(name, file)| {
        lower(name) && upper(file) && file.bytes().all(|byte| byte.is_ascii_alphanumeric())
    })
}

/// The definitions that the text names: behind a file and a colon, commas between
/// them.
fn places(text: &str) -> Vec<Place<'_>> {
    let mut places = Vec::new();
    let mut file = None;
    let mut before = "";
    for (k, part) in text.split('`').enumerate() {
        if k % 2 == 0 {
            before = part.trim();
        } else if is_file(part) {
            file = Some(part);
        } else {
            file = file.filter(|_| before == ":" || before == ",");
            places.extend(file.map(|file| Place { file, name: part }));
        }
    }
    places
}

/// The words of a file of definitions, but for its comments.
fn words_of(file: &str) -> Vec<String> {
    let (name, file) = file.split_once('/').expect("a crate and a file");
    let path = root().join(format!("crates/{name}/specs/{file}.antt"));
    let text = fs::read_to_string(&path).unwrap_or_else(|_| panic!("there is no {path:?}"));
    let words = text
        .lines()
        .filter(|line| !line.trim_start().starts_with("--"));
    let words = words.flat_map(|line| line.split([' ', '(', ')', '{', '}', ',', ':']));
    words.map(str::to_owned).collect()
}

fn rules() -> Page {
    let rules = pages(root())
        .into_iter()
        .find(|page| page.name == "docs/PROTOCOL.md");
    rules.expect("there is a page of rules")
}

#[test]
fn every_definition_is_there() {
    let rules = rules();
    let places = places(&rules.text);
    assert!(
        places.len() > 100,
        "only {} definitions are named",
        places.len()
    );
    let mut known: HashMap<&str, Vec<String>> = HashMap::new();
    for place in places {
        let there = known
            .entry(place.file)
            .or_insert_with(|| words_of(place.file));
        assert!(
            there.iter().any(|name| name == place.name),
            "{place:?} is not there"
        );
    }
}

#[test]
fn places_by_hand() {
    let text =
        "Wait (`model/Steps`: `decide`,\n`settle`), `other`. `codec/Records`: `readBack`; `far`";
    let named = |file, name| Place { file, name };
    let expected = [
        named("model/Steps", "decide"),
        named("model/Steps", "settle"),
        named("codec/Records", "readBack"),
    ];
    assert_eq!(places(text), expected);
}
