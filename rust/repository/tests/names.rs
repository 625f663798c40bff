//! What the pages name is there: every file and folder, and every theorem,
//! definition, function and wrong version between backticks.

use std::path::Path;

use program::root;
use repository::{Page, Words, pages};

/// Folders of the repository: what begins so is a place in it.
const FOLDERS: [&str; 10] = [
    "crates/",
    "rust/",
    "docs/",
    "weeks/",
    "include/",
    "examples/",
    "edits/",
    "tools/",
    ".ci/",
    "../",
];

/// Whether it stands for any number, any crate, any file, or for what is built.
fn is_open(place: &str) -> bool {
    let place = place.trim_start_matches("../");
    let open = ["*", "NN", "NAME", "CRATE", "..", "target/"];
    open.iter().any(|part| place.contains(part))
}

/// Names that are in no source: the checker makes them.
const CHECKERS: [&str; 1] = ["Code"];

/// Whether it stands for any name, or is the checker's.
fn is_any(name: &str) -> bool {
    name.contains("NAME") || name.ends_with("-N") || CHECKERS.contains(&name)
}

/// Whether it is a commit of the repository.
fn is_commit(text: &str) -> bool {
    text.len() == 7
        && text
            .bytes()
            .all(|byte| matches!(byte, b'0'..=b'9' | b'a'..=b'f'))
}

/// Whether it is a name, or names that lead from one to the next.
fn is_name(text: &str) -> bool {
    !is_commit(text)
        && parts(text).all(|part| {
            let mut letters = part.chars();
            letters
                .next()
                .is_some_and(|first| first.is_ascii_alphabetic())
                && letters
                    .all(|letter| letter.is_ascii_alphanumeric() || matches!(letter, '_' | '-'))
        })
}

/// `shard::turning`, `Demand3.agreement`, `model/proofs/Votes`.
fn parts(text: &str) -> impl Iterator<Item = &str> {
    text.split("::").flat_map(|part| part.split(['.', '/']))
}

/// The words of all that stands between backticks on the page, with their lines.
fn words_of(page: &Page) -> impl Iterator<Item = (usize, &str)> {
    page.spans().flat_map(|span| {
        let words = span.text.split([' ', ',', ';', '(', ')', ':']);
        let words = words.filter(|word| !word.is_empty());
        words.map(move |word| (span.line, word))
    })
}

/// Where the page may mean the place from: the repository's root, the folder that
/// it stands in, the folder of the crates.
fn is_there(root: &Path, page: &Page, place: &str) -> bool {
    let own = root.join(&page.name);
    let own = own.parent().expect("a page stands in a folder");
    [root, own, &root.join("crates")]
        .iter()
        .any(|from| from.join(place).exists())
}

#[test]
fn places_are_there() {
    let root = root();
    let mut wrong = Vec::new();
    for page in pages(root).iter().filter(|page| !page.is_history()) {
        for (line, word) in words_of(page) {
            let place = FOLDERS.iter().any(|folder| word.starts_with(folder));
            if place && !is_open(word) && !is_there(root, page, word) {
                wrong.push(format!("{}:{line}: {word}", page.name));
            }
        }
    }
    assert!(wrong.is_empty(), "{}", wrong.join("\n"));
}

/// `[words](place)`.
#[test]
fn links_lead_somewhere() {
    let root = root();
    let mut wrong = Vec::new();
    for page in &pages(root) {
        for (line, text, _) in page.lines().filter(|(_, _, code)| !code) {
            for link in text.split("](").skip(1) {
                let (target, _) = link.split_once(')').unwrap_or((link, ""));
                let (place, _) = target.split_once('#').unwrap_or((target, ""));
                if !place.is_empty() && !is_there(root, page, place) {
                    wrong.push(format!("{}:{line}: {target}", page.name));
                }
            }
        }
    }
    assert!(wrong.is_empty(), "{}", wrong.join("\n"));
}

#[test]
fn names_are_in_the_sources() {
    let root = root();
    let sources = Words::of(root);
    let mut wrong = Vec::new();
    for page in pages(root).iter().filter(|page| !page.is_history()) {
        for span in page.spans().filter(|span| is_name(span.text)) {
            let missing = parts(span.text).find(|part| !sources.have(part) && !is_any(part));
            if let Some(missing) = missing {
                wrong.push(format!("{}:{}: {missing}", page.name, span.line));
            }
        }
    }
    assert!(wrong.is_empty(), "{}", wrong.join("\n"));
}

/// Every week has its place in the table of weeks, and none that is not there.
#[test]
fn every_week_is_told_of() {
    let page = std::fs::read_to_string(root().join("weeks/README.md")).expect("it can be read");
    let rows = page.lines().filter(|line| line.starts_with("| `"));
    let firsts = rows.filter_map(|line| line.split('|').nth(1));
    let mut told: Vec<&str> = firsts
        .flat_map(|cell| cell.split('`').skip(1).step_by(2))
        .collect();
    told.sort();
    let stored = program::weeks();
    let stored: Vec<&str> = stored.iter().map(|week| week.name.as_str()).collect();
    assert_eq!(told, stored);
}
