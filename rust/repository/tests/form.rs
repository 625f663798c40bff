//! The form of every page: its question first, short lines, short paragraphs, and
//! the pages that are to be read in one go no longer than that.

use program::root;
use repository::{Page, pages};

/// A line of text has so many characters at most; rows of tables may have more.
const WIDTH: usize = 120;

/// A paragraph, or an item of a list, has so many words at most.
const PARAGRAPH: usize = 120;

/// Pages that are to be seen at once, and how many lines they have at most.
const SIZES: [(&str, usize); 4] = [
    ("README.md", 140),
    ("docs/OWNER.md", 60),
    ("docs/PEERS.md", 70),
    ("docs/PROGRESS.md", 45),
];

/// Fails with all that is wrong, a line for each.
fn none(wrong: Vec<String>) {
    assert!(wrong.is_empty(), "{}", wrong.join("\n"));
}

fn all_pages() -> Vec<Page> {
    let pages = pages(root());
    assert!(pages.iter().any(|page| page.name == "README.md"));
    pages
}

/// A page's text below the commits that it names first, one to a line.
fn below_commits(text: &str) -> &str {
    let is_commit =
        |line: &str| line.len() == 40 && line.bytes().all(|byte| byte.is_ascii_hexdigit());
    match text.split_once("\n\n") {
        Some((first, rest)) if first.lines().all(is_commit) => rest,
        _ => text,
    }
}

/// The title, and below it the question that the page answers.
#[test]
fn every_page_begins_with_its_question() {
    let asks = |page: &Page| {
        let mut parts = below_commits(&page.text).split("\n\n");
        let titled = parts.next().is_some_and(|title| title.starts_with("# "));
        titled && parts.next().is_some_and(|question| question.ends_with('?'))
    };
    let wrong = all_pages().into_iter().filter(|page| !asks(page));
    none(wrong.map(|page| page.name).collect());
}

#[test]
fn lines_are_short() {
    let mut wrong = Vec::new();
    for page in all_pages() {
        for (number, line, _) in page.lines() {
            let length = line.chars().count();
            if length > WIDTH && !line.starts_with('|') {
                wrong.push(format!("{}:{number}: {length} characters", page.name));
            }
            if line.ends_with(' ') {
                wrong.push(format!("{}:{number}: ends with a space", page.name));
            }
        }
    }
    none(wrong);
}

#[test]
fn paragraphs_are_short() {
    let mut wrong = Vec::new();
    for page in all_pages() {
        for (number, text) in page.paragraphs() {
            let words = text.split_whitespace().count();
            if words > PARAGRAPH {
                wrong.push(format!("{}:{number}: {words} words", page.name));
            }
        }
    }
    none(wrong);
}

#[test]
fn pages_to_be_seen_at_once() {
    let pages = all_pages();
    for (name, most) in SIZES {
        let page = pages.iter().find(|page| page.name == name);
        let lines = page.expect("the page is there").text.lines().count();
        assert!(
            lines <= most,
            "{name} has {lines} lines, not {most} at most"
        );
    }
}
