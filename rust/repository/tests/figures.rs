//! Figures on the pages that can be counted are counted. A figure that is not
//! here is not written.

use std::fs;

use program::root;
use repository::{files, lines_of, rust_version, with_ending};

/// As people write it: 3,589.
fn written(number: usize) -> String {
    let digits = number.to_string();
    let groups = digits.as_bytes().rchunks(3).rev();
    let groups: Vec<&str> = groups
        .map(|group| str::from_utf8(group).expect("digits"))
        .collect();
    groups.join(",")
}

/// The page has these words, with the figure in place of `#`. Line ends count as
/// spaces.
fn says(page: &str, words: &str, figure: impl ToString) {
    let text = fs::read_to_string(root().join(page)).expect("the page can be read");
    let text: Vec<&str> = text.split_whitespace().collect();
    let words = words.replace('#', &figure.to_string());
    assert!(
        text.join(" ").contains(&words),
        "{page} does not say '{words}'"
    );
}

#[test]
fn lines_of_definitions() {
    let files = files(&root().join("crates"));
    let lines = lines_of(with_ending(&files, "specs", "antt"));
    says(
        "docs/OWNER.md",
        "They are # lines under `crates/*/specs`",
        written(lines),
    );
}

#[test]
fn wrong_versions() {
    let tried = files(&root().join("crates"));
    let tried = with_ending(&tried, "must-fail", "edit").count();
    says(
        "docs/OWNER.md",
        "it tries # wrong versions of the engine",
        written(tried),
    );
    let further = files(&root().join("edits")).len();
    says(
        "docs/OWNER.md",
        "`.ci/edits` tries # wrong versions more",
        written(further),
    );
}

#[test]
fn the_version_of_rust() {
    let version = rust_version(root());
    says("README.md", "Rust # or newer", &version);
    says("rust/README.md", "(Rust # or later)", &version);
}

/// What the header says of the memory's words.
#[test]
fn words_of_a_shard_and_of_a_cluster() {
    let header = fs::read_to_string(root().join("include/plankeeper.h")).expect("it can be read");
    let number = |name: &str| {
        let mut lines = header.lines();
        let found = lines.find_map(|line| line.strip_prefix(&format!("#define {name} ")));
        let found = found.expect("the header has it");
        written(found.parse().expect("it is a number"))
    };
    let shard = number("PLANKEEPER_SHARD_WORDS");
    let words = format!("{shard} words of 32 bits for a shard, # for a cluster");
    says("rust/README.md", &words, number("PLANKEEPER_WORDS"));
}

/// A figure with three digits and with four.
#[test]
fn figures_as_people_write_them() {
    assert_eq!(written(137), "137");
    assert_eq!(written(3589), "3,589");
    assert_eq!(written(1_000_024), "1,000,024");
}
