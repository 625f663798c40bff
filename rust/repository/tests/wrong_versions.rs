//! The wrong versions that the pages of assurance name are there: `shard/number_alone`
//! is tried by the gate, and behind 'edits:' stand those that are tried beside it.

use program::root;
use repository::{Page, pages};

/// A wrong version that a page names.
#[derive(Debug, PartialEq, Eq)]
struct Named<'a> {
    /// Whether it is one of those beside the gate.
    beside: bool,
    /// The crate, and its own name.
    name: &'a str,
}

impl Named<'_> {
    /// Its file, from the repository's root.
    fn file(&self) -> String {
        let (crate_name, own) = self.name.split_once('/').expect("a crate and a name");
        if self.beside {
            format!("edits/{crate_name}/{own}.edit")
        } else {
            format!("crates/{crate_name}/must-fail/{own}.edit")
        }
    }
}

/// Whether it is a crate and a wrong version's name.
fn is_wrong_version(text: &str) -> bool {
    let word = |part: &str| {
        let mut letters = part.bytes();
        letters.all(|byte| matches!(byte, b'a'..=b'z' | b'0'..=b'9' | b'_'))
    };
    text.split_once('/').is_some_and(|(crate_name, own)| {
        let is_crate = root().join("crates").join(crate_name).is_dir();
        is_crate && word(own) && !matches!(own, "" | "specs" | "proofs" | "src")
    })
}

/// Those of a table's cell.
fn named(cell: &str) -> Vec<Named<'_>> {
    let mut beside = false;
    let mut found = Vec::new();
    for (k, part) in cell.split('`').enumerate() {
        if k % 2 == 0 {
            beside |= part.contains("edits:");
        } else if is_wrong_version(part) {
            found.push(Named { beside, name: part });
        }
    }
    found
}

/// The pages that have columns of them.
fn assurance() -> Vec<Page> {
    let mut pages = pages(root());
    pages.retain(|page| page.name.to_lowercase().starts_with("docs/assurance"));
    pages
}

#[test]
fn every_wrong_version_is_there() {
    let mut count = 0;
    for page in assurance() {
        for (line, text, _) in page.lines().filter(|(_, text, _)| text.starts_with('|')) {
            for version in text.split('|').flat_map(named) {
                let file = version.file();
                assert!(root().join(&file).is_file(), "{}:{line}: {file}", page.name);
                count += 1;
            }
        }
    }
    assert!(count > 100, "only {count} wrong versions are named");
}

#[test]
fn cells_by_hand() {
    let cell = "`model/held_off_never`, `model/specs`; edits: `shard/own_no_unheard`, `decide`";
    let one = |beside, name| Named { beside, name };
    let expected = [
        one(false, "model/held_off_never"),
        one(true, "shard/own_no_unheard"),
    ];
    assert_eq!(named(cell), expected);
}
