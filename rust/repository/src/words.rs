//! The words that the sources are made of.

use std::collections::HashSet;
use std::fs;
use std::path::Path;

use crate::files;

/// Every word of the sources, and the name of every file.
pub struct Words {
    words: HashSet<String>,
}

/// What is no source: pages, and what was made from others.
const PAGES: [&str; 2] = ["md", "svg"];

/// Part of a name in some of the languages.
fn joins(letter: char) -> bool {
    letter.is_alphanumeric() || matches!(letter, '_' | '-')
}

impl Words {
    /// Those of the repository that stands in this folder.
    pub fn of(root: &Path) -> Self {
        let mut words = HashSet::new();
        for file in files(root) {
            let path = file.strip_prefix(root).expect("it stands in the folder");
            let named = path.iter().chain(path.file_stem());
            words.extend(named.map(|part| part.to_string_lossy().into_owned()));
            let page = path
                .extension()
                .is_some_and(|found| PAGES.iter().any(|page| found == *page));
            if !page && let Ok(text) = fs::read_to_string(&file) {
                take(&mut words, &text);
            }
        }
        Words { words }
    }

    /// Whether the sources have it.
    pub fn have(&self, word: &str) -> bool {
        self.words.contains(word)
    }
}

/// The text's words: those that hyphens join, and their parts, which are names
/// of their own in the languages in which a hyphen is a minus.
fn take(words: &mut HashSet<String>, text: &str) {
    for joined in text.split(|letter| !joins(letter)) {
        for part in joined.split('-').chain([joined]) {
            if !words.contains(part) {
                words.insert(part.to_owned());
            }
        }
    }
}
