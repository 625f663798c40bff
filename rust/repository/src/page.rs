//! A page of the documents.

use std::fs;
use std::path::Path;

use crate::files;

/// A page, by its place in the repository.
pub struct Page {
    /// Its file, from the repository's root.
    pub name: String,
    /// All of it.
    pub text: String,
}

/// What stands between two backticks.
pub struct Span<'a> {
    /// The line's number, from 1.
    pub line: usize,
    /// The text between them.
    pub text: &'a str,
}

/// Every page of the repository that stands in this folder, in order.
pub fn pages(root: &Path) -> Vec<Page> {
    let files = files(root).into_iter();
    let pages = files.filter(|file| file.extension().is_some_and(|found| found == "md"));
    let pages = pages.map(|file| {
        let name = file.strip_prefix(root).expect("it stands in the folder");
        Page {
            name: name.to_str().expect("names are UTF-8").to_owned(),
            text: fs::read_to_string(&file).expect("the page can be read"),
        }
    });
    pages.collect()
}

impl Page {
    /// Whether it is about what was so at another time: then it may name what
    /// is gone.
    pub fn is_history(&self) -> bool {
        let past = ["docs/history/", "docs/changes/"];
        past.iter().any(|folder| self.name.starts_with(folder))
    }

    /// The lines with their numbers, and whether each stands in a block of code.
    pub fn lines(&self) -> impl Iterator<Item = (usize, &str, bool)> {
        let mut code = false;
        (1..).zip(self.text.lines()).map(move |(number, line)| {
            let fence = line.trim_start().starts_with("```");
            let inside = code || fence;
            code ^= fence;
            (number, line, inside)
        })
    }

    /// What stands between backticks outside of blocks of code.
    pub fn spans(&self) -> impl Iterator<Item = Span<'_>> {
        let prose = self.lines().filter(|(_, _, code)| !code);
        prose.flat_map(|(line, text, _)| {
            let inside = text.split('`').skip(1).step_by(2);
            inside.map(move |text| Span { line, text })
        })
    }

    /// The paragraphs and items of lists outside of blocks of code and tables, each
    /// with the number of its first line.
    pub fn paragraphs(&self) -> Vec<(usize, String)> {
        let mut paragraphs: Vec<(usize, String)> = Vec::new();
        let mut goes_on = false;
        for (number, line, code) in self.lines() {
            let other = code || line.is_empty() || line.starts_with(['|', '#']);
            let item = is_item(line.trim_start());
            match paragraphs.last_mut() {
                _ if other => {}
                Some((_, text)) if goes_on && !item => *text = format!("{text} {line}"),
                _ => paragraphs.push((number, line.to_owned())),
            }
            goes_on = !other;
        }
        paragraphs
    }
}

/// Whether an item of a list begins so: `- ` or `12. `.
fn is_item(text: &str) -> bool {
    let digits = text.trim_start_matches(|letter: char| letter.is_ascii_digit());
    text.starts_with("- ") || digits.len() < text.len() && digits.starts_with(". ")
}
