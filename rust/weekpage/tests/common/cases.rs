//! Weeks to draw, and their pages.

use std::fs;

use program::{input, root, weeks};
use reference::listing;
use weekpage::{Week, page};
use weektext::{Entry, entries, entries_of_text, text};

use super::parser::parse;
use super::tree::Element;

/// So many random and damaged inputs.
const INPUTS: u64 = 1_000;

/// A week's records, with the listing that belongs to them.
pub struct Case {
    /// The week's name.
    pub name: String,
    /// The records.
    pub bytes: Vec<u8>,
    /// The listing.
    pub listing: String,
    /// The text that the records were made of, where there is one.
    pub text: Option<Vec<u8>>,
}

impl Case {
    /// The records as people read them.
    pub fn written(&self) -> Vec<Entry> {
        match &self.text {
            Some(text) => entries_of_text(text).expect("the text has no error"),
            None => entries(&self.bytes),
        }
    }

    /// The week as the crate reads it.
    pub fn week(&self) -> Week {
        let week = Week::read(&self.bytes, &self.listing, self.written());
        week.unwrap_or_else(|mismatch| panic!("{}: {mismatch}", self.name))
    }

    /// Its page.
    pub fn page(&self) -> String {
        page(&self.name, &self.week())
    }
}

/// The stored weeks, with their stored listings and their texts, and then random
/// and damaged inputs, short and longer ones, with the reference's listings; some
/// of these have a text, too.
pub fn cases() -> impl Iterator<Item = Case> {
    let listed = |listing| String::from_utf8(listing).expect("a listing is ASCII");
    let stored = weeks().into_iter().map(move |week| {
        let file = root().join(format!("weeks/{}.txt", week.name));
        Case {
            name: week.name,
            bytes: week.bytes,
            listing: listed(week.listing),
            text: Some(fs::read(file).expect("the week can be read")),
        }
    });
    let random = (0..INPUTS).map(move |number| {
        let input = input(number, number % 2 == 0);
        Case {
            name: format!("input {number} ({})", input.damage),
            listing: listed(listing(&input.bytes)),
            text: (number % 3 == 0).then(|| text(&input.bytes).into_bytes()),
            bytes: input.bytes,
        }
    });
    stored.chain(random)
}

/// The tree of a page or a picture of the week of this name.
pub fn tree(name: &str, markup: &str) -> Element {
    parse(markup).unwrap_or_else(|fault| panic!("{name}: {fault}"))
}
