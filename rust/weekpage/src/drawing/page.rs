//! The page as a whole: one file that needs no other.

use super::endings::{committed, others};
use super::legend::legend;
use super::markup::{Attributes, Markup};
use super::overview::{contents, summary, swaps};
use super::pantries::pantries;
use super::records::records;
use crate::reading::Week;

/// Colours and shapes of the marks, for the page and for pictures alike.
pub(super) const MARKS_STYLE: &str = include_str!("marks.css");
const PAGE_STYLE: &str = include_str!("page.css");
const SCRIPT: &str = include_str!("page.js");

/// The page of a week that has this name.
pub fn page(name: &str, week: &Week) -> String {
    let mut html = Markup::default();
    html.raw("<!DOCTYPE html>\n");
    html.element("html", &[("lang", &"en")], |html| {
        html.element("head", &[], |html| head(html, name));
        html.element("body", &[], |html| body(html, name, week));
    });
    html.end_line();
    html.finish()
}

fn head(html: &mut Markup, name: &str) {
    html.empty("meta", &[("charset", &"utf-8")]);
    let content = "width=device-width, initial-scale=1";
    html.empty("meta", &[("name", &"viewport"), ("content", &content)]);
    html.worded("title", &[], format_args!("The week “{name}”"));
    html.element("style", &[], |html| {
        html.raw(PAGE_STYLE);
        html.raw(MARKS_STYLE);
    });
    html.end_line();
}

fn body(html: &mut Markup, name: &str, week: &Week) {
    html.element("header", &[], |html| {
        html.worded("h1", &[], format_args!("The week “{name}”"));
        summary(html, week);
        contents(html);
    });
    html.element("section", &[("id", &"marks")], |html| {
        html.worded("h2", &[], "How to read it");
        for text in READING {
            html.worded("p", &[], text);
        }
        html.worded("p", &[("id", &"choosing"), ("hidden", &"hidden")], CHOOSING);
        legend(html);
    });
    html.element("section", &[("id", &"swaps")], |html| swaps(html, week));
    html.element("section", &[("id", &"picture")], |html| records(html, week));
    html.element("section", &[("id", &"end")], |html| {
        html.worded("h2", &[], "The end of the week");
        committed(html, week);
        others(html, week);
        pantries(html, week);
    });
    html.worded("footer", &[], FOOTER);
    bar(html);
    html.element("script", &[], |html| html.raw(SCRIPT));
    html.end_line();
}

const READING: [&str; 2] = [
    "Eight pantries hold tokens: prepaid portions, each token of one household. A token is named \
     by its pantry, the swap that made it (0 for an opening) and its position. A swap takes tokens \
     away at some pantries and makes new ones at others. Each of its pantries registers it, pledges \
     those of its tokens there that are available, and votes yes if all of them are. It aborts with \
     the first no, and commits once it has heard a yes from every one.",
    "Time runs downward: each record of the week is a row. Each pantry has a lane, and what a \
     record does stands in the lane of the pantry that received it. Left of the lanes is the line \
     of the listing, right of them the same in words; of a refused record, its text and why it was \
     refused.",
];

/// What the script adds, which shows this, too.
const CHOOSING: &str = "Choose a swap, with the mouse or the keyboard, and its rows stand out in \
    all lanes; Escape ends that.";

const FOOTER: &str = "The lines are those of the proved listing program. Tokens, votes, outcomes \
    and findings are what the proved library answers. A refused record is shown by its text. This \
    page draws all that and decides nothing.";

/// What is shown while a swap is chosen; the script fills it in.
fn bar(html: &mut Markup) {
    let hidden: Attributes = &[
        ("id", &"chosen"),
        ("role", &"status"),
        ("hidden", &"hidden"),
    ];
    html.element("div", hidden, |html| {
        html.worded("span", &[], "");
        button(html, -1, "previous row");
        button(html, 1, "next row");
        html.worded("a", &[("href", &"#swaps")], "its entry");
        button(html, 0, "show all");
    });
    html.end_line();
}

/// A button that goes so many rows on, or ends the choice.
fn button(html: &mut Markup, by: i32, text: &str) {
    html.worded("button", &[("type", &"button"), ("data-go", &by)], text);
}
