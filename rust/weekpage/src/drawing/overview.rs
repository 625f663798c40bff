//! The top of the page: how the week went, and all its swaps.

use super::markup::Markup;
use super::tables::{count, swap};
use crate::reading::{End, Week};

/// How many records there were, and how the swaps have ended.
pub(crate) fn summary(html: &mut Markup, week: &Week) {
    let refused = week.rows.iter().filter(|row| row.answer.is_err()).count();
    let mut text = count(week.rows.len(), "record");
    if refused > 0 {
        text += &format!(", {refused} of them refused");
    }
    text += &format!(". {}", count(week.histories.len(), "swap"));
    let ends = [End::Committed, End::Aborted, End::Undecided, End::Unknown];
    let ends = ends.map(|wanted| (week.ended(|end| end == wanted).len(), ended(wanted).1));
    let ends = ends.iter().filter(|(number, _)| *number > 0);
    for (k, (number, word)) in ends.enumerate() {
        let before = if k == 0 { ":" } else { "," };
        text += &format!("{before} {number} {word}");
    }
    html.element("p", &[("class", &"summary")], |html| {
        html.text(format_args!("{text}. "));
        html.worded("code", &[], &week.total);
    });
}

/// The class and the word for how a swap has ended.
fn ended(end: End) -> (&'static str, &'static str) {
    match end {
        End::Committed => ("outcome commit", "committed"),
        End::Aborted => ("outcome abort", "aborted"),
        End::Undecided => ("outcome wait", "undecided"),
        End::Unknown => ("outcome wait", "known nowhere"),
    }
}

/// Where the parts of the page are.
pub(crate) fn contents(html: &mut Markup) {
    html.element("nav", &[], |html| {
        for (href, text) in [
            ("#marks", "How to read it"),
            ("#swaps", "The swaps"),
            ("#picture", "Record by record"),
            ("#committed", "Committed swaps"),
            ("#others", "Swaps that did not commit"),
            ("#pantries", "The pantries at the end"),
        ] {
            html.worded("a", &[("href", &href)], text);
            html.text(" ");
        }
    });
}

/// All swaps by number, each with how it has ended.
pub(crate) fn swaps(html: &mut Markup, week: &Week) {
    html.worded("h2", &[], "The swaps");
    if week.histories.is_empty() {
        html.worded("p", &[], "There are none.");
    }
    let mut places: Vec<usize> = (0..week.histories.len()).collect();
    places.sort_by_key(|&place| week.histories[place].number());
    html.element("ul", &[("class", &"swaps")], |html| {
        for place in places {
            let (class, word) = ended(week.histories[place].end());
            html.element("li", &[], |html| {
                swap(html, week, Some(place));
                html.text(" ");
                html.worded("span", &[("class", &class)], word);
            });
            html.end_line();
        }
    });
}
