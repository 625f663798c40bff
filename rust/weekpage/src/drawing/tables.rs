//! Pieces that the page's tables and sentences are made of.

use ask::Found;
use plankeeper::{Finding, Refusal, TokenId, Verdict};

use super::markup::{Attributes, Markup};
use crate::reading::{Row, Week};

/// A token's name as document 01 writes it: pantry, making swap, position.
pub(crate) fn token(html: &mut Markup, id: TokenId) {
    let name = format!("({}, {}, {})", id.shard, id.creator, id.index);
    html.worded("span", &[("class", &"name")], name);
}

/// Whose a token is, and how much.
pub(crate) fn holding(owner: u32, amount: u32) -> String {
    format!("household {owner}, {}", portions(amount.into()))
}

/// So many portions.
pub(crate) fn portions(amount: u64) -> String {
    let word = if amount == 1 { "portion" } else { "portions" };
    format!("{amount} {word}")
}

/// A vote in words.
pub(crate) fn vote(verdict: Verdict) -> &'static str {
    match verdict {
        Verdict::Yes => "yes",
        Verdict::No => "no",
    }
}

/// Things in a row as people say it.
pub(crate) fn listed(things: &[String]) -> String {
    match things {
        [] => String::new(),
        [one] => one.clone(),
        [all @ .., last] => format!("{} and {last}", all.join(", ")),
    }
}

/// So many of a thing.
pub(crate) fn count(number: usize, one: &str) -> String {
    format!("{number} {one}{}", if number == 1 { "" } else { "s" })
}

/// The number of the transaction of this place in ids and links.
pub(crate) fn swap_id(place: usize) -> usize {
    place + 1
}

/// A transaction by its name, to be chosen; it leads to its entry.
pub(crate) fn swap(html: &mut Markup, week: &Week, place: Option<usize>) {
    if let Some(history) = place.map(|place| &week.histories[place]) {
        link(html, place, &format!("swap {}", history.name()));
    }
}

/// The transaction that a shard knows by this number, likewise.
pub(crate) fn known_swap(html: &mut Markup, week: &Week, shard: u8, number: u32) {
    match week.known(shard, number) {
        None => html.text(format_args!("swap {number}")),
        place => swap(html, week, place),
    }
}

/// Text that stands for a transaction, to be chosen.
pub(crate) fn link(html: &mut Markup, place: Option<usize>, text: &str) {
    let Some(id) = place.map(swap_id) else {
        return html.text(text);
    };
    let href = format!("#swap-{id}");
    html.worded(
        "a",
        &[("class", &"swap"), ("href", &href), ("data-swap", &id)],
        text,
    );
}

/// A table's row, which stands out while this transaction is chosen.
pub(crate) fn row_of(
    html: &mut Markup,
    place: Option<usize>,
    attributes: Attributes<'_>,
    content: impl FnOnce(&mut Markup),
) {
    let (id, mut attributes) = (place.map(swap_id), attributes.to_vec());
    if let Some(id) = &id {
        attributes.push(("data-swap", id));
    }
    html.element("tr", &attributes, content);
}

/// A step of the listing, which leads to its row.
pub(crate) fn step(html: &mut Markup, step: usize) {
    let href = format!("#step-{step}");
    html.worded("a", &[("href", &href)], format_args!("step {step}"));
}

/// The line of the week's text on which a record stands, if there is one.
pub(crate) fn written(row: &Row) -> Option<String> {
    row.written.map(|line| format!("line {line}"))
}

/// Why a record was refused, and the cause's number.
pub(crate) fn cause(refusal: Refusal) -> String {
    format!("{}: {}", refusal.number(), ask::cause(refusal))
}

/// An input that was not available, and what was found of it.
pub(crate) fn spoiler(html: &mut Markup, week: &Week, found: &Found) {
    let (id, holding) = (
        found.input.token,
        holding(found.input.owner, found.input.amount),
    );
    html.text("token ");
    token(html, id);
    html.text(format_args!(", {holding}: "));
    match found.finding {
        Finding::Pledged(number) => {
            html.text("pledged to ");
            known_swap(html, week, id.shard, number);
        }
        other => html.text(ask::words(&other)),
    }
}

/// Spoilers one after the other.
pub(crate) fn spoilers(html: &mut Markup, week: &Week, found: &[Found]) {
    for (k, found) in found.iter().enumerate() {
        if k > 0 {
            html.text("; ");
        }
        spoiler(html, week, found);
    }
}

/// A table with a row for each of these.
pub(crate) fn table<T>(
    html: &mut Markup,
    class: &str,
    names: &[&str],
    things: &[T],
    mut row: impl FnMut(&mut Markup, usize, &T),
) {
    html.element("table", &[("class", &class)], |html| {
        html.element("thead", &[], |html| headings(html, names));
        html.end_line();
        html.element("tbody", &[], |html| {
            for (k, thing) in things.iter().enumerate() {
                row(html, k, thing);
                html.end_line();
            }
        });
    });
}

fn headings(html: &mut Markup, names: &[&str]) {
    html.element("tr", &[], |html| {
        for name in names {
            html.worded("th", &[("scope", &"col")], name);
        }
    });
}
