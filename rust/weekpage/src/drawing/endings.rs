//! How the swaps have ended: the committed ones in their serial order, and why the
//! others did not commit.

use plankeeper::Transaction;
use weektext::Carried;

use super::markup::Markup;
use super::reasons::{outcomes, reason};
use super::tables::{holding, row_of, step, swap, swap_id, table, token};
use crate::reading::{End, Week};

/// The committed swaps, one after the other.
pub(crate) fn committed(html: &mut Markup, week: &Week) {
    let places = week.committed();
    html.worded(
        "h3",
        &[("id", &"committed")],
        "Committed swaps, in serial order",
    );
    if places.is_empty() {
        html.worded("p", &[], "No swap was committed.");
        return;
    }
    html.worded(
        "p",
        &[],
        "Whatever the order of arrival was, the pantries hold what they would hold if these swaps \
         had been made one by one in this order, that of their last registrations, once each is \
         decided at all its pantries.",
    );
    let names = [
        "",
        "Swap",
        "Takes",
        "Gives",
        "Last registration",
        "Pantries",
    ];
    table(html, "swaps", &names, &places, |html, k, &place| {
        let history = &week.histories[place];
        entry(html, place, |html| {
            html.worded("td", &[("class", &"number")], k + 1);
            fields(html, week, place);
            html.element("td", &[], |html| {
                if let Some(registered) = history.registered {
                    step(html, registered);
                }
            });
            html.element("td", &[], |html| outcomes(html, history));
        });
    });
}

/// The swaps that did not commit, and why.
pub(crate) fn others(html: &mut Markup, week: &Week) {
    let places = week.ended(|end| end != End::Committed);
    html.worded("h3", &[("id", &"others")], "Swaps that did not commit");
    if places.is_empty() {
        html.worded("p", &[], "There are none.");
        return;
    }
    html.worded(
        "p",
        &[],
        "A pantry says no where a token that the swap takes there is not available: it is not \
         held, it has another household or other portions than the swap says, or it is pledged to \
         another swap. A swap whose records were all refused is known at no pantry; where none of \
         them could be read, what it takes and gives is shown as text.",
    );
    let names = ["Swap", "Takes", "Gives", "Pantries", "Why"];
    table(html, "swaps", &names, &places, |html, _, &place| {
        let history = &week.histories[place];
        entry(html, place, |html| {
            fields(html, week, place);
            html.element("td", &[], |html| outcomes(html, history));
            html.element("td", &[("class", &"why")], |html| {
                reason(html, week, history)
            });
        });
    });
}

/// The row that a swap's links lead to.
fn entry(html: &mut Markup, place: usize, content: impl FnOnce(&mut Markup)) {
    let id = format!("swap-{}", swap_id(place));
    row_of(html, Some(place), &[("id", &id)], content);
}

/// Its name, what it takes and what it gives.
fn fields(html: &mut Markup, week: &Week, place: usize) {
    html.element("th", &[("scope", &"row")], |html| {
        swap(html, week, Some(place))
    });
    let history = &week.histories[place];
    match &history.transaction {
        Some(transaction) => read(html, transaction),
        None => unread(html, &history.carried),
    }
}

/// The tokens of a transaction that was read.
fn read(html: &mut Markup, transaction: &Transaction) {
    html.element("td", &[], |html| {
        for input in transaction.inputs() {
            html.element("p", &[], |html| {
                token(html, input.token);
                html.text(format_args!(": {}", holding(input.owner, input.amount)));
            });
        }
    });
    html.element("td", &[], |html| {
        for output in transaction.outputs() {
            let (pantry, held) = (output.shard, holding(output.owner, output.amount));
            html.worded("p", &[], format_args!("pantry {pantry}: {held}"));
        }
    });
}

/// The lines of one that could not be read, as they stand in a week's text.
fn unread(html: &mut Markup, carried: &Carried) {
    let Carried {
        counts,
        takes,
        gives,
        ..
    } = carried;
    let takes: Vec<&String> = counts.iter().chain(takes).collect();
    for lines in [takes, gives.iter().collect()] {
        html.element("td", &[], |html| {
            for line in lines {
                html.worded("p", &[("class", &"own")], line);
            }
        });
    }
}
