//! What each pantry holds and knows at the end of the week.

use plankeeper::{Known, Token};

use super::markup::Markup;
use super::reasons::outcome_word;
use super::tables::{count, known_swap, portions, row_of, swap, table, token, vote};
use crate::reading::{ShardState, Week};

/// All pantries, and their portions together.
pub(crate) fn pantries(html: &mut Markup, week: &Week) {
    let heading = "What the pantries hold and know";
    html.worded("h3", &[("id", &"pantries")], heading);
    let shards = (0..).zip(&week.shards);
    let (blank, others): (Vec<_>, Vec<_>) = shards.partition(|(_, state)| state.is_blank());
    if !others.is_empty() {
        html.element("div", &[("class", &"pantries")], |html| {
            for (shard, state) in others {
                pantry(html, week, shard, state);
            }
        });
    }
    if !blank.is_empty() {
        let shards: Vec<u8> = blank.into_iter().map(|(shard, _)| shard).collect();
        empty(html, &shards);
    }
    html.element("p", &[("class", &"total")], |html| {
        let all = week.shards.iter().map(|state| state.total).sum();
        let portions = portions(all);
        html.text(format_args!("All pantries together hold {portions}: "));
        html.worded("code", &[], &week.total);
    });
}

fn pantry(html: &mut Markup, week: &Week, shard: u8, state: &ShardState) {
    let (id, ShardState { tokens, known, .. }) = (format!("pantry-{shard}"), state);
    html.element("section", &[("class", &"pantry"), ("id", &id)], |html| {
        html.worded("h4", &[], format_args!("Pantry {shard}"));
        html.element("p", &[], |html| summary(html, state));
        if !tokens.is_empty() {
            let names = ["Token", "Household", "Portions", "Pledged to"];
            table(html, "tokens", &names, tokens, |html, _, held| {
                held_token(html, week, held);
            });
        }
        if !known.is_empty() {
            let names = ["Swap", "Votes heard", "Outcome"];
            table(html, "known", &names, known, |html, _, known| {
                known_row(html, week, shard, known);
            });
        }
    });
    html.end_line();
}

/// The pantries without anything, in one line; what leads to one of them leads to
/// its number there.
fn empty(html: &mut Markup, shards: &[u8]) {
    let (pantries, hold) = match shards {
        [_] => ("Pantry", "holds nothing and knows"),
        _ => ("Pantries", "hold nothing and know"),
    };
    html.element("p", &[("class", &"empty")], |html| {
        html.text(pantries);
        for (k, shard) in shards.iter().enumerate() {
            html.text(match k {
                0 => " ",
                _ if k + 1 == shards.len() => " and ",
                _ => ", ",
            });
            let id = format!("pantry-{shard}");
            html.worded("span", &[("id", &id)], shard);
        }
        html.text(format_args!(" {hold} no swap."));
    });
    html.end_line();
}

fn summary(html: &mut Markup, state: &ShardState) {
    let (portions, tokens) = (portions(state.total), count(state.tokens.len(), "token"));
    let swaps = count(state.known.len(), "swap");
    html.text(format_args!("{portions} in {tokens}; {swaps} known"));
    if state.turned {
        html.text("; turned: an abort here frees its tokens");
    }
}

fn held_token(html: &mut Markup, week: &Week, held: &Token) {
    let known = |number| week.known(held.id.shard, number);
    let place = held.pledge.and_then(known);
    row_of(html, place, &[], |html| {
        html.element("th", &[("scope", &"row")], |html| token(html, held.id));
        html.worded("td", &[("class", &"number")], held.owner);
        html.worded("td", &[("class", &"number")], held.amount);
        html.element("td", &[], |html| match held.pledge {
            Some(number) => known_swap(html, week, held.id.shard, number),
            None => html.text("–"),
        });
    });
}

fn known_row(html: &mut Markup, week: &Week, shard: u8, known: &Known) {
    let place = week.known(shard, known.transaction.number());
    row_of(html, place, &[], |html| {
        html.element("th", &[("scope", &"row")], |html| swap(html, week, place));
        html.worded("td", &[], votes(known));
        html.element("td", &[], |html| outcome_word(html, Some(known.outcome)));
    });
}

/// The votes heard, by sender.
fn votes(known: &Known) -> String {
    let heard = (0..)
        .zip(known.heard)
        .filter_map(|(sender, verdict): (u8, _)| {
            let verdict = vote(verdict?);
            Some(format!("{sender} {verdict}"))
        });
    heard.collect::<Vec<_>>().join(", ")
}
