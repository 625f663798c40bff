//! Long runs of openings. Each has a heading that says how many tokens it brings to
//! which lane; where the script runs, the rows below the heading are folded.

use std::ops::Range;

use plankeeper::{Answer, Record};

use super::markup::Markup;
use super::tables::{count, listed, portions};
use crate::reading::Row;

/// So many openings in a row are not yet a long run.
const SHORT: usize = 8;

/// Rows that have a body of their own in the table of records.
pub(crate) struct Part {
    /// The rows, by their places.
    pub(crate) rows: Range<usize>,
    /// Whether they are a long run of openings.
    pub(crate) is_run: bool,
}

/// The rows in parts: every long run of openings that were carried out, and what
/// stands between the runs.
pub(crate) fn parts(rows: &[Row]) -> Vec<Part> {
    let (mut parts, mut start): (Vec<Part>, _) = (Vec::new(), 0);
    for same in rows.chunk_by(|one, next| is_opening(one) == is_opening(next)) {
        let end = start + same.len();
        let is_run = same.len() > SHORT && is_opening(&same[0]);
        match parts.last_mut() {
            Some(last) if !last.is_run && !is_run => last.rows.end = end,
            _ => parts.push(Part {
                rows: start..end,
                is_run,
            }),
        }
        start = end;
    }
    parts
}

fn is_opening(row: &Row) -> bool {
    row.answer == Ok(Answer::Minted)
}

/// The heading of a run whose first row has this step.
pub(crate) fn heading(html: &mut Markup, first: usize, run: &[Row]) {
    let (last, opened) = (first + run.len() - 1, opened(run));
    html.element("tr", &[("class", &"run")], |html| {
        html.element(
            "th",
            &[("class", &"line"), ("scope", &"rowgroup")],
            |html| {
                html.text(format_args!("{}, ", count(run.len(), "opening")));
                let steps = format!("steps {first} to {last}");
                html.worded("span", &[("class", &"name")], steps);
            },
        );
        for lane in &opened {
            html.element("td", &[("class", &"lane")], |html| in_lane(html, lane));
        }
        html.worded("td", &[("class", &"told")], told(&opened));
    });
    html.end_line();
}

/// What a run brings to a shard.
#[derive(Default)]
struct Opened {
    tokens: usize,
    amount: u64,
}

fn opened(run: &[Row]) -> [Opened; 8] {
    let mut opened: [Opened; 8] = Default::default();
    for row in run {
        if let Some(Record::Mint {
            receiver, amount, ..
        }) = row.record
        {
            let lane = &mut opened[usize::from(receiver)];
            lane.tokens += 1;
            lane.amount += u64::from(amount);
        }
    }
    opened
}

/// How many tokens and portions there are in a lane; nothing where there are none.
fn in_lane(html: &mut Markup, lane: &Opened) {
    if lane.tokens > 0 {
        html.worded("p", &[], count(lane.tokens, "token"));
        html.worded("p", &[], portions(lane.amount));
    }
}

/// All of it in words.
fn told(opened: &[Opened; 8]) -> String {
    let tokens = opened.iter().map(|lane| lane.tokens).sum();
    let amount = opened.iter().map(|lane| lane.amount).sum();
    let lanes = (0..).zip(opened).filter(|(_, lane)| lane.tokens > 0);
    let lanes: Vec<String> = lanes.map(|(shard, _): (u8, _)| shard.to_string()).collect();
    let pantries = match lanes.len() {
        1 => "pantry",
        _ => "pantries",
    };
    let (tokens, lanes) = (count(tokens, "token"), listed(&lanes));
    format!("{tokens} at {pantries} {lanes}: {}", portions(amount))
}
