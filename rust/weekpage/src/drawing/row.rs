//! The marks of one record, in the lanes.

use std::cmp::Ordering;

use plankeeper::{Answer, Record, Refusal, Verdict};

use super::lanes::{WIDTH, middle};
use super::marks::{self, DECISION, Delivery, Reach};
use super::markup::Markup;
use super::tables;
use crate::reading::{Row, Week};

/// Between marks that stand side by side.
const GAP: i32 = 2;
/// How far a vote that a decision stands beside gives way, so that both are in
/// the midst of their lane.
const ASIDE: i32 = 11;

/// Draws what the record has brought. The class `refused` greys it.
pub(crate) fn row(svg: &mut Markup, week: &Week, row: &Row) {
    let class = match row.answer {
        Ok(_) => "marks",
        Err(_) => "marks refused",
    };
    svg.element("g", &[("class", &class)], |svg| {
        let Some(record) = &row.record else {
            marks::nowhere(svg);
            end(svg, row, WIDTH / 2);
            return;
        };
        let x = middle(record.receiver());
        match *record {
            Record::Mint { owner, amount, .. } => {
                marks::label(svg, x, format_args!("household {owner}"));
                opening(svg, row, x, amount);
            }
            Record::Register { .. } => {
                marks::label(svg, x, format_args!("swap {}", name(week, row)));
                end(svg, row, x);
            }
            Record::Vote {
                sender, verdict, ..
            } => {
                let reach = end(svg, row, x);
                vote(svg, week, row, (sender, verdict), reach);
            }
            Record::Turn { .. } => {
                if row.answer.is_ok() {
                    marks::label(svg, x, "turned");
                }
                end(svg, row, x);
            }
        }
    });
}

/// The transaction's name.
fn name<'a>(week: &'a Week, row: &Row) -> &'a str {
    row.about.map_or("", |place| week.histories[place].name())
}

fn opening(svg: &mut Markup, row: &Row, x: i32, amount: u32) {
    match row.answer {
        Ok(_) => marks::token(svg, x, amount),
        Err(_) => end(svg, row, x),
    };
}

/// What stands in the receiver's lane: the refusal, or the vote that it has given
/// and then the decision. Tells how far they reach.
fn end(svg: &mut Markup, row: &Row, x: i32) -> Reach {
    match (row.answer, row.decision) {
        (Err(Refusal::HeldOff), _) => marks::pause(svg, x),
        (Err(refusal), _) => marks::refusal(svg, x, refusal.number()),
        (Ok(Answer::Turned), _) => marks::turn(svg, x),
        (
            Ok(Answer::Registered { verdict, .. } | Answer::Brought { verdict, .. }),
            Some(outcome),
        ) => {
            let (left, right) = marks::verdict(svg, x - ASIDE, verdict);
            let beside = right - ASIDE + GAP + DECISION;
            let (_, end) = marks::decision(svg, x + beside, outcome);
            (ASIDE + left, beside + end)
        }
        (Ok(Answer::Registered { verdict, .. } | Answer::Brought { verdict, .. }), None) => {
            marks::verdict(svg, x, verdict)
        }
        (Ok(_), Some(outcome)) => marks::decision(svg, x, outcome),
        (Ok(_), None) => (0, 0),
    }
}

/// The arrow from the sender to what stands in the receiver's lane.
fn vote(svg: &mut Markup, week: &Week, row: &Row, (sender, verdict): (u8, Verdict), reach: Reach) {
    let delivery = match row.answer {
        Err(_) => Delivery::Refused,
        Ok(Answer::Again(_)) => Delivery::Repeat,
        Ok(_) => Delivery::Fresh,
    };
    let receiver = row.record.as_ref().map_or(sender, Record::receiver);
    let (from, x) = (middle(sender), middle(receiver));
    let (left, right) = (x - reach.0 - 1, x + reach.1 + 1);
    let label = match sender.cmp(&receiver) {
        Ordering::Equal => {
            marks::own(svg, delivery, verdict, x, right);
            x
        }
        side => {
            let to = if side.is_lt() { left } else { right };
            marks::arrow(svg, delivery, verdict, from, to);
            (from + to) / 2
        }
    };
    if matches!(row.answer, Ok(Answer::Brought { .. })) {
        marks::parcel(svg, label);
    }
    marks::label(svg, label, vote_label(week, row, verdict));
}

fn vote_label(week: &Week, row: &Row, verdict: Verdict) -> String {
    format!("swap {}: {}", name(week, row), tables::vote(verdict))
}
