//! Why a transaction did not commit, in words.

use plankeeper::{Known, Outcome, Verdict};

use super::markup::Markup;
use super::tables::{cause, listed, spoilers, step, written};
use crate::reading::{AtShard, End, History, Refused, Week};

/// The reason, in the pantries' own words: who said no and which token spoiled
/// it, whose vote is missing, or why nobody knows it.
pub(crate) fn reason(html: &mut Markup, week: &Week, history: &History) {
    match history.end() {
        End::Committed => {}
        End::Aborted => noes(html, week, history),
        End::Undecided => missing(html, week, history),
        End::Unknown => nowhere(html, week, history),
    }
}

/// Every pantry that said no, and what it found.
fn noes(html: &mut Markup, week: &Week, history: &History) {
    let no = |at: &&AtShard| at.vote() == Some(Verdict::No);
    for at in history.at.iter().filter(no) {
        html.element("p", &[], |html| {
            html.text(format_args!("Pantry {} said no – ", at.shard));
            spoilers(html, week, &at.spoilers);
        });
    }
}

/// Every pantry that waits, and whose votes it has not heard; every pantry that
/// does not know it, and why; and what reached no pantry.
fn missing(html: &mut Markup, week: &Week, history: &History) {
    html.worded("p", &[], "Undecided: no pantry said no.");
    for at in &history.at {
        let pantry = at.shard;
        html.element("p", &[], |html| match &at.known {
            Some(known) => {
                let unheard = unheard(history, known);
                html.text(format_args!("Pantry {pantry} has not heard {unheard}."));
            }
            None => {
                html.text(format_args!("Pantry {pantry} does not know it."));
                refusals(html, week, refused_at(history, Some(pantry)));
            }
        });
    }
    let mut unread = refused_at(history, None).peekable();
    if unread.peek().is_some() {
        html.element("p", &[], |html| {
            html.text("Not every record reached a pantry.");
            refusals(html, week, unread);
        });
    }
}

/// The refused records about it that were for this shard; with none named, those
/// that could not be read.
fn refused_at(history: &History, shard: Option<u8>) -> impl Iterator<Item = &Refused> {
    let refused = history.refused.iter();
    refused.filter(move |record| record.shard == shard)
}

/// The votes that a pantry has not heard.
fn unheard(history: &History, known: &Known) -> String {
    let senders = history.at.iter().map(|at| at.shard);
    let unheard = senders.filter(|&sender| known.heard[usize::from(sender)].is_none());
    let unheard: Vec<String> = unheard.map(|sender| sender.to_string()).collect();
    let votes = match unheard.len() {
        1 => "the vote of pantry",
        _ => "the votes of pantries",
    };
    format!("{votes} {}", listed(&unheard))
}

/// A transaction that no pantry knows.
fn nowhere(html: &mut Markup, week: &Week, history: &History) {
    html.element("p", &[], |html| {
        html.text("No pantry knows it.");
        refusals(html, week, history.refused.iter());
    });
}

/// Every cause for which these were refused, in the order in which they first
/// came.
fn refusals<'a>(html: &mut Markup, week: &Week, records: impl Iterator<Item = &'a Refused>) {
    let mut causes: Vec<(&Refused, usize)> = Vec::new();
    for record in records {
        let same = |(first, _): &&mut (&Refused, usize)| first.refusal == record.refusal;
        match causes.iter_mut().find(same) {
            Some((_, times)) => *times += 1,
            None => causes.push((record, 1)),
        }
    }
    for (first, times) in causes {
        html.text(" Refused at ");
        step(html, first.step);
        if let Some(line) = written(&week.rows[first.step - 1]) {
            html.text(format_args!(" ({line})"));
        }
        match times - 1 {
            0 => {}
            1 => html.text(" and once more"),
            more => html.text(format_args!(" and {more} times more")),
        }
        html.text(format_args!(", {}.", cause(first.refusal)));
    }
}

/// What its pantries have decided, one a line; of a transaction that could not be
/// read nobody knows its pantries.
pub(crate) fn outcomes(html: &mut Markup, history: &History) {
    if history.at.is_empty() {
        html.worded("p", &[], "–");
    }
    for at in &history.at {
        html.element("p", &[], |html| {
            html.text(format_args!("pantry {} ", at.shard));
            outcome_word(html, at.known.as_ref().map(|known| known.outcome));
        });
    }
}

/// An outcome's word, coloured; that a shard does not know the transaction is said, too.
pub(crate) fn outcome_word(html: &mut Markup, outcome: Option<Outcome>) {
    let class = match outcome {
        Some(Outcome::Commit) => "outcome commit",
        Some(Outcome::Abort) => "outcome abort",
        _ => "outcome wait",
    };
    let word = outcome.map_or("not known".into(), |outcome| outcome.to_string());
    html.worded("span", &[("class", &class)], word);
}
