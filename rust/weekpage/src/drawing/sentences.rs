//! What a record has brought, in a sentence.

use plankeeper::{Answer, Outcome, Record, Refusal, TokenId, Verdict};

use super::markup::Markup;
use super::tables::{cause, holding, link, spoilers, swap, token, vote, written};
use crate::reading::{Row, Week};

/// The sentence beside the record's marks.
pub(crate) fn sentence(html: &mut Markup, week: &Week, row: &Row) {
    match (row.answer, &row.record) {
        (Ok(answer), Some(record)) => {
            asked(html, week, row, record);
            came(html, week, row, answer);
        }
        (Ok(_), None) => {}
        (Err(refusal), _) => refused(html, row, refusal),
    }
}

/// What the record says.
fn asked(html: &mut Markup, week: &Week, row: &Row, record: &Record) {
    let about = |html: &mut Markup| swap(html, week, row.about);
    match *record {
        Record::Mint {
            receiver,
            index,
            owner,
            amount,
        } => {
            let id = TokenId {
                shard: receiver,
                creator: 0,
                index,
            };
            html.text("opening token ");
            token(html, id);
            html.text(format_args!(" of {}", holding(owner, amount)));
        }
        Record::Register { receiver, .. } => {
            html.text("registration of ");
            about(html);
            html.text(format_args!(" at pantry {receiver}"));
        }
        Record::Vote {
            receiver,
            sender,
            verdict,
            ..
        } => {
            html.text(format_args!("vote {} on ", vote(verdict)));
            about(html);
            html.text(format_args!(" from pantry {sender} to pantry {receiver}"));
        }
        Record::Turn { receiver } => html.text(format_args!("turn of pantry {receiver}")),
    }
}

/// A refused record by its own text, which chooses its swap, and why it was refused.
fn refused(html: &mut Markup, row: &Row, refusal: Refusal) {
    if let Some(line) = written(row) {
        html.text(format_args!("{line}: "));
    }
    html.element("span", &[("class", &"own")], |html| {
        link(html, row.about, &row.text);
    });
    html.text(format_args!(" – refused, {}", cause(refusal)));
    if refusal == Refusal::HeldOff {
        html.text(" – held off, to be sent again");
    }
}

/// What came of it, where it was carried out.
fn came(html: &mut Markup, week: &Week, row: &Row, answer: Answer) {
    match answer {
        Answer::Minted => {}
        Answer::Registered { verdict, outcome } => own(html, week, row, verdict, outcome),
        Answer::Brought { verdict, outcome } => {
            html.text(" brings the swap, which is registered");
            own(html, week, row, verdict, outcome);
        }
        Answer::Heard(outcome) => html.text(match (outcome, row.decision) {
            (Outcome::Wait, _) => ": waits",
            (Outcome::Commit, Some(_)) => ": commits",
            (Outcome::Abort, Some(_)) => ": aborts",
            (Outcome::Commit, None) => ": noted, committed before",
            (Outcome::Abort, None) => ": noted, aborted before",
        }),
        Answer::Again(_) => html.text(": heard before"),
        Answer::Turned => html.text(": from now on an abort there frees its tokens"),
    }
}

/// The pantry's own vote, the outcome, and why the vote is no.
fn own(html: &mut Markup, week: &Week, row: &Row, verdict: Verdict, outcome: Outcome) {
    let outcome = match outcome {
        Outcome::Wait => "waits",
        Outcome::Commit => "commits",
        Outcome::Abort => "aborts",
    };
    html.text(format_args!(": votes {}, {outcome}", vote(verdict)));
    if !row.spoilers.is_empty() {
        html.text(" – ");
        spoilers(html, week, &row.spoilers);
    }
}
