//! Record by record: the eight lanes, with the listing's line and a sentence beside
//! each row.

use super::lanes::{ROW, WIDTH, lines, sized};
use super::markup::{Attributes, Markup};
use super::row::row;
use super::runs::{Part, heading, parts};
use super::sentences::sentence;
use super::tables::row_of;
use crate::reading::{Row, Week};

/// The table, a row for each record.
pub(crate) fn records(html: &mut Markup, week: &Week) {
    html.worded("h2", &[], "Record by record");
    html.element("table", &[("class", &"lanes")], |html| {
        html.element("thead", &[], lane_names);
        html.end_line();
        for part in parts(&week.rows) {
            body(html, week, part);
        }
        html.element("tfoot", &[], |html| total(html, &week.total));
    });
}

/// A part of the records; a long run of openings has its heading.
fn body(html: &mut Markup, week: &Week, part: Part) {
    let (first, rows) = (part.rows.start + 1, &week.rows[part.rows]);
    let id = format!("openings-{first}");
    let run: Attributes = &[("id", &id), ("class", &"openings")];
    html.element("tbody", if part.is_run { run } else { &[] }, |html| {
        if part.is_run {
            heading(html, first, rows);
        }
        for (step, row) in (first..).zip(rows) {
            record(html, week, step, row);
            html.end_line();
        }
    });
    html.end_line();
}

fn lane_names(html: &mut Markup) {
    html.element("tr", &[], |html| {
        html.worded("th", &[("class", &"line")], "Listing");
        for pantry in 0..8 {
            html.worded("th", &[("class", &"lane")], format_args!("Pantry {pantry}"));
        }
        html.worded("th", &[("class", &"told")], "What happens");
    });
}

fn total(html: &mut Markup, line: &str) {
    html.element("tr", &[], |html| {
        html.element("th", &[("class", &"line")], |html| {
            html.worded("code", &[], line);
        });
        let text = "portions held in all pantries";
        html.worded("td", &[("colspan", &9)], text);
    });
}

/// One record: the line, the marks, the sentence.
fn record(html: &mut Markup, week: &Week, step: usize, shown: &Row) {
    let id = format!("step-{step}");
    let class = match shown.answer {
        Ok(_) => "record",
        Err(_) => "record refused",
    };
    row_of(
        html,
        shown.about,
        &[("id", &id), ("class", &class)],
        |html| {
            html.element("th", &[("class", &"line"), ("scope", &"row")], |html| {
                html.worded("code", &[], &shown.line);
            });
            html.element("td", &[("class", &"lane"), ("colspan", &8)], |html| {
                drawn(html, week, shown);
            });
            html.element("td", &[("class", &"told")], |html| {
                sentence(html, week, shown);
            });
        },
    );
}

/// A row's drawing over all lanes. The sentence tells the same, so that nothing
/// is lost for those who do not see it.
fn drawn(html: &mut Markup, week: &Week, shown: &Row) {
    sized(html, WIDTH, |svg| {
        svg.empty("path", &[("class", &"lane"), ("d", &lines(0, ROW))]);
        row(svg, week, shown);
    });
}
