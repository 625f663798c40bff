//! The eight lanes alone, as a picture for a document.

use super::lanes::{ROW, WIDTH, lines, middle};
use super::markup::Markup;
use super::page::MARKS_STYLE;
use super::row::row;
use crate::reading::Week;

/// The listing's lines stand left of the lanes in so much space.
const LINES: i32 = 150;
/// The lanes' names stand above them in so much space.
const TOP: i32 = 28;
/// Around all of it.
const MARGIN: i32 = 10;

/// The picture of a week, as an SVG file.
pub fn picture(week: &Week) -> String {
    let rows = week.rows.len() as i32;
    let (width, height) = (
        LINES + WIDTH + 2 * MARGIN,
        TOP + (rows + 1) * ROW + 2 * MARGIN,
    );
    let mut svg = Markup::default();
    svg.element(
        "svg",
        &[
            ("xmlns", &"http://www.w3.org/2000/svg"),
            ("viewBox", &format_args!("0 0 {width} {height}")),
            ("width", &width),
            ("height", &height),
        ],
        |svg| {
            svg.element("style", &[], |svg| svg.raw(MARKS_STYLE));
            svg.empty(
                "rect",
                &[("class", &"paper"), ("width", &width), ("height", &height)],
            );
            moved(svg, MARGIN + LINES, MARGIN, |svg| names(svg, rows));
            for (k, shown) in (0..).zip(&week.rows) {
                let top = MARGIN + TOP + k * ROW;
                line(svg, top, &shown.line);
                moved(svg, MARGIN + LINES, top, |svg| row(svg, week, shown));
                svg.end_line();
            }
            line(svg, MARGIN + TOP + rows * ROW, &week.total);
        },
    );
    svg.end_line();
    svg.finish()
}

/// What is drawn, at this place.
fn moved(svg: &mut Markup, x: i32, y: i32, draw: impl FnOnce(&mut Markup)) {
    let place = format!("translate({x} {y})");
    svg.element("g", &[("transform", &place)], draw);
}

/// The lanes and their names.
fn names(svg: &mut Markup, rows: i32) {
    for shard in 0..8 {
        svg.worded(
            "text",
            &[
                ("class", &"name"),
                ("x", &middle(shard)),
                ("y", &(TOP - 10)),
            ],
            format_args!("Pantry {shard}"),
        );
    }
    let drawn = lines(TOP, rows * ROW);
    svg.empty("path", &[("class", &"lane"), ("d", &drawn)]);
    svg.end_line();
}

/// A line of the listing, beside the row that begins there.
fn line(svg: &mut Markup, top: i32, text: &str) {
    let y = top + ROW / 2 + 8;
    svg.worded(
        "text",
        &[("class", &"line"), ("x", &MARGIN), ("y", &y)],
        text,
    );
}
