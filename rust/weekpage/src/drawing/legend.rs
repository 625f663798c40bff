//! What the marks mean, drawn by the functions that draw them.

use plankeeper::{Outcome, Verdict};

use super::lanes::sized;
use super::marks::{self, Delivery};
use super::markup::Markup;

/// A mark's picture is so wide.
const WIDTH: i32 = 84;
const X: i32 = WIDTH / 2;

/// The list of all marks.
pub(crate) fn legend(html: &mut Markup) {
    html.element("ul", &[("class", &"legend")], |html| {
        for (text, draw) in MARKS {
            html.element("li", &[], |html| {
                sized(html, WIDTH, draw);
                html.worded("span", &[], text);
            });
            html.end_line();
        }
    });
}

type Draw = fn(&mut Markup);

const MARKS: [(&str, Draw); 12] = [
    (
        "opening: a token with its portions, and whose it is",
        |svg| {
            marks::label(svg, X, "household 10");
            marks::token(svg, X, 3);
        },
    ),
    (
        "registration: all that the swap takes here is available, the pantry votes yes",
        |svg| {
            marks::label(svg, X, "swap 5");
            marks::verdict(svg, X, Verdict::Yes);
        },
    ),
    (
        "registration: something that it takes here is not available, the pantry votes no",
        |svg| {
            marks::label(svg, X, "swap 5");
            marks::verdict(svg, X, Verdict::No);
        },
    ),
    (
        "vote, from the pantry that gave it to the one that hears it",
        |svg| {
            arrow(svg, Delivery::Fresh);
        },
    ),
    ("vote that was heard before: nothing changes", |svg| {
        arrow(svg, Delivery::Repeat)
    }),
    (
        "vote that brings its swap to a pantry that did not know it",
        |svg| {
            arrow(svg, Delivery::Fresh);
            marks::parcel(svg, X);
        },
    ),
    (
        "the pantry commits: what the swap takes here is gone, what it gives here is there",
        |svg| {
            marks::decision(svg, X, Outcome::Commit);
        },
    ),
    (
        "the pantry aborts: the swap takes and gives nothing, what is pledged to it stays so",
        |svg| {
            marks::decision(svg, X, Outcome::Abort);
        },
    ),
    (
        "the pantry is turned: its aborts free their tokens",
        |svg| {
            marks::turn(svg, X);
        },
    ),
    (
        "refused, with the number of the cause: nothing changes",
        |svg| {
            marks::arrow(svg, Delivery::Refused, Verdict::Yes, 4, WIDTH - 26);
            marks::refusal(svg, WIDTH - 13, 16);
        },
    ),
    (
        "refused, 17: held off close behind another swap, to be sent again",
        |svg| {
            marks::pause(svg, X);
        },
    ),
    (
        "refused before it reaches a pantry: the record itself is wrong",
        |svg| {
            marks::nowhere(svg);
            marks::refusal(svg, X, 3);
        },
    ),
];

fn arrow(svg: &mut Markup, delivery: Delivery) {
    marks::label(svg, X, "swap 5: yes");
    marks::arrow(svg, delivery, Verdict::Yes, 8, WIDTH - 8);
}
