//! The marks: one function for each, around a place on a row's level.

use std::fmt::Display;

use plankeeper::{Outcome, Verdict};

use super::lanes::{ABOVE, LEVEL, WIDTH};
use super::markup::Markup;
use super::tables::vote;

/// How far a mark reaches from its middle, to the left and to the right.
pub(crate) type Reach = (i32, i32);

/// How far a decision reaches to either side.
pub(crate) const DECISION: i32 = 10;

/// How a vote was delivered.
#[derive(Clone, Copy, PartialEq, Eq)]
pub(crate) enum Delivery {
    /// Heard for the first time: a full line.
    Fresh,
    /// Heard again: a dashed one.
    Repeat,
    /// Refused: a grey one that ends before it arrives.
    Refused,
}

/// The text above a mark, or above the middle of an arrow.
pub(crate) fn label(svg: &mut Markup, x: i32, text: impl Display) {
    svg.worded(
        "text",
        &[("class", &"label"), ("x", &x), ("y", &ABOVE)],
        text,
    );
}

/// A token, by its amount.
pub(crate) fn token(svg: &mut Markup, x: i32, amount: u32) -> Reach {
    boxed(svg, "token", (x, 54), 9, amount)
}

/// A shard's own vote: yes is round, no has corners.
pub(crate) fn verdict(svg: &mut Markup, x: i32, verdict: Verdict) -> Reach {
    match verdict {
        Verdict::Yes => boxed(svg, "verdict yes", (x, 30), 9, verdict),
        Verdict::No => boxed(svg, "verdict no", (x, 30), 0, verdict),
    }
}

/// A decision: a commit is a disc with a tick, an abort a diamond with a cross.
pub(crate) fn decision(svg: &mut Markup, x: i32, outcome: Outcome) -> Reach {
    let (class, shape, sign) = match outcome {
        Outcome::Wait => return (0, 0),
        Outcome::Commit => (
            "decision commit",
            format!("M{} {LEVEL}a9 9 0 1 1 18 0a9 9 0 1 1 -18 0z", x - 9),
            format!("M{} {}l3 3l6 -7", x - 4, LEVEL + 1),
        ),
        Outcome::Abort => (
            "decision abort",
            format!("M{x} {}l10 10l-10 10l-10 -10z", LEVEL - 10),
            format!("M{} {}l7 7m0 -7l-7 7", x - 3, LEVEL - 3),
        ),
    };
    svg.element("g", &[("class", &class)], |svg| {
        svg.empty("path", &[("class", &"shape"), ("d", &shape)]);
        svg.empty("path", &[("class", &"sign"), ("d", &sign)]);
    });
    (DECISION, DECISION)
}

/// A shard that is turned: an arrow that goes round.
pub(crate) fn turn(svg: &mut Markup, x: i32) -> Reach {
    let (ring, head) = (
        format!("M{} {}a8 8 0 1 0 3 6", x + 5, LEVEL - 6),
        format!("M{} {}l8 -1l-3 -7z", x + 1, LEVEL - 4),
    );
    svg.element("g", &[("class", &"turned")], |svg| {
        svg.empty("path", &[("class", &"ring"), ("d", &ring)]);
        svg.empty("path", &[("class", &"head"), ("d", &head)]);
    });
    (10, 10)
}

/// A refusal, by its number.
pub(crate) fn refusal(svg: &mut Markup, x: i32, number: u8) -> Reach {
    boxed(svg, "refusal", (x, 24), 3, number)
}

/// A transaction that is held off: the bars of a pause.
pub(crate) fn pause(svg: &mut Markup, x: i32) -> Reach {
    let bars = format!("M{} {}v10m5 -10v10", x - 2, LEVEL - 5);
    svg.element("g", &[("class", &"held-off")], |svg| {
        svg.empty("circle", &[("cx", &x), ("cy", &LEVEL), ("r", &10)]);
        svg.empty("path", &[("d", &bars)]);
    });
    (10, 10)
}

/// A record that is for no shard: a line across all lanes.
pub(crate) fn nowhere(svg: &mut Markup) {
    let line: [(&str, &dyn Display); 5] = [
        ("class", &"nowhere"),
        ("x1", &0),
        ("x2", &WIDTH),
        ("y1", &LEVEL),
        ("y2", &LEVEL),
    ];
    svg.empty("line", &line);
}

/// What a vote brings along: a parcel on its arrow.
pub(crate) fn parcel(svg: &mut Markup, x: i32) {
    let shape = format!("M{} {}h12v12h-12zm0 6h12m-6 -6v12", x - 6, LEVEL - 6);
    svg.empty("path", &[("class", &"parcel"), ("d", &shape)]);
}

/// An arrow along the row's level, with its head at the end; a refused one ends
/// with a bar.
pub(crate) fn arrow(svg: &mut Markup, delivery: Delivery, verdict: Verdict, from: i32, to: i32) {
    let side = (to - from).signum();
    let shaft = format!("M{from} {LEVEL}H{}", to - 5 * side);
    svg.element("g", &[("class", &vote_class(delivery, verdict))], |svg| {
        svg.empty("path", &[("class", &"shaft"), ("d", &shaft)]);
        let head = match delivery {
            Delivery::Refused => format!("M{} {}v12", to - 4 * side, LEVEL - 6),
            _ => format!("M{to} {LEVEL}l{} -5v10z", -9 * side),
        };
        svg.empty("path", &[("class", &"head"), ("d", &head)]);
    });
}

/// A vote of a shard to itself: an arrow that comes back to its lane.
pub(crate) fn own(svg: &mut Markup, delivery: Delivery, verdict: Verdict, x: i32, to: i32) {
    let (top, bottom) = (LEVEL - 2, LEVEL + 9);
    let shaft = format!("M{x} {bottom}h20q9 0 9 -6t-9 -5H{}", to + 5);
    svg.element("g", &[("class", &vote_class(delivery, verdict))], |svg| {
        svg.empty("path", &[("class", &"shaft"), ("d", &shaft)]);
        let head = match delivery {
            Delivery::Refused => format!("M{} {}v8", to + 4, top - 4),
            _ => format!("M{to} {top}l9 -5v10z"),
        };
        svg.empty("path", &[("class", &"head"), ("d", &head)]);
    });
}

fn vote_class(delivery: Delivery, verdict: Verdict) -> String {
    let delivery = match delivery {
        Delivery::Fresh => "fresh",
        Delivery::Repeat => "repeat",
        Delivery::Refused => "refused",
    };
    let verdict = vote(verdict);
    format!("vote {delivery} {verdict}")
}

/// A box with text, of this width.
fn boxed(
    svg: &mut Markup,
    class: &str,
    (x, width): (i32, i32),
    round: i32,
    text: impl Display,
) -> Reach {
    let half = width / 2;
    svg.element("g", &[("class", &class)], |svg| {
        svg.empty(
            "rect",
            &[
                ("x", &(x - half)),
                ("y", &(LEVEL - 9)),
                ("width", &width),
                ("height", &18),
                ("rx", &round),
            ],
        );
        svg.worded("text", &[("x", &x), ("y", &(LEVEL + 4))], text);
    });
    (half, half)
}
