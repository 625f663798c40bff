//! Where things stand in the eight lanes. All figures are in pixels.

use super::markup::Markup;

/// A lane's width.
pub(crate) const LANE: i32 = 68;
/// The width of all lanes.
pub(crate) const WIDTH: i32 = 8 * LANE;
/// A row's height.
pub(crate) const ROW: i32 = 34;
/// Where in a row the marks have their middle.
pub(crate) const LEVEL: i32 = 22;
/// Where in a row the text above a mark stands.
pub(crate) const ABOVE: i32 = 10;

/// The middle of a shard's lane.
pub(crate) fn middle(shard: u8) -> i32 {
    LANE * i32::from(shard) + LANE / 2
}

/// The lanes' lines, from here so far down.
pub(crate) fn lines(top: i32, height: i32) -> String {
    let lines = (0..8).map(|shard| format!("M{} {top}v{height}", middle(shard)));
    lines.collect()
}

/// A drawing as high as a row and so wide, for those who see it.
pub(crate) fn sized(html: &mut Markup, width: i32, draw: impl FnOnce(&mut Markup)) {
    html.element(
        "svg",
        &[
            ("width", &width),
            ("height", &ROW),
            ("aria-hidden", &"true"),
        ],
        draw,
    );
}
