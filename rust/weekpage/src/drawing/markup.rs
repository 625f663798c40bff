//! Tags and text, written so that every tag is closed and every text escaped.

use std::fmt::{self, Display, Write};

/// Names of attributes with their values.
pub(crate) type Attributes<'a> = &'a [(&'a str, &'a dyn Display)];

/// Markup, written from the front.
#[derive(Default)]
pub(crate) struct Markup {
    text: String,
}

impl Markup {
    /// An element with what is written inside.
    pub(crate) fn element(
        &mut self,
        name: &str,
        attributes: Attributes<'_>,
        content: impl FnOnce(&mut Self),
    ) {
        self.tag(name, attributes, ">");
        content(self);
        self.text.extend(["</", name, ">"]);
    }

    /// An element with this text alone.
    pub(crate) fn worded(&mut self, name: &str, attributes: Attributes<'_>, text: impl Display) {
        self.element(name, attributes, |markup| markup.text(text));
    }

    /// An element with nothing inside.
    pub(crate) fn empty(&mut self, name: &str, attributes: Attributes<'_>) {
        self.tag(name, attributes, "/>");
    }

    /// Text, escaped.
    pub(crate) fn text(&mut self, text: impl Display) {
        write!(Escaped(&mut self.text), "{text}").expect("a string takes every text");
    }

    /// An end of line, for those who read the source.
    pub(crate) fn end_line(&mut self) {
        self.text.push('\n');
    }

    /// Markup as it is, for what this crate has in files of its own.
    pub(crate) fn raw(&mut self, markup: &str) {
        self.text.push_str(markup);
    }

    /// All that was written.
    pub(crate) fn finish(self) -> String {
        self.text
    }

    fn tag(&mut self, name: &str, attributes: Attributes<'_>, end: &str) {
        self.text.extend(["<", name]);
        for (name, value) in attributes {
            self.text.extend([" ", name, "=\""]);
            self.text(value);
            self.text.push('"');
        }
        self.text.push_str(end);
    }
}

/// Writes with `&`, `<`, `>` and both quotes escaped.
struct Escaped<'a>(&'a mut String);

impl fmt::Write for Escaped<'_> {
    fn write_str(&mut self, text: &str) -> fmt::Result {
        let special = |found: char| matches!(found, '&' | '<' | '>' | '"' | '\'');
        let mut rest = text;
        while let Some(place) = rest.find(special) {
            let (plain, found) = rest.split_at(place);
            self.0.push_str(plain);
            self.0.push_str(match found.as_bytes()[0] {
                b'&' => "&amp;",
                b'<' => "&lt;",
                b'>' => "&gt;",
                b'"' => "&quot;",
                _ => "&#39;",
            });
            rest = &found[1..];
        }
        self.0.push_str(rest);
        Ok(())
    }
}
