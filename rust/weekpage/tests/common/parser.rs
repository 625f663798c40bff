//! A strict reader of pages and pictures. What a browser would put right, each
//! in its own way, is a fault here.

use std::collections::HashSet;
use std::fmt::{self, Display, Formatter};

use super::names;
use super::tree::{Element, Node};

/// Where reading ended, and why.
#[derive(Debug)]
pub struct Fault {
    line: usize,
    column: usize,
    message: String,
}

/// The escapes that may stand in text and in values.
const ESCAPES: [(&str, char); 5] = [
    ("&amp;", '&'),
    ("&lt;", '<'),
    ("&gt;", '>'),
    ("&quot;", '"'),
    ("&#39;", '\''),
];

/// The tree of a page or of a picture.
pub fn parse(text: &str) -> Result<Element, Fault> {
    let mut parser = Parser {
        text,
        at: 0,
        open: Vec::new(),
        ids: HashSet::new(),
    };
    parser.whole()
}

struct Parser<'a> {
    text: &'a str,
    at: usize,
    /// The elements that are open, the innermost last.
    open: Vec<&'a str>,
    ids: HashSet<String>,
}

impl<'a> Parser<'a> {
    fn whole(&mut self) -> Result<Element, Fault> {
        if self.takes("<!DOCTYPE html>") {
            self.pass_space();
        }
        let root = self.element()?;
        self.pass_space();
        if self.rest().is_empty() {
            Ok(root)
        } else {
            Err(self.fault("something stands behind the last tag"))
        }
    }

    /// The element that begins here.
    fn element(&mut self) -> Result<Element, Fault> {
        self.expect("<", "a tag is missing")?;
        let name = self.name("a < that begins no tag")?;
        if let Some(message) = names::fault(name, &self.open) {
            return Err(self.fault(message));
        }
        let mut element = Element {
            name: name.into(),
            attributes: self.attributes()?,
            children: Vec::new(),
        };
        if self.takes("/>") {
            let closed = names::closes_itself(name, &self.open);
            return closed.then_some(element).ok_or_else(|| {
                self.fault(format!("<{name}/> is not closed: it needs an end tag"))
            });
        }
        self.expect(">", "the tag does not end")?;
        if names::is_empty(name, &self.open) {
            return Err(self.fault(format!("<{name}> is not closed")));
        }
        self.open.push(name);
        element.children = self.children(name)?;
        self.open.pop();
        Ok(element)
    }

    /// What stands in the element, up to its end tag and with it.
    fn children(&mut self, name: &str) -> Result<Vec<Node>, Fault> {
        let mut children = Vec::new();
        if names::is_raw(name, &self.open) {
            let raw = self.raw(name)?;
            children.push(Node::Text(raw));
        }
        loop {
            let text = self.words('<')?;
            if !text.trim().is_empty() && !names::takes_text(name) {
                return Err(self.fault(format!("text stands in <{name}>: '{}'", text.trim())));
            }
            if !text.is_empty() {
                children.push(Node::Text(text));
            }
            if self.rest().is_empty() {
                return Err(self.fault(format!("<{name}> is not closed")));
            }
            if self.takes("</") {
                self.end_tag(name)?;
                return Ok(children);
            }
            children.push(Node::Element(self.element()?));
        }
    }

    /// The rest of the end tag, which has to be this element's.
    fn end_tag(&mut self, name: &str) -> Result<(), Fault> {
        let ended = self.name("a </ that begins no tag")?;
        if ended != name {
            let message = format!("</{ended}> comes before </{name}>");
            return Err(self.fault(message));
        }
        self.expect(">", "the end tag does not end")
    }

    /// Text up to the element's end tag, whatever it is.
    fn raw(&mut self, name: &str) -> Result<String, Fault> {
        let rest = self.rest();
        let Some(length) = rest.find(&format!("</{name}")) else {
            return Err(self.fault(format!("<{name}> is not closed")));
        };
        self.at += length;
        Ok(rest[..length].into())
    }

    fn attributes(&mut self) -> Result<Vec<(String, String)>, Fault> {
        let mut attributes: Vec<(String, String)> = Vec::new();
        while self.pass_space() && !self.rest().starts_with(['/', '>']) {
            let name = self.name("an attribute's name is missing")?;
            if attributes.iter().any(|(other, _)| other == name) {
                return Err(self.fault(format!("the attribute {name} stands twice")));
            }
            self.expect("=\"", "an attribute has no value in quotes")?;
            let value = self.words('"')?;
            self.expect("\"", "a value does not end")?;
            if name == "id" && !self.ids.insert(value.clone()) {
                return Err(self.fault(format!("the id {value} stands twice")));
            }
            attributes.push((name.into(), value));
        }
        Ok(attributes)
    }

    /// Text up to this sign, or to the end, with the escapes replaced.
    fn words(&mut self, end: char) -> Result<String, Fault> {
        let mut words = String::new();
        loop {
            let rest = self.rest();
            let plain = rest.find([end, '<', '&']).unwrap_or(rest.len());
            words.push_str(&rest[..plain]);
            self.at += plain;
            match rest[plain..].chars().next() {
                Some('&') => words.push(self.escape()?),
                Some('<') if end != '<' => return Err(self.fault("a bare < in a value")),
                _ => return Ok(words),
            }
        }
    }

    fn escape(&mut self) -> Result<char, Fault> {
        for (escape, meant) in ESCAPES {
            if self.takes(escape) {
                return Ok(meant);
            }
        }
        Err(self.fault("a bare &"))
    }

    /// The name that begins here; the message is for where none does.
    fn name(&mut self, message: &str) -> Result<&'a str, Fault> {
        let rest = self.rest();
        let part = |sign: char| sign.is_ascii_alphanumeric() || sign == '-';
        let length = rest.find(|sign| !part(sign)).unwrap_or(rest.len());
        if !rest.starts_with(|sign: char| sign.is_ascii_alphabetic()) {
            return Err(self.fault(message));
        }
        self.at += length;
        Ok(&rest[..length])
    }

    /// Passes over white space, and tells whether there was any.
    fn pass_space(&mut self) -> bool {
        let rest = self.rest();
        let space = rest.len() - rest.trim_start().len();
        self.at += space;
        space > 0
    }

    /// Passes over these signs where they stand here, and tells whether they do.
    fn takes(&mut self, signs: &str) -> bool {
        let there = self.rest().starts_with(signs);
        if there {
            self.at += signs.len();
        }
        there
    }

    fn expect(&mut self, signs: &str, message: &str) -> Result<(), Fault> {
        if self.takes(signs) {
            Ok(())
        } else {
            Err(self.fault(message))
        }
    }

    fn rest(&self) -> &'a str {
        &self.text[self.at..]
    }

    fn fault(&self, message: impl Into<String>) -> Fault {
        let before = &self.text[..self.at];
        let line = before.rfind('\n').map_or(0, |end| end + 1);
        Fault {
            line: 1 + before.matches('\n').count(),
            column: 1 + before[line..].chars().count(),
            message: message.into(),
        }
    }
}

impl Display for Fault {
    fn fmt(&self, f: &mut Formatter<'_>) -> fmt::Result {
        let Fault {
            line,
            column,
            message,
        } = self;
        write!(f, "line {line}, column {column}: {message}")
    }
}
