//! A page or a picture as a tree, and how things are found in it.

/// An element with what stands in it.
#[derive(Clone, Debug, PartialEq, Eq)]
pub struct Element {
    /// The tag's name.
    pub name: String,
    /// The attributes, escapes replaced, in their order.
    pub attributes: Vec<(String, String)>,
    /// What stands between the tags.
    pub children: Vec<Node>,
}

/// A part of an element.
#[derive(Clone, Debug, PartialEq, Eq)]
pub enum Node {
    /// Another element.
    Element(Element),
    /// Text, escapes replaced.
    Text(String),
}

impl Element {
    /// The attribute's value, if it stands there.
    pub fn attribute(&self, name: &str) -> Option<&str> {
        let mut attributes = self.attributes.iter();
        let found = attributes.find(|(other, _)| other == name);
        found.map(|(_, value)| value.as_str())
    }

    /// Whether the class is among its classes.
    pub fn has_class(&self, class: &str) -> bool {
        let classes = self.attribute("class").unwrap_or_default();
        classes.split_whitespace().any(|other| other == class)
    }

    /// All text in it.
    pub fn text(&self) -> String {
        let parts = self.children.iter().map(|child| match child {
            Node::Element(element) => element.text(),
            Node::Text(text) => text.clone(),
        });
        parts.collect()
    }

    /// The elements right below it.
    pub fn elements(&self) -> impl Iterator<Item = &Element> {
        self.children.iter().filter_map(|child| match child {
            Node::Element(element) => Some(element),
            Node::Text(_) => None,
        })
    }

    /// The elements below it that a path leads to, in their order. Each word of
    /// the path is a name or `*`, classes behind dots and an id behind `#`, of
    /// which some may be left out; each stands for an element somewhere below
    /// the one before: `table.lanes code`, `#step-3`, `.vote.fresh`.
    pub fn select(&self, path: &str) -> Vec<&Element> {
        let words: Vec<&str> = path.split_whitespace().collect();
        let mut found = Vec::new();
        self.collect(&words, &mut found);
        found
    }

    /// The one element that the path leads to.
    pub fn one(&self, path: &str) -> &Element {
        let found = self.select(path);
        let [one] = found[..] else {
            panic!("there are {} of '{path}'", found.len());
        };
        one
    }

    fn collect<'a>(&'a self, words: &[&str], found: &mut Vec<&'a Element>) {
        let Some((first, rest)) = words.split_first() else {
            return;
        };
        for child in self.elements() {
            let fits = child.fits(first);
            if fits && rest.is_empty() {
                found.push(child);
            }
            // What stands below the last word's element is looked at, too.
            let deeper = if fits && !rest.is_empty() {
                rest
            } else {
                words
            };
            child.collect(deeper, found);
        }
    }

    fn fits(&self, word: &str) -> bool {
        let (word, id) = match word.split_once('#') {
            Some((word, id)) => (word, Some(id)),
            None => (word, None),
        };
        let mut parts = word.split('.');
        let name = parts.next().unwrap_or_default();
        (matches!(name, "" | "*") || name == self.name)
            && id.is_none_or(|id| self.attribute("id") == Some(id))
            && parts.all(|class| self.has_class(class))
    }
}
