//! The swaps' entries at the end of a page, and what is read off them.

use crate::common::tree::Element;

/// The rows of the table between the heading of this id and the next one.
pub fn rows_behind<'a>(page: &'a Element, id: &str) -> Vec<&'a Element> {
    let is_heading = |element: &Element| element.attribute("id") == Some(id);
    let all = page.select("*").into_iter();
    let mut parents = all.filter(|parent| parent.elements().any(is_heading));
    let parent = parents.next().expect("there is such a heading");
    let behind = parent.elements().skip_while(|child| !is_heading(child));
    let behind = behind.skip(1).take_while(|child| child.name != "h3");
    behind.flat_map(|child| child.select("tbody tr")).collect()
}

/// The texts of the paragraphs in it.
pub fn paragraphs(element: &Element) -> Vec<String> {
    let paragraphs = element.select("p").into_iter();
    paragraphs.map(Element::text).collect()
}

/// The steps that links in it lead to.
pub fn steps(element: &Element) -> Vec<usize> {
    let links = element.select("a").into_iter();
    let steps = links.filter_map(|link| {
        let step = link.attribute("href")?.strip_prefix("#step-")?;
        Some(step.parse().expect("a step is a number"))
    });
    steps.collect()
}
