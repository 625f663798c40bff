//! Which elements there are, and which may stand where. A browser that meets one
//! at a wrong place moves it or closes another, and then shows something else
//! than was written.

/// What may stand outside of drawings.
const HTML: &str = "html head title style body header footer main nav section article aside div p \
    span a b i em strong small mark time sub sup abbr code kbd q br hr wbr h1 h2 h3 h4 h5 h6 ul ol \
    li dl dt dd table caption colgroup col thead tbody tfoot tr th td figure figcaption details \
    summary button label input select option template noscript script meta svg";

/// Those among them that have no end tag.
const EMPTY: &str = "meta br hr wbr col input";

/// What may stand in drawings.
const SVG: &str = "svg g path rect circle ellipse line polyline polygon text tspan title desc defs \
    use symbol marker style a";

/// What ends a paragraph wherever it comes.
const BLOCKS: &str = "p div section article aside header footer main nav h1 h2 h3 h4 h5 h6 ul ol \
    dl table figure details hr";

/// Elements that have their place right in one of some others.
const HOMES: &[(&str, &str)] = &[
    ("head body", "html"),
    ("meta", "head"),
    ("caption colgroup thead tbody tfoot", "table"),
    ("col", "colgroup"),
    ("tr", "thead tbody tfoot"),
    ("th td", "tr"),
    ("li", "ul ol"),
    ("summary", "details"),
];

/// Where text has no place.
const TEXTLESS: &str = "html head table colgroup thead tbody tfoot tr ul ol dl svg g";

/// Why the element cannot stand in these, the innermost last.
pub fn fault(name: &str, open: &[&str]) -> Option<String> {
    let Some(parent) = open.last() else {
        let is_root = matches!(name, "html" | "svg");
        return (!is_root).then(|| format!("<{name}> is no whole page and no picture"));
    };
    let known = if is_drawn(open) { SVG } else { HTML };
    if !has(known, name) {
        return Some(format!("there is no <{name}> here"));
    }
    let mut homes = HOMES.iter().filter(|(names, _)| has(names, name));
    let strays = homes.any(|(_, homes)| !has(homes, parent));
    let splits = has(BLOCKS, name) && open.contains(&"p");
    let nests = name == "a" && open.contains(&"a");
    (strays || splits || nests).then(|| format!("<{name}> cannot stand in <{parent}>"))
}

/// Whether an element in these may be closed by its own tag: elsewhere a browser
/// takes `<td/>` for `<td>`.
pub fn closes_itself(name: &str, open: &[&str]) -> bool {
    is_drawn(open) || name == "svg" || has(EMPTY, name)
}

/// Whether the element never has an end tag.
pub fn is_empty(name: &str, open: &[&str]) -> bool {
    !is_drawn(open) && has(EMPTY, name)
}

/// Whether what stands in the element is text to its end tag, whatever it is: so
/// it is in a page, and not in a drawing.
pub fn is_raw(name: &str, open: &[&str]) -> bool {
    matches!(name, "script" | "style") && !is_drawn(open)
}

/// Whether text may stand right in the element.
pub fn takes_text(name: &str) -> bool {
    !has(TEXTLESS, name)
}

fn is_drawn(open: &[&str]) -> bool {
    open.contains(&"svg")
}

fn has(names: &str, name: &str) -> bool {
    names.split_whitespace().any(|other| other == name)
}
