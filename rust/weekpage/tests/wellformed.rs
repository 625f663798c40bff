//! Every page and every picture is well-formed, needs nothing else, and its
//! links lead somewhere; and the reader that finds it so finds faults.

mod common;

use std::collections::HashSet;

use common::cases::{Case, cases, tree};
use common::parser::parse;
use common::tree::Element;
use weekpage::picture;

/// What asks for something outside of the page.
const OUTSIDE: [&str; 7] = [
    "http", "src=", "url(", "@import", "<link", "import(", "fetch(",
];

/// The name of SVG, which a picture that stands alone has to say and which asks
/// for nothing.
const NAMESPACE: &str = "xmlns=\"http://www.w3.org/2000/svg\"";

/// What the markup has that asks for something outside of it.
fn outside(markup: &str) -> Vec<&'static str> {
    let markup = markup.to_lowercase();
    let asks = OUTSIDE.into_iter().filter(|asks| markup.contains(asks));
    asks.collect()
}

/// How much was looked at.
#[derive(Default)]
struct Counts {
    pages: usize,
    elements: usize,
    links: usize,
    swaps: usize,
}

#[test]
fn every_page_and_every_picture() {
    let mut counts = Counts::default();
    for case in cases() {
        let page = case.page();
        assert_eq!(outside(&page), [""; 0], "{}", case.name);
        let page = tree(&case.name, &page);
        check_links(&page, &case.name, &mut counts);
        check_swaps(&page, &case.name, &mut counts);
        counts.pages += 1;
        counts.elements += page.select("*").len();
        check_picture(&case);
    }
    let Counts {
        pages,
        elements,
        links,
        swaps,
    } = counts;
    assert!(pages > 1_000, "{pages} pages");
    assert!(links > 20_000, "{links} links");
    assert!(swaps > 30_000, "{swaps} keys of swaps");
    println!(
        "{pages} pages and as many pictures, {elements} elements in the pages, {links} links, \
         {swaps} keys of swaps"
    );
}

/// It stands alone, so it has to name its language, and asks for nothing else.
fn check_picture(case: &Case) {
    let markup = picture(&case.week());
    let name = format!("the picture of {}", case.name);
    let root = tree(&name, &markup);
    assert_eq!(root.name, "svg", "{name}");
    assert_eq!(markup.matches(NAMESPACE).count(), 1, "{name}");
    assert_eq!(outside(&markup.replace(NAMESPACE, "")), [""; 0], "{name}");
    assert!(root.select("script").is_empty(), "{name}");
}

/// Every link leads to an id of the page.
fn check_links(page: &Element, name: &str, counts: &mut Counts) {
    let all = page.select("*");
    let ids = all.iter().filter_map(|element| element.attribute("id"));
    let ids: HashSet<&str> = ids.collect();
    for link in all.iter().filter_map(|element| element.attribute("href")) {
        let id = link.strip_prefix('#');
        let leads = id.is_some_and(|id| ids.contains(id));
        assert!(leads, "{name}: {link} leads nowhere");
        counts.links += 1;
    }
}

/// Whatever has a swap's key is of a swap that has its entry, and a link with the
/// key leads to that.
fn check_swaps(page: &Element, name: &str, counts: &mut Counts) {
    let entries = page.select("tr").into_iter().filter_map(|row| {
        let swap = row.attribute("id")?.strip_prefix("swap-")?;
        assert_eq!(row.attribute("data-swap"), Some(swap), "{name}");
        Some(swap)
    });
    let entries: HashSet<&str> = entries.collect();
    for element in page.select("*") {
        let Some(swap) = element.attribute("data-swap") else {
            continue;
        };
        assert!(entries.contains(swap), "{name}: no entry of swap {swap}");
        if let Some(link) = element.attribute("href") {
            assert_eq!(link, format!("#swap-{swap}"), "{name}");
        }
        counts.swaps += 1;
    }
}

/// A name comes from outside, so it may be anything.
#[test]
fn names_are_text() {
    let mut case = cases().next().expect("there are weeks");
    case.name = "plain".into();
    let plain = tree("plain", &case.page()).select("*").len();
    for name in [
        "<script>&\"'",
        "</title></h1><script>alert('1')</script>",
        "a & b < c > d \"e\" 'f'",
        "&amp;&lt;&#39;&nbsp;",
        "-->]]><!--",
        "früh – spät",
        "",
    ] {
        case.name = name.into();
        let page = tree(name, &case.page());
        for place in ["title", "h1"] {
            let shown = page.one(place).text();
            assert!(shown.contains(name), "{place}: '{shown}', not '{name}'");
        }
        assert_eq!(page.select("*").len(), plain, "{name}");
    }
    case.name = "<script>&\"'".into();
    let escaped = "&lt;script&gt;&amp;&quot;&#39;”</title>";
    assert!(case.page().contains(escaped), "all five are escaped");
}

/// What asks for something outside is found, whatever its case.
#[test]
fn what_asks_for_something_outside() {
    for (markup, found) in [
        ("<a href=\"HTTPS://a.b\">c</a>", "http"),
        ("<img src=\"a.png\"/>", "src="),
        ("<style>p { background: url(a.png) }</style>", "url("),
        ("<style>@import 'a.css'</style>", "@import"),
        ("<LINK rel=\"stylesheet\" href=\"a.css\"/>", "<link"),
    ] {
        assert_eq!(outside(markup), [found], "{markup}");
    }
    assert_eq!(outside("<a href=\"#end\">source</a>"), [""; 0]);
}

/// A page with this in its body is refused with this message, at the place
/// behind so many signs of the body.
fn assert_fault(body: &str, signs: usize, message: &str) {
    let markup = format!("<!DOCTYPE html>\n<html><body>{body}</body></html>\n");
    let fault = parse(&markup).err();
    let fault = fault.unwrap_or_else(|| panic!("no fault in {body}"));
    let expected = format!("line 2, column {}: {message}", 13 + signs);
    assert_eq!(fault.to_string(), expected, "{body}");
}

#[test]
fn tags_that_are_not_well_nested() {
    for (body, signs, message) in [
        ("<p>a", 10, "</body> comes before </p>"),
        ("<p><b>a</p></b>", 10, "</p> comes before </b>"),
        ("a</p>", 4, "</p> comes before </body>"),
        ("<p/>", 4, "<p/> is not closed: it needs an end tag"),
        ("<br>", 4, "<br> is not closed"),
        ("<br/></br>", 9, "</br> comes before </body>"),
        ("<style>p { }", 7, "<style> is not closed"),
        ("<p>a</p >", 7, "the end tag does not end"),
        ("<p<b>a</b>", 2, "the tag does not end"),
        ("a < b", 3, "a < that begins no tag"),
        ("<p>a</>", 6, "a </ that begins no tag"),
        ("<!-- a -->", 1, "a < that begins no tag"),
    ] {
        assert_fault(body, signs, message);
    }
}

#[test]
fn attributes_and_text_that_are_not_right() {
    let unquoted = "an attribute has no value in quotes";
    for (body, signs, message) in [
        ("<p class=a>b</p>", 8, unquoted),
        ("<p class='a'>b</p>", 8, unquoted),
        ("<p hidden>b</p>", 9, unquoted),
        ("<p class=\"a>b</p>", 13, "a bare < in a value"),
        ("<p class=\"a\"id=\"b\">c</p>", 12, "the tag does not end"),
        ("<p =\"a\">b</p>", 3, "an attribute's name is missing"),
        (
            "<p lang=\"a\" class=\"b\" lang=\"c\">d</p>",
            26,
            "the attribute lang stands twice",
        ),
        (
            "<p id=\"a\">b</p><p id=\"a\">c</p>",
            24,
            "the id a stands twice",
        ),
        ("a & b", 2, "a bare &"),
        ("a&nbsp;b", 1, "a bare &"),
        ("<p class=\"a&b\">c</p>", 11, "a bare &"),
    ] {
        assert_fault(body, signs, message);
    }
}

#[test]
fn elements_that_have_no_place_there() {
    for (body, signs, message) in [
        ("<blink>a</blink>", 6, "there is no <blink> here"),
        ("<img/>", 4, "there is no <img> here"),
        ("<path/>", 5, "there is no <path> here"),
        ("<svg><p>a</p></svg>", 7, "there is no <p> here"),
        ("<td>a</td>", 3, "<td> cannot stand in <body>"),
        (
            "<table><tr></tr></table>",
            10,
            "<tr> cannot stand in <table>",
        ),
        ("<p><ul></ul></p>", 6, "<ul> cannot stand in <p>"),
        ("<p><b><p>a</p></b></p>", 8, "<p> cannot stand in <b>"),
        (
            "<a href=\"#b\"><a href=\"#c\">d</a></a>",
            15,
            "<a> cannot stand in <a>",
        ),
        ("<ul>a</ul>", 5, "text stands in <ul>: 'a'"),
        ("<svg>a</svg>", 6, "text stands in <svg>: 'a'"),
    ] {
        assert_fault(body, signs, message);
    }
}

/// Faults around the root, and what differs in a picture: there a style is text
/// as any other.
#[test]
fn wholes_that_are_none() {
    for (markup, message) in [
        ("", "line 1, column 1: a tag is missing"),
        ("a", "line 1, column 1: a tag is missing"),
        (
            "<html></html>\n\n<html></html>",
            "line 3, column 1: something stands behind the last tag",
        ),
        (
            "<div></div>",
            "line 1, column 5: <div> is no whole page and no picture",
        ),
        ("<html><body>", "line 1, column 13: <body> is not closed"),
        (
            "<svg><style>a & b</style></svg>",
            "line 1, column 15: a bare &",
        ),
        (
            "<svg><style>a < b</style></svg>",
            "line 1, column 16: a < that begins no tag",
        ),
    ] {
        let fault = parse(markup).err();
        let fault = fault.unwrap_or_else(|| panic!("no fault in {markup}"));
        assert_eq!(fault.to_string(), message, "{markup}");
    }
}

/// The reader's tree, by hand.
#[test]
fn a_page_by_hand() {
    let page = tree(
        "by hand",
        "<!DOCTYPE html>\n<html><head><style>a > b & c</style></head><body>\n\
         <p class=\"one two\" id=\"x\" title=\"&lt;&amp;&quot;\">a<br/>b <b>&#39;c&gt;</b></p>\
         <svg viewBox=\"0 0 1 1\"><g class=\"two\"><path d=\"M0 0\"/></g></svg></body></html>\n",
    );
    assert_eq!(page.one("style").text(), "a > b & c");
    let paragraph = page.one("body p.two#x");
    assert_eq!(paragraph.text(), "ab 'c>");
    assert_eq!(paragraph.attribute("title"), Some("<&\""));
    assert_eq!(paragraph.attribute("lang"), None);
    let names = |path| -> Vec<String> {
        let found = page.select(path).into_iter();
        found.map(|element| element.name.clone()).collect()
    };
    assert_eq!(names("body *"), ["p", "br", "b", "svg", "g", "path"]);
    assert_eq!(names(".two"), ["p", "g"]);
    assert_eq!(names("svg g path"), ["path"]);
    assert_eq!(names("g svg path"), [""; 0]);
    assert_eq!(names("p.three"), [""; 0]);
}
