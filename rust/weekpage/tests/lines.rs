//! The rows of a page are the listing's lines, each with its own swap; a refused
//! record is shown by its own text, its line in the week's text and its cause.

#[path = "common/by_hand.rs"]
mod by_hand;
#[path = "common/carried.rs"]
mod carried;
mod common;
#[path = "common/drawn.rs"]
mod drawn;
#[path = "common/stored.rs"]
mod stored;

use std::collections::{HashMap, HashSet};

use ask::cause;
use carried::carried;
use common::cases::{Case, cases, tree};
use common::tree::Element;
use drawn::drawn;
use plankeeper::Refusal;
use program::{count_listing, listing_labels};
use reference::Transaction;
use stored::stored;
use weekpage::picture;
use weeks::{Giver, Tally, shown_for};
use weektext::Entry;

/// Stored weeks and random inputs. All that a listing can say has to be among
/// it, and a row with a swap and one without.
#[test]
fn every_line_is_a_row() {
    let (mut tally, mut lines, mut swaps) = (Tally::default(), 0, 0);
    for case in cases() {
        let page = tree(&case.name, &case.page());
        check_lines(&page, &case);
        check_words(&page, &case);
        check_picture(&case);
        swaps += check_swaps(&page, &case);
        lines += case.listing.lines().count();
        count_listing(&mut tally, case.listing.as_bytes());
    }
    let [shown, never] = shown_for(&[Giver::Reader, Giver::Cluster]);
    tally.check("lines", &shown, 1);
    tally.check("lines", &listing_labels(), 1);
    tally.check_never("lines", &never);
    assert!(lines > 15_000 && swaps > 3_000, "{lines}, {swaps}");
    println!("{lines} lines, {swaps} swaps");
}

/// The lines in their order, each in the row of its step, and TOTAL below.
fn check_lines(page: &Element, case: &Case) {
    let listed: Vec<&str> = case.listing.lines().collect();
    assert_eq!(texts(page, "table.lanes code"), listed, "{}", case.name);
    let (total, lines) = listed.split_last().expect("a listing has a total");
    assert!(total.starts_with("TOTAL "), "{}", case.name);
    assert_eq!(page.one("table.lanes tfoot code").text(), *total);
    let (rows, written) = (page.select("table.lanes tr.record"), case.written());
    let records = (rows.len(), written.len());
    assert_eq!(records, (lines.len(), lines.len()), "{}", case.name);
    for (step, ((row, line), entry)) in (1..).zip(rows.iter().zip(lines).zip(&written)) {
        let name = format!("{}, line '{line}'", case.name);
        assert_eq!(
            row.attribute("id"),
            Some(&*format!("step-{step}")),
            "{name}"
        );
        assert_eq!(row.one("th.line code").text(), *line, "{name}");
        check_refused(row, line, entry, &name);
    }
}

/// A refused row has the record's own text and says why it was refused; any other
/// says nothing of that.
fn check_refused(row: &Element, line: &str, entry: &Entry, name: &str) {
    let number = line.split_once(" REFUSED ").map(|(_, number)| number);
    assert_eq!(row.has_class("refused"), number.is_some(), "{name}");
    let sentence = row.one("td.told").text();
    let Some(number) = number else {
        assert!(!sentence.contains("refused"), "{name}: {sentence}");
        assert!(row.select(".own").is_empty(), "{name}: {sentence}");
        return;
    };
    let refusal = number.parse().ok().and_then(Refusal::from_number);
    let cause = cause(refusal.expect("there is such a refusal"));
    let line = entry.line.map(|line| format!("line {line}: "));
    let (line, text) = (line.unwrap_or_default(), &entry.text);
    let again = match number {
        "17" => " – held off, to be sent again",
        _ => "",
    };
    let expected = format!("{line}{text} – refused, {number}: {cause}{again}");
    assert_eq!(sentence, expected, "{name}");
    assert_eq!(row.one("td.told .own").text(), *text, "{name}");
}

/// Nothing on the page speaks of a record's kind by its number.
fn check_words(page: &Element, case: &Case) {
    let text = page.text();
    let mut kinds = text.split("kind ").skip(1);
    let numbered = kinds.find(|rest| rest.starts_with(|sign: char| sign.is_ascii_digit()));
    assert_eq!(numbered, None, "{}", case.name);
}

/// The texts of what the path leads to.
fn texts(tree: &Element, path: &str) -> Vec<String> {
    let found = tree.select(path).into_iter();
    found.map(Element::text).collect()
}

/// A picture has the same lines. No other text there begins as a line does: a
/// label does not begin with a number, and a mark has one word.
fn check_picture(case: &Case) {
    let name = format!("the picture of {}", case.name);
    let picture = tree(&name, &picture(&case.week()));
    let is_line = |text: &String| {
        let (first, rest) = text.split_once(' ').unwrap_or((text, ""));
        let is_step = !rest.is_empty() && first.bytes().all(|byte| byte.is_ascii_digit());
        is_step || first == "TOTAL"
    };
    let shown = texts(&picture, "text").into_iter().filter(is_line);
    let listed: Vec<&str> = case.listing.lines().collect();
    assert_eq!(Vec::from_iter(shown), listed, "{name}");
}

/// Rows have one key exactly where their records have the same bytes of a swap,
/// read or not, and none where there is no swap; and all that names a swap in a row
/// calls it by the name that it has in its entry. Gives the number of swaps.
fn check_swaps(page: &Element, case: &Case) -> usize {
    let mut swaps: HashMap<Transaction, &str> = HashMap::new();
    let (rows, names) = (page.select("table.lanes tr.record"), names(page));
    for (row, carried) in rows.into_iter().zip(carried(&case.bytes)) {
        let key = row.attribute("data-swap");
        let name = format!("{}, {:?}", case.name, row.attribute("id"));
        match (carried, key) {
            (None, None) => {}
            (Some(transaction), Some(key)) => {
                check_names(row, &names[key], &name);
                let first = swaps.entry(transaction).or_insert(key);
                assert_eq!(*first, key, "{name}");
            }
            (carried, _) => panic!("{name}: {key:?} for {carried:?}"),
        }
    }
    let keys: HashSet<&str> = swaps.values().copied().collect();
    assert_eq!(
        keys.len(),
        swaps.len(),
        "{}: one key for two swaps",
        case.name
    );
    swaps.len()
}

/// The swaps' names by their keys, from their entries.
fn names(page: &Element) -> HashMap<&str, String> {
    let rows = page.select("#end table.swaps tbody tr").into_iter();
    let names = rows.map(|row| {
        let key = row.attribute("data-swap").expect("an entry has its key");
        let name = row.one("th").text();
        let name = name.strip_prefix("swap ").expect("it is a swap's");
        (key, name.to_owned())
    });
    names.collect()
}

/// The row's mark, its sentence and, where it was refused, its own text have this
/// name of its swap.
fn check_names(row: &Element, swap: &str, name: &str) {
    if let [label] = row.select(".marks .label")[..] {
        let (front, label) = (format!("swap {swap}"), label.text());
        let rest = label.strip_prefix(&front);
        let whole = rest.is_some_and(|rest| rest.is_empty() || rest.starts_with(": "));
        assert!(whole, "{name}: '{label}', not '{front}'");
    }
    let links = row.select("td.told a");
    let key = row.attribute("data-swap");
    let own = links.iter().find(|link| link.attribute("data-swap") == key);
    let told = own.expect("it can be chosen").text();
    let words: Vec<&str> = told.split(' ').collect();
    let called = match words[..] {
        ["swap", called] | ["register", called, ..] | ["vote", _, "on", called, ..] => called,
        _ => panic!("{name}: '{told}' names no swap"),
    };
    assert_eq!(called, swap, "{name}");
}

/// The sentences beside the lines, for every answer and for some refusals.
#[test]
fn sentences() {
    for (name, sentences) in SENTENCES {
        let page = stored(name);
        for (line, sentence) in *sentences {
            let (step, _) = line.split_once(' ').expect("a line has a step");
            let row = page.one(&format!("#step-{step}"));
            assert_eq!(row.one("code").text(), *line, "{name}");
            assert_eq!(row.one("td.told").text(), *sentence, "{name}, {line}");
        }
    }
}

/// Lines of stored weeks with their sentences.
type Sentences = &'static [(&'static str, &'static str)];

#[rustfmt::skip]
const SENTENCES: &[(&str, Sentences)] = &[
    ("brought", &[
        ("1 0 OPENED", "opening token (0, 0, 0) of household 10, 3 portions"),
        ("6 0 YES WAIT", "registration of swap 1 at pantry 0: votes yes, waits"),
        ("9 1 YES WAIT", "vote yes on swap 1 from pantry 0 to pantry 1 brings the swap, which is registered: votes yes, waits"),
        ("12 1 AGAIN WAIT", "vote yes on swap 1 from pantry 0 to pantry 1: heard before"),
        ("13 2 HEARD COMMIT", "vote yes on swap 1 from pantry 0 to pantry 2: commits"),
        ("15 0 HEARD WAIT", "vote yes on swap 1 from pantry 1 to pantry 0: waits"),
        ("18 3 YES COMMIT", "vote yes on swap 2 from pantry 0 to pantry 3 brings the swap, which is registered: votes yes, commits"),
        ("21 3 REFUSED 13", "line 38: opening pantry 3 position 0 household 41 portions 1 – refused, 13: too late for an opening, since a swap is known here"),
        ("23 0 NO ABORT", "vote yes on swap 3 from pantry 1 to pantry 0 brings the swap, which is registered: votes no, aborts – token (0, 0, 0), household 10, 3 portions: not held"),
        ("24 4 YES ABORT", "vote no on swap 3 from pantry 0 to pantry 4 brings the swap, which is registered: votes yes, aborts"),
        ("25 4 HEARD ABORT", "vote yes on swap 3 from pantry 1 to pantry 4: noted, aborted before"),
        ("26 1 HEARD ABORT", "vote no on swap 3 from pantry 0 to pantry 1: aborts"),
        ("30 5 REFUSED 17", "line 67: vote yes on 5 from 6 to 5 – refused, 17: takes what an undecided swap is to make here – held off, to be sent again"),
        ("37 2 YES WAIT", "registration of swap 5-2 at pantry 2: votes yes, waits"),
        ("38 6 REFUSED 7", "line 81: vote yes on 5-2 from 2 to 6 – refused, 7: number known here for a different swap"),
        ("39 1 TURNED", "turn of pantry 1: from now on an abort there frees its tokens"),
    ]),
    ("conflict", &[
        ("7 0 NO ABORT", "registration of swap 2 at pantry 0: votes no, aborts – token (0, 0, 0), household 10, 3 portions: pledged to swap 1"),
    ]),
    ("damaged", &[
        ("2 - REFUSED 3", "line 7: opening pantry 8 position 0 household 10 portions 3 – refused, 3: a field or count outside its range, a pantry above 7, or an unused slot not zero"),
        ("4 - REFUSED 4", "line 15: register 1 at 0 – refused, 4: one token named twice"),
        ("6 - REFUSED 5", "line 22: vote yes on 2 from 1 to 0 – refused, 5: the portions taken and given have different sums"),
        ("11 - REFUSED 3", "line 54: vote 2 on 6 from 1 to 0 – refused, 3: a field or count outside its range, a pantry above 7, or an unused slot not zero"),
        ("17 - REFUSED 2", "line 61: bytes 03 01 00 00 – refused, 2: the record is cut short"),
    ]),
    ("late-vote", &[
        ("3 0 REFUSED 16", "line 11: vote yes on 5 from 1 to 0 – refused, 16: sender has not given this vote on this swap"),
        ("10 0 REFUSED 8", "line 18: register 5 at 0 – refused, 8: this swap is known here already"),
        ("16 3 REFUSED 6", "line 25: vote yes on 5 from 0 to 3 – refused, 6: receiver or sender not among the swap's pantries"),
    ]),
    ("turned", &[
        ("15 0 REFUSED 19", "line 44: turn pantry 0 – refused, 19: this pantry is turned already"),
    ]),
    ("unknown-kind", &[
        ("2 - REFUSED 1", "line 5: bytes 05 03 03 06 00 00 00 0a 00 00 00 08 – refused, 1: no such kind of record"),
    ]),
];

/// Without a text there are no lines, and no other difference.
#[test]
fn records_without_a_text() {
    for name in ["brought", "damaged", "edge-numbers", "unknown-kind"] {
        let mut case = cases().find(|case| case.name == name);
        let case = case.as_mut().expect("there is such a week");
        let with = tree(name, &case.page()).text();
        case.text = None;
        let without = tree(name, &case.page()).text();
        assert_ne!(with, without, "{name}");
        assert_eq!(without_lines(&with), without, "{name}");
    }
}

/// The text without `line 7: ` and ` (line 7)`.
fn without_lines(text: &str) -> String {
    let mut kept = String::new();
    let mut rest = text;
    while let Some((before, behind)) = rest.split_once("line ") {
        let digits = behind.find(|sign: char| !sign.is_ascii_digit());
        let (number, after) = behind.split_at(digits.unwrap_or(behind.len()));
        let bracket = before.strip_suffix(" (").zip(after.strip_prefix(')'));
        let front = Some(before).zip(after.strip_prefix(": "));
        match bracket.or(front) {
            Some((before, after)) if !number.is_empty() => {
                kept += before;
                rest = after;
            }
            _ => {
                kept += before;
                kept += "line ";
                rest = behind;
            }
        }
    }
    kept + rest
}

/// A record is shown as a week's text has it, whatever labels and spaces its own
/// text has, and by the line that its first byte stands on.
#[test]
fn texts_of_refused_records() {
    let page = drawn(
        "# one\n\nopening   pantry 9 position 1 household 2 portions 3 # two\n\
         swap 8 as eight\n  take pantry 0 opening 3 household 9 portions 4\n  \
         give pantry 1 household 9 portions 4\n\
         swap 8 as other\n  take pantry 0 opening 3 household 9 portions 4\n  \
         give pantry 1 household 8 portions 4\n\
         register other at 9\nregister eight at 8\n\nvote 7 on eight from 0 to 1\n\
         bytes 04 09 04\nbytes 08\nturn pantry 255\n\
         register other at 7\nbytes 01 02\nbytes 03\n",
    );
    let out = "a field or count outside its range, a pantry above 7, or an unused slot not zero";
    let cut = "the record is cut short";
    for (step, text, number, cause) in [
        (
            1,
            "line 3: opening pantry 9 position 1 household 2 portions 3",
            3,
            out,
        ),
        (2, "line 10: register 8 at 9", 3, out),
        (3, "line 11: register 8-2 at 8", 3, out),
        (4, "line 13: vote 7 on 8-2 from 0 to 1", 3, out),
        (5, "line 14: turn pantry 9", 3, out),
        (6, "line 14: turn pantry 8", 3, out),
        (7, "line 16: turn pantry 255", 3, out),
        (
            8,
            "line 17: register 8 at 7",
            6,
            "receiver or sender not among the swap's pantries",
        ),
        (9, "line 18: bytes 01 02 03", 2, cut),
    ] {
        let row = page.one(&format!("#step-{step}"));
        let expected = format!("{text} – refused, {number}: {cause}");
        assert_eq!(row.one("td.told").text(), expected);
    }
}
