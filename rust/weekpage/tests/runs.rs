//! Long runs of openings have a body of their own in the table of records, with a
//! heading that says what they bring; the script folds them.

#[path = "common/by_hand.rs"]
mod by_hand;
mod common;
#[path = "common/drawn.rs"]
mod drawn;
#[path = "common/played.rs"]
mod played;
#[path = "common/stored.rs"]
mod stored;

use common::cases::{Case, cases, tree};
use common::tree::Element;
use drawn::drawn;
use played::play;
use reference::Record;
use stored::stored;
use weeks::receiver;

/// So many openings in a row are not folded.
const SHORT: usize = 8;

/// Stored weeks and random inputs: each long run that the listing has stands in one
/// body, with its heading, and every other row in a body without.
#[test]
fn every_run() {
    let (mut runs, mut rows) = (0, 0);
    for case in cases() {
        let page = tree(&case.name, &case.page());
        let bodies = page.select("table.lanes tbody");
        let parts: Vec<_> = bodies.iter().map(|body| part(body)).collect();
        let expected = expected(&case);
        assert_eq!(parts, expected, "{}", case.name);
        let long = expected
            .into_iter()
            .filter(|(heading, _)| heading.is_some());
        let long: Vec<usize> = long.map(|(_, steps)| steps.len()).collect();
        runs += long.len();
        rows += long.into_iter().sum::<usize>();
    }
    assert!(runs > 50 && rows > 1_000, "{runs} runs of {rows} rows");
    println!("{runs} runs of {rows} rows");
}

/// A body of the table: the cells of its heading, where it has one, and its steps.
type Part = (Option<Vec<String>>, Vec<usize>);

fn part(body: &Element) -> Part {
    let rows: Vec<&Element> = body.elements().collect();
    let (heading, rows) = match rows.split_first() {
        Some((first, rest)) if first.has_class("run") => (Some(*first), rest),
        _ => (None, &rows[..]),
    };
    let steps = rows.iter().map(|row| {
        assert!(row.has_class("record"));
        let step = row.attribute("id").and_then(|id| id.strip_prefix("step-"));
        let step = step.expect("a record has its step");
        step.parse().expect("a step is a number")
    });
    let steps: Vec<usize> = steps.collect();
    assert_eq!(body.has_class("openings"), heading.is_some());
    let id = heading.map(|_| format!("openings-{}", steps[0]));
    assert_eq!(body.attribute("id"), id.as_deref());
    (heading.map(cells), steps)
}

/// The texts of the heading's cells. Those of a lane are two lines, or none.
fn cells(heading: &Element) -> Vec<String> {
    let cells = heading.elements().map(|cell| {
        let lines = cell.select("p").into_iter().map(Element::text);
        let lines: Vec<String> = lines.collect();
        match cell.has_class("lane") {
            true => lines.join(", "),
            false => cell.text(),
        }
    });
    cells.collect()
}

/// The parts by the listing's words and by the records.
fn expected(case: &Case) -> Vec<Part> {
    let mut opened: Vec<Option<(u8, u64)>> = Vec::new();
    play(&case.bytes, |(record, answer), _| {
        opened.push(match record {
            Some(record @ Record::Mint { amount, .. }) if answer.is_ok() => {
                Some((receiver(record), u64::from(*amount)))
            }
            _ => None,
        });
    });
    let listed = case.listing.lines().map(|line| line.ends_with(" OPENED"));
    assert!(
        listed
            .take(opened.len())
            .eq(opened.iter().map(Option::is_some))
    );
    let mut parts: Vec<Part> = Vec::new();
    let mut step = 1;
    for same in opened.chunk_by(|one, next| one.is_some() == next.is_some()) {
        let steps = step..step + same.len();
        step = steps.end;
        let tokens: Vec<(u8, u64)> = same.iter().copied().flatten().collect();
        if tokens.len() > SHORT {
            parts.push((Some(heading(&tokens, steps.start)), steps.collect()));
            continue;
        }
        match parts.last_mut() {
            Some((None, before)) => before.extend(steps),
            _ => parts.push((None, steps.collect())),
        }
    }
    parts
}

/// The heading of a run that opens these tokens, from this step on.
fn heading(tokens: &[(u8, u64)], first: usize) -> Vec<String> {
    let told = |number: u64, one: &str| match number {
        1 => format!("1 {one}"),
        _ => format!("{number} {one}s"),
    };
    let (count, last) = (tokens.len(), first + tokens.len() - 1);
    let mut cells = vec![format!("{count} openings, steps {first} to {last}")];
    let mut pantries = Vec::new();
    for pantry in 0..8 {
        let here = tokens.iter().filter(|(at, _)| *at == pantry);
        let here: Vec<u64> = here.map(|(_, amount)| *amount).collect();
        if here.is_empty() {
            cells.push(String::new());
            continue;
        }
        let (tokens, portions) = (here.len() as u64, here.iter().sum());
        pantries.push(pantry.to_string());
        cells.push(format!(
            "{}, {}",
            told(tokens, "token"),
            told(portions, "portion")
        ));
    }
    let pantries = match &pantries[..] {
        [one] => format!("pantry {one}"),
        [front @ .., last] => format!("pantries {} and {last}", front.join(", ")),
        [] => panic!("a run has tokens"),
    };
    let portions = told(tokens.iter().map(|(_, amount)| amount).sum(), "portion");
    cells.push(format!("{count} tokens at {pantries}: {portions}"));
    cells
}

/// So many openings at a pantry, from this position on.
fn openings(pantry: u8, from: u8, count: u8) -> String {
    let lines = (from..from + count).map(|position| {
        format!("opening pantry {pantry} position {position} household 10 portions 2\n")
    });
    lines.collect()
}

/// The headings of a page, each as one line.
fn headings(page: &Element) -> Vec<String> {
    let headings = page.select("tr.run").into_iter();
    headings.map(|row| cells(row).join(" | ")).collect()
}

#[test]
fn eight_and_nine() {
    assert_eq!(headings(&drawn(&openings(3, 0, 8))), [""; 0]);
    let page = drawn(&openings(3, 0, 9));
    let heading = "9 openings, steps 1 to 9 |  |  |  | 9 tokens, 18 portions |  |  |  |  | \
        9 tokens at pantry 3: 18 portions";
    assert_eq!(headings(&page), [heading]);
    let body = page.one("table.lanes tbody");
    assert_eq!(part(body).1, Vec::from_iter(1..=9));
}

/// What is refused is not folded, nor is what stands between two runs.
#[test]
fn a_refused_opening_ends_a_run() {
    let (first, second) = (openings(0, 0, 10), openings(1, 0, 9) + &openings(7, 5, 1));
    let again = openings(0, 9, 1);
    let page = drawn(&format!("turn pantry 2\n{first}{again}{second}{again}"));
    let steps = page.select("table.lanes tbody").into_iter();
    let steps: Vec<Vec<usize>> = steps.map(|body| part(body).1).collect();
    let runs = [(2..=11).collect(), (13..=22).collect()];
    let [first, second]: [Vec<usize>; 2] = runs;
    assert_eq!(steps, [vec![1], first, vec![12], second, vec![23]]);
    let told = page.select("tr.run td.told").into_iter();
    let told: Vec<String> = told.map(Element::text).collect();
    let expected = [
        "10 tokens at pantry 0: 20 portions",
        "10 tokens at pantries 1 and 7: 20 portions",
    ];
    assert_eq!(told, expected);
}

/// The week from Monday to Sunday: 64 openings, and two that are refused.
#[test]
fn the_week() {
    let page = stored("week");
    let steps = page.select("tr.run th").into_iter();
    let steps: Vec<String> = steps.map(Element::text).collect();
    let expected = [
        "29 openings, steps 1 to 29",
        "19 openings, steps 31 to 49",
        "16 openings, steps 51 to 66",
    ];
    assert_eq!(steps, expected);
    let told = page.select("tr.run td.told").into_iter();
    let told: Vec<String> = told.map(Element::text).collect();
    let expected = [
        "29 tokens at pantries 0, 1, 2 and 3: 120 portions",
        "19 tokens at pantries 3, 4 and 5: 82 portions",
        "16 tokens at pantries 6 and 7: 65 portions",
    ];
    assert_eq!(told, expected);
    // All of it stands there without the script, which makes the headings buttons.
    assert!(page.select("table.lanes button").is_empty());
    assert!(page.select("table.lanes .folded").is_empty());
}
