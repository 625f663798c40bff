//! The marks in the lanes: which there are, where they stand, and what tells them
//! apart without colours.

#[path = "common/by_hand.rs"]
mod by_hand;
mod common;
#[path = "common/drawn.rs"]
mod drawn;
#[path = "common/lanes.rs"]
mod lanes;
#[path = "common/played.rs"]
mod played;

use std::collections::BTreeMap;
use std::fs;

use common::cases::{Case, cases, tree};
use common::tree::Element;
use drawn::drawn;
use lanes::{Arrow, LANES, Mark, lane, marks, middle, number, reach, shape, start, told};
use played::{Played, play};
use program::root;
use reference::{Cluster, Done, Outcome, Record, Refusal, Transaction, Verdict};
use weekpage::picture;
use weeks::{Tally, receiver};

/// The marks that stand in the lane of the pantry that received the record.
const IN_LANE: [&str; 6] = [
    "token", "verdict", "decision", "turned", "refusal", "held-off",
];

/// What has to be met among all rows.
const MET: [&str; 16] = [
    "token",
    "verdict yes",
    "verdict no",
    "decision commit",
    "decision abort",
    "vote fresh yes",
    "vote fresh no",
    "vote repeat yes",
    "vote repeat no",
    "vote refused yes",
    "vote refused no",
    "parcel",
    "turned",
    "refusal",
    "held-off",
    "nowhere",
];

/// Stored weeks and random inputs: the marks of every row, and all of them
/// counted against the listing.
#[test]
fn every_row() {
    let mut tally = Tally::default();
    for case in cases() {
        let page = tree(&case.name, &case.page());
        let decisions = check_rows(&page, &case, &mut tally);
        check_counts(&page, &case, decisions);
        check_picture(&page, &case);
    }
    tally.report("marks", &MET, 20);
}

/// Each row has the marks that the record's answer asks for, each in its lane.
/// Gives how many commits and how many aborts were decided.
fn check_rows(page: &Element, case: &Case, tally: &mut Tally) -> [usize; 2] {
    let mut rows = page.select("table.lanes tr.record").into_iter();
    let (mut before, mut counts) = (Decided::new(), [0; 2]);
    play(&case.bytes, |played, after| {
        let row = rows.next().expect("each record has a row");
        let name = format!("{}, {}", case.name, row.one("code").text());
        let now = decided(after);
        let decision = decision(played, &before, &now);
        assert_eq!(told(row), expected(played, decision), "{name}");
        told(row).iter().for_each(|(class, _)| tally.add(class));
        counts[0] += usize::from(decision == Some("commit"));
        counts[1] += usize::from(decision == Some("abort"));
        if let (Some(record), _) = played {
            check_places(row, record, &name);
            check_label(row, record, &name);
        }
        before = now;
    });
    counts
}

/// What the shards have decided, by shard and by the transaction's number.
type Decided = BTreeMap<(u8, u32), &'static str>;

fn decided(cluster: &Cluster) -> Decided {
    let known = cluster.shards().iter().flat_map(|shard| {
        let known = shard.known().iter();
        known.map(|known| (shard.number(), known))
    });
    let decided = known.filter_map(|(shard, known)| {
        let outcome = match known.outcome() {
            Outcome::Wait => return None,
            Outcome::Commit => "commit",
            Outcome::Abort => "abort",
        };
        Some(((shard, known.transaction.number), outcome))
    });
    decided.collect()
}

/// What was decided with this record: nothing, or its receiver has decided its
/// transaction.
fn decision((record, _): Played, before: &Decided, after: &Decided) -> Option<&'static str> {
    let mut fresh = after.iter().filter(|(at, _)| !before.contains_key(*at));
    let (&at, &outcome) = fresh.next()?;
    assert_eq!(fresh.next(), None, "a record decides at most once");
    let record = record.expect("what cannot be read decides nothing");
    let number = transaction(record).map(|transaction| transaction.number);
    assert_eq!((at.0, Some(at.1)), (receiver(record), number));
    Some(outcome)
}

/// The transaction that a record is about, if it is about one.
fn transaction(record: &Record) -> Option<&Transaction> {
    match record {
        Record::Register { transaction, .. } | Record::Vote { transaction, .. } => {
            Some(transaction)
        }
        Record::Mint { .. } | Record::Turn { .. } => None,
    }
}

/// The marks for an answer and a decision.
fn expected((record, answer): Played, decision: Option<&str>) -> Vec<Mark> {
    let mut marks = Vec::new();
    let mut mark = |class: &str, text: String| marks.push((class.to_owned(), text));
    match answer {
        Ok(Done::Registered { verdict, .. } | Done::Brought { verdict, .. }) => {
            let word = verdict_word(verdict);
            mark(&format!("verdict {word}"), word.to_uppercase());
        }
        Ok(Done::Turned) => mark("turned", String::new()),
        Ok(Done::Minted | Done::Heard(_) | Done::Again(_)) => {}
        Err(Refusal::HeldOff) => mark("held-off", String::new()),
        Err(refusal) => mark("refusal", refusal.number().to_string()),
    }
    match record {
        Some(Record::Mint { amount, .. }) if answer.is_ok() => mark("token", amount.to_string()),
        Some(Record::Vote { verdict, .. }) => {
            let way = match answer {
                Ok(Done::Again(_)) => "repeat",
                Ok(_) => "fresh",
                Err(_) => "refused",
            };
            let word = ["no", "yes"][usize::from(*verdict)];
            mark(&format!("vote {way} {word}"), String::new());
        }
        Some(_) => {}
        None => mark("nowhere", String::new()),
    }
    if let Ok(Done::Brought { .. }) = answer {
        mark("parcel", String::new());
    }
    if let Some(outcome) = decision {
        mark(&format!("decision {outcome}"), String::new());
    }
    marks.sort();
    marks
}

fn verdict_word(verdict: Verdict) -> &'static str {
    match verdict {
        Verdict::Yes => "yes",
        Verdict::No => "no",
    }
}

/// What the receiver has made of the record stands in its lane, and an arrow
/// leads there.
fn check_places(row: &Element, record: &Record, name: &str) {
    let lane = lane(receiver(record));
    for mark in marks(row) {
        if IN_LANE.iter().any(|class| mark.has_class(class)) {
            let (left, right) = reach(mark);
            let within = lane.contains(&left) && lane.contains(&right);
            assert!(within, "{name}: {left} to {right}");
        }
    }
    if let Record::Vote {
        receiver, sender, ..
    } = *record
    {
        let arrow = Arrow::of(row);
        arrow.check(sender, receiver, name);
        for parcel in row.select(".parcel") {
            assert!(arrow.spans(start(parcel)), "{name}");
        }
    }
}

/// Above the mark stands whose the token is or which swap it is, above an arrow
/// likewise.
fn check_label(row: &Element, record: &Record, name: &str) {
    let front = match record {
        Record::Mint { owner, .. } => format!("household {owner}"),
        Record::Turn { .. } => return,
        Record::Register { transaction, .. } | Record::Vote { transaction, .. } => {
            format!("swap {}", transaction.number)
        }
    };
    let label = row.one(".marks .label");
    let (text, x) = (label.text(), number(label, "x"));
    let rest = text.strip_prefix(&front);
    let whole = rest.is_some_and(|rest| !rest.starts_with(|sign: char| sign.is_ascii_digit()));
    assert!(whole, "{name}: '{text}', not '{front}'");
    let above = match record {
        Record::Vote { .. } => Arrow::of(row).spans(x),
        _ => x == middle(receiver(record)),
    };
    assert!(above, "{name}: '{text}' at {x}");
}

/// All marks of a page, counted by the listing's words and by the decisions.
fn check_counts(page: &Element, case: &Case, [commits, aborts]: [usize; 2]) {
    let words = case.listing.lines().filter_map(|line| {
        let (_, rest) = line.split_once(' ')?;
        rest.split_once(' ')
    });
    let words: Vec<(&str, &str)> = words.collect();
    let listed = |front: &str| {
        let fits = words.iter().filter(|(_, words)| words.starts_with(front));
        fits.count()
    };
    let drawn = |path: &str| page.select(&format!("table.lanes {path}")).len();
    let (refused, unread) = (listed("REFUSED"), words.iter().filter(|(at, _)| *at == "-"));
    for (what, drawn, listed) in [
        ("tokens", drawn(".token"), listed("OPENED")),
        ("yes", drawn(".verdict.yes"), listed("YES")),
        ("no", drawn(".verdict.no"), listed("NO")),
        (
            "heard",
            drawn(".vote.fresh"),
            listed("HEARD") + drawn(".parcel"),
        ),
        ("again", drawn(".vote.repeat"), listed("AGAIN")),
        ("refused rows", drawn("tr.refused"), refused),
        (
            "refused marks",
            drawn(".refusal") + drawn(".held-off"),
            refused,
        ),
        ("held off", drawn(".held-off"), listed("REFUSED 17")),
        ("turned", drawn(".turned"), listed("TURNED")),
        ("not read", drawn(".nowhere"), unread.count()),
        ("commits", drawn(".decision.commit"), commits),
        ("aborts", drawn(".decision.abort"), aborts),
    ] {
        assert_eq!(drawn, listed, "{}: {what}", case.name);
    }
}

/// A picture has the same marks.
fn check_picture(page: &Element, case: &Case) {
    let name = format!("the picture of {}", case.name);
    let picture = tree(&name, &picture(&case.week()));
    let (there, here) = (picture.select(".marks"), page.select("table.lanes .marks"));
    assert!(there == here, "{name}: other marks than the page's");
}

/// Every mark is explained, but for the colour of a no.
#[test]
fn the_legend() {
    let page = drawn("");
    let entries = page.select(".legend li");
    for entry in &entries {
        assert!(!entry.one("svg").children.is_empty());
        assert!(!entry.one("span").text().is_empty());
    }
    let explained = MET
        .iter()
        .filter(|mark| !mark.starts_with("vote") || mark.ends_with("yes"));
    for mark in explained {
        let path = format!(".legend .{}", mark.replace(' ', "."));
        assert!(!page.select(&path).is_empty(), "{mark} is not explained");
    }
}

/// The picture that the repository's README shows is the one that is made today.
#[test]
fn the_picture_in_the_documents() {
    let mut cases = cases();
    let example = cases.find(|case| case.name == "example");
    let example = example.expect("there is an example");
    let stored = fs::read_to_string(root().join("docs/example.svg"));
    let stored = stored.expect("there is a picture of it");
    assert!(
        stored == picture(&example.week()),
        "make docs/example.svg anew"
    );
}

/// The row of this step, with this line and these marks.
fn row<'a>(page: &'a Element, line: &str, classes: &[&str]) -> &'a Element {
    let (step, _) = line.split_once(' ').expect("a line has a step");
    let row = page.one(&format!("#step-{step}"));
    assert_eq!(row.one("code").text(), line);
    let found: Vec<String> = told(row).into_iter().map(|(class, _)| class).collect();
    assert_eq!(found, classes, "{line}");
    row
}

/// The middle of the one mark of this class in the row.
fn middle_of(row: &Element, class: &str) -> i32 {
    let (left, right) = reach(row.one(class));
    (left + right) / 2
}

#[test]
fn an_opening() {
    let page = drawn("opening pantry 3 position 7 household 10 portions 25\n");
    let row = row(&page, "1 3 OPENED", &["token"]);
    assert_eq!(row.one(".token").text(), "25");
    assert_eq!(middle_of(row, ".token"), middle(3));
    assert_eq!(row.one(".label").text(), "household 10");
}

/// Takes a token at each of the pantries 1 and 5 and gives them the other way
/// round.
const EXCHANGE: &str = "swap 8\n  take pantry 1 opening 0 household 10 portions 3\n  \
    take pantry 5 opening 0 household 20 portions 2\n  \
    give pantry 5 household 10 portions 3\n  give pantry 1 household 20 portions 2\n";

/// Those tokens.
const TOKENS: &str = "opening pantry 1 position 0 household 10 portions 3\n\
    opening pantry 5 position 0 household 20 portions 2\n";

/// Yes and no have other shapes and other words.
#[test]
fn a_yes_and_a_no() {
    let only = TOKENS.lines().next().expect("there are two");
    let page = drawn(&format!(
        "{only}\n{EXCHANGE}register 8 at 1\nregister 8 at 5\n"
    ));
    let yes = row(&page, "2 1 YES WAIT", &["verdict yes"]);
    let no = row(&page, "3 5 NO ABORT", &["decision abort", "verdict no"]);
    let corners = |row: &Element| number(row.one(".verdict rect"), "rx");
    assert_ne!(corners(yes), corners(no));
    assert_eq!(yes.one(".verdict").text(), "YES");
    assert_eq!(no.one(".verdict").text(), "NO");
    assert_eq!(middle_of(yes, ".verdict"), middle(1));
    assert!(middle_of(no, ".verdict") < middle_of(no, ".decision"));
    assert_eq!(yes.one(".label").text(), "swap 8");
}

/// Votes in both directions and to the pantry itself: heard, again, refused.
#[test]
fn votes() {
    let page = drawn(&format!(
        "{TOKENS}{EXCHANGE}register 8 at 1\nregister 8 at 5\n\
         vote no on 8 from 5 to 1\nvote yes on 8 from 5 to 1\nvote yes on 8 from 1 to 5\n\
         vote yes on 8 from 5 to 1\nvote yes on 8 from 1 to 1\nvote no on 8 from 1 to 1\n\
         vote yes on 8 from 1 to 2\n"
    ));
    let (commit, fresh) = ("decision commit", "vote fresh yes");
    for (line, classes, sender, receiver) in [
        ("5 1 REFUSED 16", vec!["refusal", "vote refused no"], 5, 1),
        ("6 1 HEARD COMMIT", vec![commit, fresh], 5, 1),
        ("7 5 HEARD COMMIT", vec![commit, fresh], 1, 5),
        ("8 1 AGAIN COMMIT", vec!["vote repeat yes"], 5, 1),
        ("9 1 AGAIN COMMIT", vec!["vote repeat yes"], 1, 1),
        ("10 1 REFUSED 16", vec!["refusal", "vote refused no"], 1, 1),
        ("11 2 REFUSED 6", vec!["refusal", "vote refused yes"], 1, 2),
    ] {
        let row = row(&page, line, &classes);
        let Arrow { from, to, head } = Arrow::of(row);
        let lane = lane(receiver);
        assert_eq!(from, middle(sender), "{line}");
        assert!(lane.contains(&to) && lane.contains(&head), "{line}");
        let shaft = shape(row.one(".shaft"));
        assert_eq!(shaft == "MH", sender != receiver, "{line}: {shaft}");
        // A refused vote ends with a bar, any other with a filled head.
        let filled = shape(row.one(".head")).ends_with('z');
        assert_eq!(filled, !line.contains("REFUSED"), "{line}");
    }
    let label = |step: u8| page.one(&format!("#step-{step} .label")).text();
    assert_eq!(
        (label(5), label(6)),
        ("swap 8: no".into(), "swap 8: yes".into())
    );
}

/// Takes a token that is not there and one that is, and gives to a third pantry.
const SPOILT: &str = "swap 9\n  take pantry 0 opening 0 household 10 portions 3\n  \
    take pantry 1 opening 0 household 10 portions 3\n  \
    give pantry 2 household 30 portions 6\n";

/// A decision stands where it falls: a pantry that has aborted hears the other
/// votes without deciding again.
#[test]
fn decisions() {
    let page = drawn(&format!(
        "{TOKENS}{SPOILT}register 9 at 0\nregister 9 at 1\nregister 9 at 2\n\
         vote no on 9 from 0 to 1\nvote yes on 9 from 2 to 1\nvote yes on 9 from 2 to 1\n\
         {EXCHANGE}turn pantry 1\nregister 8 at 1\nregister 8 at 5\nvote yes on 8 from 5 to 1\n"
    ));
    row(&page, "3 0 NO ABORT", &["decision abort", "verdict no"]);
    row(&page, "4 1 YES WAIT", &["verdict yes"]);
    row(&page, "5 2 YES WAIT", &["verdict yes"]);
    let heard = ["decision abort", "vote fresh no"];
    let abort = row(&page, "6 1 HEARD ABORT", &heard);
    row(&page, "7 1 HEARD ABORT", &["vote fresh yes"]);
    row(&page, "8 1 AGAIN ABORT", &["vote repeat yes"]);
    let heard = ["decision commit", "vote fresh yes"];
    let commit = row(&page, "12 1 HEARD COMMIT", &heard);
    for part in [".decision .shape", ".decision .sign"] {
        assert_ne!(shape(abort.one(part)), shape(commit.one(part)), "{part}");
    }
    for row in [abort, commit] {
        assert!(lane(1).contains(&middle_of(row, ".decision")));
    }
}

/// A swap of one pantry is voted and decided in one record.
#[test]
fn a_swap_of_one_pantry() {
    let page = drawn(&format!(
        "{TOKENS}swap 3\n  take pantry 5 opening 0 household 20 portions 2\n  \
         give pantry 5 household 21 portions 2\nregister 3 at 5\n"
    ));
    let classes = ["decision commit", "verdict yes"];
    let row = row(&page, "3 5 YES COMMIT", &classes);
    assert!(reach(row.one(".verdict")).1 < reach(row.one(".decision")).0);
}

/// A refusal by its number; 17 has a mark of its own.
#[test]
fn refusals() {
    let page = drawn(&format!(
        "{TOKENS}{EXCHANGE}swap 4\n  take pantry 5 swap 8 position 0 household 10 portions 3\n  \
         give pantry 6 household 11 portions 3\n\
         register 8 at 5\nregister 4 at 5\nregister 4 at 6\nvote yes on 4 from 6 to 5\n\
         register 4 at 1\nopening pantry 5 position 0 household 20 portions 2\n"
    ));
    row(&page, "3 5 YES WAIT", &["verdict yes"]);
    let held_off = row(&page, "4 5 REFUSED 17", &["held-off"]);
    assert_eq!(middle_of(held_off, ".held-off"), middle(5));
    let vote = ["held-off", "vote refused yes"];
    row(&page, "6 5 REFUSED 17", &vote);
    for (line, pantry, number) in [("7 1 REFUSED 6", 1, "6"), ("8 5 REFUSED 13", 5, "13")] {
        let refused = row(&page, line, &["refusal"]);
        assert_eq!(refused.one(".refusal").text(), number);
        assert_eq!(middle_of(refused, ".refusal"), middle(pantry));
    }
}

#[test]
fn turns() {
    let page = drawn("turn pantry 6\nturn pantry 6\n");
    let turned = row(&page, "1 6 TURNED", &["turned"]);
    assert!(lane(6).contains(&middle_of(turned, ".turned")));
    let again = row(&page, "2 6 REFUSED 19", &["refusal"]);
    assert_eq!(again.one(".refusal").text(), "19");
}

/// A vote that brings its swap has a parcel between the two pantries, and what
/// the receiver makes of the swap stands in its lane.
#[test]
fn a_vote_that_brings_its_swap() {
    let page = drawn(&format!(
        "{TOKENS}{EXCHANGE}register 8 at 1\nvote yes on 8 from 1 to 5\n\
         vote yes on 8 from 5 to 1\n{SPOILT}register 9 at 0\nvote no on 9 from 0 to 2\n"
    ));
    let classes = ["decision commit", "parcel", "verdict yes", "vote fresh yes"];
    let brought = row(&page, "4 5 YES COMMIT", &classes);
    let arrow = Arrow::of(brought);
    assert!(arrow.spans(start(brought.one(".parcel"))));
    assert!(arrow.head <= reach(brought.one(".verdict")).0);
    row(
        &page,
        "5 1 HEARD COMMIT",
        &["decision commit", "vote fresh yes"],
    );
    let classes = ["decision abort", "parcel", "verdict yes", "vote fresh no"];
    row(&page, "7 2 YES ABORT", &classes);
}

/// Of a record that cannot be read nobody knows whose it is: its line crosses all
/// lanes, and its number stands between two.
#[test]
fn records_that_cannot_be_read() {
    let page = drawn(
        "opening pantry 8 position 0 household 10 portions 3\n\
         opening pantry 2 position 0 household 10 portions 3\nbytes 05\n",
    );
    row(&page, "2 2 OPENED", &["token"]);
    for (line, cause) in [("1 - REFUSED 3", "3"), ("3 - REFUSED 1", "1")] {
        let refused = row(&page, line, &["nowhere", "refusal"]);
        let across = refused.one(".nowhere");
        assert_eq!((number(across, "x1"), number(across, "x2")), (0, LANES));
        assert_eq!(refused.one(".refusal").text(), cause);
        assert_eq!(middle_of(refused, ".refusal"), LANES / 2);
    }
}
