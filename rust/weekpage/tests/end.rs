//! The end of the week is the reference's: what the pantries hold and know, which
//! swaps have committed and in which order, and why the others have not.

#[path = "common/by_hand.rs"]
mod by_hand;
#[path = "common/carried.rs"]
mod carried;
mod common;
#[path = "common/drawn.rs"]
mod drawn;
#[path = "common/ended.rs"]
mod ended;
#[path = "common/entries.rs"]
mod entries;
#[path = "common/played.rs"]
mod played;
#[path = "common/reasons.rs"]
mod reasons;
#[path = "common/stored.rs"]
mod stored;

use std::collections::{BTreeSet, HashMap};

use carried::carried;
use common::cases::{Case, cases, tree};
use common::tree::Element;
use drawn::drawn;
use ended::{Ended, Told};
use entries::{paragraphs, rows_behind, steps};
use reasons::{check_reason, numbers, token_name};
use reference::{Known, Outcome, Shard, Token, Transaction, Verdict};
use stored::stored;
use weeks::Tally;
use weektext::Carried;

/// What has to be met among all ends.
const MET: [&str; 18] = [
    "token",
    "pledged token",
    "turned pantry",
    "pantry without anything",
    "known swap",
    "second of its number",
    "not read, 3",
    "not read, 4",
    "not read, 5",
    "read or not",
    "committed",
    "aborted",
    "undecided",
    "known nowhere",
    "not held",
    "other household",
    "other portions",
    "pledged",
];

#[test]
fn every_end() {
    let mut tally = Tally::default();
    for case in cases() {
        let page = tree(&case.name, &case.page());
        Beside::new(&case, &page).check(&mut tally);
    }
    tally.report("ends of weeks", &MET, 20);
}

/// A page beside what it has to show.
struct Beside<'a> {
    case: &'a str,
    page: &'a Element,
    ended: Ended,
    /// The swaps' lines in the words of a week's text.
    carried: HashMap<Transaction, Carried>,
    /// The page's keys of the swaps by name, from their entries.
    keys: HashMap<String, &'a str>,
}

impl<'a> Beside<'a> {
    /// Every swap that a record carries has one entry.
    fn new(case: &'a Case, page: &'a Element) -> Self {
        let (ended, written) = (Ended::of(case), case.written());
        let swaps = written.into_iter().map(|entry| entry.swap);
        let swaps = carried(&case.bytes).into_iter().zip(swaps);
        let swaps = swaps.filter_map(|(transaction, swap)| transaction.zip(swap));
        let carried = swaps.collect();
        let case = case.name.as_str();
        let rows = ["committed", "others"].map(|id| rows_behind(page, id));
        let rows = rows.concat();
        let names: BTreeSet<String> = rows.iter().map(|row| row.one("th").text()).collect();
        let told: BTreeSet<String> = ended.told.iter().map(|told| told.name.clone()).collect();
        assert_eq!(names, told, "{case}");
        assert_eq!(rows.len(), told.len(), "{case}: entries");
        let keys = rows.iter().map(|row| {
            let key = row.attribute("data-swap").expect("an entry has its key");
            (row.one("th").text(), key)
        });
        Beside {
            case,
            page,
            keys: keys.collect(),
            ended,
            carried,
        }
    }

    fn check(&self, tally: &mut Tally) {
        let shards = self.ended.cluster.shards().iter();
        let (blank, others): (Vec<_>, Vec<_>) = shards.partition(|shard| is_blank(shard));
        others
            .iter()
            .for_each(|shard| self.check_pantry(shard, tally));
        self.check_blank(&blank, tally);
        let total = format!("TOTAL {}", self.ended.cluster.total());
        assert_eq!(self.page.one("table.lanes tfoot code").text(), total);
        let mut codes = self.page.select("#end code").into_iter();
        assert!(codes.any(|code| code.text() == total), "{}", self.case);
        self.check_list();
        self.check_committed(tally);
        self.check_others(tally);
    }

    /// The list of all swaps, by number, each with how it has ended.
    fn check_list(&self) {
        let items = self.page.select("#swaps li").into_iter();
        let items: Vec<String> = items.map(Element::text).collect();
        let mut told: Vec<&Told> = self.ended.told.iter().collect();
        told.sort_by_key(|told| told.transaction.number);
        let told = told.into_iter();
        let told = told.map(|told| format!("{} {}", told.name, self.ended.end(told)));
        assert_eq!(items, Vec::from_iter(told), "{}", self.case);
    }

    /// The pantries without anything, in one line; each has its place there, and no
    /// section of its own.
    fn check_blank(&self, blank: &[&Shard], tally: &mut Tally) {
        let all: Vec<String> = blank
            .iter()
            .map(|shard| shard.number().to_string())
            .collect();
        let sentence = match &all[..] {
            [] => None,
            [one] => Some(format!("Pantry {one} holds nothing and knows no swap.")),
            [front @ .., last] => Some(format!(
                "Pantries {} and {last} hold nothing and know no swap.",
                front.join(", ")
            )),
        };
        let told = self.page.select("p.empty").into_iter();
        let told: Vec<String> = told.map(Element::text).collect();
        assert_eq!(told, Vec::from_iter(sentence), "{}", self.case);
        for number in &all {
            let place = self.page.one(&format!("p.empty span#pantry-{number}"));
            assert_eq!(place.text(), *number, "{}", self.case);
            tally.add("pantry without anything");
        }
        let sections = self.page.select("section.pantry").len();
        assert_eq!(sections + all.len(), 8, "{}", self.case);
    }

    /// What the pantry holds, in any order, and knows, in the order of
    /// registration; and nothing else.
    fn check_pantry(&self, shard: &Shard, tally: &mut Tally) {
        let number = shard.number();
        let section = self.page.one(&format!("section#pantry-{number}"));
        let name = format!("{}, pantry {number}", self.case);
        let mut tokens = shown(section, "tokens");
        tokens.sort();
        let held = shard.tokens().iter();
        let mut held: Vec<Shown> = held.map(|token| self.token(shard, token)).collect();
        held.sort();
        assert_eq!(tokens, held, "{name}");
        let known = shard.known().iter();
        let known: Vec<Shown> = known.map(|known| self.known(known)).collect();
        assert_eq!(shown(section, "known"), known, "{name}");
        check_summary(section, shard, &name);
        for (_, key) in &held {
            tally.add(key.map_or("token", |_| "pledged token"));
        }
        known.iter().for_each(|_| tally.add("known swap"));
        if shard.is_turned() {
            tally.add("turned pantry");
        }
    }

    /// A token's row.
    fn token(&self, shard: &Shard, token: &Token) -> Shown<'a> {
        let pledge = token.pledge.map(|number| {
            let mut known = shard.known().iter();
            let known = known.find(|known| known.transaction.number == number);
            let known = known.expect("the pantry knows what a token is pledged to");
            (self.told(known).name.clone(), self.key(known))
        });
        let (pledge, key) = pledge.unzip();
        let cells = vec![
            format!("({}, {}, {})", shard.number(), token.creator, token.index),
            token.owner.to_string(),
            token.amount.to_string(),
            pledge.unwrap_or("–".into()),
        ];
        (cells, key)
    }

    /// A known swap's row.
    fn known(&self, known: &Known) -> Shown<'a> {
        let votes = (0..).zip(known.heard).filter_map(|(sender, verdict)| {
            let verdict = match verdict? {
                Verdict::Yes => "yes",
                Verdict::No => "no",
            };
            Some(format!("{sender} {verdict}"))
        });
        let votes: Vec<String> = votes.collect();
        let outcome = word(Some(known.outcome())).to_owned();
        let cells = vec![self.told(known).name.clone(), votes.join(", "), outcome];
        (cells, Some(self.key(known)))
    }

    fn told(&self, known: &Known) -> &Told {
        let mut told = self.ended.told.iter();
        let told = told.find(|told| told.transaction == known.transaction);
        told.expect("a record has named it")
    }

    fn key(&self, known: &Known) -> &'a str {
        self.keys[&self.told(known).name]
    }

    /// The committed swaps in the clauses' order, each with the step of its last
    /// registration.
    fn check_committed(&self, tally: &mut Tally) {
        let told = self.ended.told.iter();
        let mut told: Vec<&Told> = told.filter(|told| self.is_committed(told)).collect();
        told.sort_by_key(|told| told.registered);
        let numbers = told.iter().map(|told| told.transaction.number);
        assert_eq!(Vec::from_iter(numbers), self.ended.committed);
        let rows = rows_behind(self.page, "committed");
        assert_eq!(rows.len(), told.len(), "{}", self.case);
        for (row, told) in rows.into_iter().zip(told) {
            let name = format!("{}, {}", self.case, told.name);
            assert_eq!(row.one("th").text(), told.name, "{}", self.case);
            assert_eq!(steps(row), Vec::from_iter(told.registered), "{name}");
            self.check_entry(row, told, tally);
            tally.add("committed");
        }
    }

    fn is_committed(&self, told: &Told) -> bool {
        self.ended.end(told) == "committed"
    }

    /// The others, each with its reason.
    fn check_others(&self, tally: &mut Tally) {
        for row in rows_behind(self.page, "others") {
            let mut told = self.ended.told.iter();
            let told = told.find(|told| told.name == row.one("th").text());
            let told = told.expect("a record has named it");
            let name = format!("{}, {}", self.case, told.name);
            assert!(!self.is_committed(told), "{name} is committed");
            self.check_entry(row, told, tally);
            check_reason(row, &self.ended, told, &name, tally);
        }
    }

    /// What the swap takes and gives, and what each of its pantries has decided.
    fn check_entry(&self, row: &Element, told: &Told, tally: &mut Tally) {
        let outcomes = self.ended.outcomes(told).into_iter();
        let outcomes = outcomes.map(|(shard, outcome)| format!("pantry {shard} {}", word(outcome)));
        let mut expected = match told.is_read {
            true => read_fields(&told.transaction),
            false => unread_fields(&self.carried[&told.transaction]),
        };
        expected.extend(outcomes);
        // The reason is checked apart.
        let cells = row.elements().filter(|cell| !cell.has_class("why"));
        let mut shown: Vec<String> = cells.flat_map(paragraphs).collect();
        expected.sort();
        shown.sort();
        assert_eq!(shown, expected, "{}, {}", self.case, told.name);
        count_entry(told, tally);
    }
}

/// What a swap that was read takes and gives.
fn read_fields(transaction: &Transaction) -> Vec<String> {
    let takes = transaction.used_inputs().iter().map(|input| {
        let held = holding(input.owner, input.amount);
        format!("{}: {held}", token_name(input))
    });
    let gives = transaction.used_outputs().iter().map(|output| {
        let held = holding(output.owner, output.amount);
        format!("pantry {}: {held}", output.shard)
    });
    takes.chain(gives).collect()
}

/// The lines of one that could not be read, and that its pantries are not known.
fn unread_fields(carried: &Carried) -> Vec<String> {
    let lines = carried.counts.iter().chain(&carried.takes);
    let lines = lines.chain(&carried.gives).cloned();
    lines.chain(["–".into()]).collect()
}

/// Counts what is special about the swap: which one of its number it is, and
/// whether all or some of its records could not be read.
fn count_entry(told: &Told, tally: &mut Tally) {
    if told.name.ends_with("-2") {
        tally.add("second of its number");
    }
    let mut unread = told.refused.iter().filter(|(_, shard, _)| shard.is_none());
    match (told.is_read, unread.next()) {
        (true, None) => {}
        (true, Some(_)) => tally.add("read or not"),
        (false, first) => {
            let (_, _, refusal) = first.expect("its records were refused");
            tally.add(&format!("not read, {}", refusal.number()));
        }
    }
}

/// Whether there is nothing to tell of the pantry.
fn is_blank(shard: &Shard) -> bool {
    shard.tokens().is_empty() && shard.known().is_empty() && !shard.is_turned()
}

/// A row of a pantry's table: the texts of its cells, and the swap's key.
type Shown<'a> = (Vec<String>, Option<&'a str>);

/// The rows of the pantry's table of this class, which need not be there. What
/// leads to a swap in a row leads to the row's.
fn shown<'a>(section: &'a Element, class: &str) -> Vec<Shown<'a>> {
    assert!(section.select(&format!("table.{class}")).len() <= 1);
    let rows = section.select(&format!("table.{class} tbody tr"));
    let shown = rows.into_iter().map(|row| {
        let key = row.attribute("data-swap");
        for link in row.select("a") {
            assert_eq!(link.attribute("data-swap"), key);
        }
        (row.elements().map(Element::text).collect(), key)
    });
    shown.collect()
}

/// What is said of the pantry above its tables: how much it holds and knows, and
/// whether it is turned.
fn check_summary(section: &Element, shard: &Shard, name: &str) {
    let text = paragraphs(section).concat();
    let (tokens, known) = (shard.tokens().len() as u64, shard.known().len() as u64);
    let told = numbers(&text);
    for number in [shard.total(), tokens, known] {
        assert!(told.contains(&number), "{name}: {number} in '{text}'");
    }
    assert_eq!(text.contains("turned"), shard.is_turned(), "{name}");
}

fn word(outcome: Option<Outcome>) -> &'static str {
    match outcome {
        Some(Outcome::Wait) => "WAIT",
        Some(Outcome::Commit) => "COMMIT",
        Some(Outcome::Abort) => "ABORT",
        None => "not known",
    }
}

fn holding(owner: u32, amount: u32) -> String {
    let word = if amount == 1 { "portion" } else { "portions" };
    format!("household {owner}, {amount} {word}")
}

/// The committed swaps, each with the step of its last registration.
fn committed(page: &Element) -> Vec<(String, Vec<usize>)> {
    let rows = rows_behind(page, "committed").into_iter();
    let rows = rows.map(|row| (row.one("th").text(), steps(row)));
    rows.collect()
}

/// The reason for the swap of this name that did not commit.
fn reason(page: &Element, swap: &str) -> Vec<String> {
    let mut rows = rows_behind(page, "others").into_iter();
    let row = rows.find(|row| row.one("th").text() == swap);
    let row = row.unwrap_or_else(|| panic!("{swap} has no reason"));
    paragraphs(row.one("td.why"))
}

/// The reason where one pantry said no, because of these tokens.
fn no(pantry: u8, tokens: &str) -> String {
    format!("Pantry {pantry} said no – {tokens}")
}

/// How the week went, above all.
#[test]
fn summaries() {
    for (name, summary) in [
        ("empty", "0 records. 0 swaps. TOTAL 0"),
        ("example", "7 records. 1 swap: 1 committed. TOTAL 5"),
        (
            "brought",
            "44 records, 8 of them refused. 8 swaps: 5 committed, 2 aborted, 1 undecided. TOTAL 20",
        ),
        (
            "week",
            "361 records, 10 of them refused. 62 swaps: 53 committed, 8 aborted, 1 known nowhere. \
             TOTAL 267",
        ),
    ] {
        assert_eq!(stored(name).one(".summary").text(), summary);
    }
}

/// Two swaps want one token, and two swaps each get one of two.
#[test]
fn the_week_of_conflicts() {
    let page = stored("conflict");
    assert_eq!(committed(&page), [("swap 1".into(), vec![9])]);
    for (swap, pantry, tokens) in [
        (
            "swap 2",
            0,
            "token (0, 0, 0), household 10, 3 portions: pledged to swap 1",
        ),
        (
            "swap 3",
            2,
            "token (2, 0, 0), household 30, 2 portions: pledged to swap 2",
        ),
        (
            "swap 4",
            4,
            "token (4, 0, 0), household 50, 1 portion: pledged to swap 5",
        ),
        (
            "swap 5",
            3,
            "token (3, 0, 0), household 40, 1 portion: pledged to swap 4",
        ),
    ] {
        assert_eq!(reason(&page, swap), [no(pantry, tokens)]);
    }
}

/// What is pledged stays so after an abort; what is committed has moved.
#[test]
fn the_pantries_of_the_week_of_conflicts() {
    let page = stored("conflict");
    let rows = |pantry, class| -> Vec<String> {
        let section = page.one(&format!("#pantry-{pantry}"));
        let rows = shown(section, class).into_iter();
        rows.map(|(cells, _)| cells.join(" | ")).collect()
    };
    assert_eq!(rows(0, "tokens"), ["(0, 1, 1) | 20 | 2 | –"]);
    assert_eq!(rows(1, "tokens"), ["(1, 1, 0) | 10 | 3 | –"]);
    assert_eq!(rows(2, "tokens"), ["(2, 0, 0) | 30 | 2 | swap 2"]);
    assert_eq!(rows(7, "tokens"), [""; 0]);
    let known = ["swap 2 | 0 no, 2 yes | ABORT", "swap 3 | 2 no | ABORT"];
    assert_eq!(rows(2, "known"), known);
    let known = ["swap 1 | 0 yes, 1 yes | COMMIT"];
    assert_eq!(rows(1, "known"), known);
    assert_eq!(rows(7, "known"), [""; 0]);
}

/// Brought registrations count in the serial order; another swap of number 5
/// waits for a pantry that cannot know it.
#[test]
fn the_week_of_brought_swaps() {
    let page = stored("brought");
    let serial = [
        ("swap 1".into(), vec![10]),
        ("swap 2".into(), vec![18]),
        ("swap 4".into(), vec![32]),
        ("swap 5".into(), vec![35]),
        ("swap 7".into(), vec![43]),
    ];
    assert_eq!(committed(&page), serial);
    let undecided = [
        "Undecided: no pantry said no.",
        "Pantry 2 has not heard the vote of pantry 6.",
        "Pantry 6 does not know it. Refused at step 38 (line 81), 7: number known here for a \
         different swap.",
    ];
    assert_eq!(reason(&page, "swap 5-2"), undecided);
    let tokens = "token (7, 0, 0), household 80, 1 portion: not held";
    assert_eq!(reason(&page, "swap 6"), [no(7, tokens)]);
}

/// Swaps that were held off for some time have other reasons in the end.
#[test]
fn the_week_of_swaps_held_off() {
    let page = stored("held-off");
    let tokens = "token (1, 1, 0), household 21, 2 portions: other household";
    assert_eq!(reason(&page, "swap 3"), [no(1, tokens)]);
    let tokens = "token (1, 1, 0), household 20, 1 portion: other portions";
    assert_eq!(reason(&page, "swap 4"), [no(1, tokens)]);
    let tokens = "token (3, 6, 0), household 50, 2 portions: not held";
    assert_eq!(reason(&page, "swap 7"), [no(3, tokens)]);
    let undecided = [
        "Undecided: no pantry said no.",
        "Pantry 2 does not know it.",
        "Pantry 4 has not heard the votes of pantries 2 and 5.",
        "Pantry 5 does not know it.",
    ];
    assert_eq!(reason(&page, "swap 8"), undecided);
}

/// More than one spoilt input, and more than one pantry that said no.
#[test]
fn the_week_of_findings() {
    let page = stored("findings");
    let tokens = "token (0, 0, 9), household 11, 2 portions: not held; \
        token (0, 0, 1), household 10, 2 portions: other household; \
        token (0, 0, 2), household 12, 3 portions: other portions; \
        token (0, 0, 0), household 10, 3 portions: pledged to swap 1";
    assert_eq!(reason(&page, "swap 2"), [no(0, tokens)]);
    let noes = [
        no(
            0,
            "token (0, 0, 2), household 12, 4 portions: pledged to swap 3",
        ),
        no(
            1,
            "token (1, 0, 0), household 20, 5 portions: pledged to swap 3",
        ),
    ];
    assert_eq!(reason(&page, "swap 4"), noes);
}

/// Two swaps of one number, known nowhere or both committed.
#[test]
fn swaps_of_one_number() {
    let refused = "No pantry knows it. Refused at step 36 (line 147), 7: number known here for a \
        different swap.";
    assert_eq!(reason(&stored("full-swaps"), "swap 32-2"), [refused]);
    let page = stored("edge-numbers");
    let refused = "No pantry knows it. Refused at step 7 (line 17) and once more, 7: number known \
        here for a different swap. Refused at step 10 (line 20), 16: sender has not given this vote \
        on this swap.";
    assert_eq!(reason(&page, "swap 5-2"), [refused]);
    let serial = [
        ("swap 7".into(), vec![12]),
        ("swap 7-2".into(), vec![14]),
        ("swap 8".into(), vec![20]),
    ];
    assert_eq!(committed(&page), serial);
}

/// A swap that takes this pantry's opening token and gives it at another one.
fn passing(number: u32, from: u8, to: u8) -> String {
    format!(
        "opening pantry {from} position 0 household 10 portions 3\n\
         swap {number}\n  take pantry {from} opening 0 household 10 portions 3\n  \
         give pantry {to} household 20 portions 3\n"
    )
}

/// Neither the numbers nor the first registrations make the serial order, nor do
/// the votes.
#[test]
fn the_serial_order() {
    let swaps = [passing(5, 3, 4), passing(9, 0, 1), passing(2, 2, 2)].concat();
    let page = drawn(&format!(
        "{swaps}register 5 at 3\nregister 9 at 0\nregister 2 at 2\nregister 9 at 1\n\
         register 5 at 4\nvote yes on 5 from 3 to 4\nvote yes on 9 from 0 to 1\n"
    ));
    let serial = [
        ("swap 2".into(), vec![6]),
        ("swap 9".into(), vec![7]),
        ("swap 5".into(), vec![8]),
    ];
    assert_eq!(committed(&page), serial);
}

/// Held off to the end: the causes in the order in which they first came.
#[test]
fn a_swap_that_nobody_knows() {
    let page = drawn(
        "swap 1\n  take pantry 0 opening 0 household 10 portions 3\n  \
         give pantry 1 household 20 portions 3\n\
         swap 2\n  take pantry 1 swap 1 position 0 household 20 portions 3\n  \
         give pantry 1 household 30 portions 3\n\
         register 1 at 1\nregister 2 at 1\nvote yes on 2 from 1 to 1\nregister 2 at 1\n\
         register 2 at 1\n",
    );
    let refused = "No pantry knows it. Refused at step 2 (line 8) and 2 times more, 17: takes what \
        an undecided swap is to make here. Refused at step 3 (line 9), 16: sender has not given \
        this vote on this swap.";
    assert_eq!(reason(&page, "swap 2"), [refused]);
}
