//! Swaps whose records were all refused: each has its entry with what it takes and
//! gives and with every cause, and its rows can be chosen.

#[path = "common/by_hand.rs"]
mod by_hand;
mod common;
#[path = "common/drawn.rs"]
mod drawn;
#[path = "common/entries.rs"]
mod entries;
#[path = "common/stored.rs"]
mod stored;

use common::tree::Element;
use drawn::drawn;
use entries::{paragraphs, rows_behind, steps};
use stored::stored;

/// What cause 3 is for stewards.
const OUT_OF_RANGE: &str =
    "a field or count outside its range, a pantry above 7, or an unused slot not zero";

/// The entry of the swap of this name among those that did not commit.
fn entry<'a>(page: &'a Element, swap: &str) -> &'a Element {
    let mut rows = rows_behind(page, "others").into_iter();
    let row = rows.find(|row| row.one("th").text() == swap);
    row.unwrap_or_else(|| panic!("{swap} has no entry"))
}

/// The texts of its cells, line by line: takes, gives, pantries, why.
fn cells(page: &Element, swap: &str) -> Vec<Vec<String>> {
    let cells = entry(page, swap).elements().skip(1);
    cells.map(paragraphs).collect()
}

/// The reason that it has.
fn reason(page: &Element, swap: &str) -> Vec<String> {
    paragraphs(entry(page, swap).one("td.why"))
}

/// The steps of the rows that stand out where it is chosen.
fn rows(page: &Element, swap: &str) -> Vec<String> {
    let key = entry(page, swap).attribute("data-swap");
    let rows = page.select("table.lanes tr.record").into_iter();
    let own = rows.filter(|row| row.attribute("data-swap") == key);
    let steps = own.filter_map(|row| row.attribute("id"));
    steps.map(String::from).collect()
}

/// The swaps in the list of all, each with how it has ended.
fn list(page: &Element) -> Vec<String> {
    let items = page.select("#swaps li").into_iter();
    items.map(Element::text).collect()
}

/// A record of a swap that is at fault itself: with 3, 4 and 5.
#[test]
fn swaps_that_cannot_be_read() {
    let page = drawn(
        "opening pantry 0 position 0 household 10 portions 3\n\
         swap 1\n  take pantry 0 opening 0 household 0 portions 3\n  \
         give pantry 1 household 20 portions 3\n\
         swap 2\n  take pantry 0 opening 0 household 10 portions 3\n  \
         take pantry 0 opening 0 household 10 portions 3\n  \
         give pantry 1 household 20 portions 6\n\
         swap 3\n  take pantry 0 swap 9 position 1 household 10 portions 3\n  \
         give pantry 1 household 20 portions 4\n\
         register 1 at 0\nregister 2 at 0\nregister 3 at 0\nvote yes on 3 from 1 to 0\n\
         register 1 at 1\nregister 2 at 8\n",
    );
    let summary = "7 records, 6 of them refused. 3 swaps: 3 known nowhere. TOTAL 3";
    assert_eq!(page.one(".summary").text(), summary);
    let ends = [1, 2, 3].map(|number| format!("swap {number} known nowhere"));
    assert_eq!(list(&page), ends);
    let takes = "take pantry 0 opening 0 household 10 portions 3";
    for (swap, fields, why, steps) in [
        (
            "swap 1",
            [
                &["take pantry 0 opening 0 household 0 portions 3"][..],
                &["give pantry 1 household 20 portions 3"],
            ],
            format!("Refused at step 2 (line 12) and once more, 3: {OUT_OF_RANGE}."),
            vec!["step-2", "step-6"],
        ),
        (
            "swap 2",
            [&[takes, takes], &["give pantry 1 household 20 portions 6"]],
            format!(
                "Refused at step 3 (line 13), 4: one token named twice. \
                 Refused at step 7 (line 17), 3: {OUT_OF_RANGE}."
            ),
            vec!["step-3", "step-7"],
        ),
        (
            "swap 3",
            [
                &["take pantry 0 swap 9 position 1 household 10 portions 3"],
                &["give pantry 1 household 20 portions 4"],
            ],
            "Refused at step 4 (line 14) and once more, 5: the portions taken and given have \
             different sums."
                .into(),
            vec!["step-4", "step-5"],
        ),
    ] {
        let [takes, gives] = fields.map(|lines| lines.iter().map(|line| line.to_string()));
        let why = format!("No pantry knows it. {why}");
        let expected = [
            takes.collect(),
            gives.collect(),
            vec!["–".into()],
            vec![why],
        ];
        assert_eq!(cells(&page, swap), expected);
        assert_eq!(rows(&page, swap), steps);
    }
    let entry = entry(&page, "swap 2");
    assert_eq!(steps(entry), [3, 7]);
}

/// Counts that are not those of the lines are told, too.
#[test]
fn a_swap_with_wrong_counts() {
    let page = drawn(
        "swap 0\n  counts inputs 5 outputs 0\n  take pantry 255 opening 9 household 1 portions 2\n\
         register 0 at 0\n",
    );
    let lines = [
        "counts inputs 5 outputs 0",
        "take pantry 255 opening 9 household 1 portions 2",
    ];
    let cells = cells(&page, "swap 0");
    assert_eq!(cells[..3], [lines.to_vec(), vec![], vec!["–"]]);
    assert_eq!(list(&page), ["swap 0 known nowhere"]);
}

/// Takes a token of pantry 0 and gives it at pantry 1.
const PASSING: &str = "opening pantry 0 position 0 household 10 portions 3\n\
    swap 6\n  take pantry 0 opening 0 household 10 portions 3\n  \
    give pantry 1 household 20 portions 3\n";

/// A record may be at fault while its swap is not: then it is that swap's record,
/// before the swap is known and after.
#[test]
fn records_of_a_known_swap_that_cannot_be_read() {
    let page = drawn(&format!(
        "{PASSING}register 6 at 9\nvote 2 on 6 from 1 to 0\nregister 6 at 0\n\
         vote yes on 6 from 0 to 8\nregister 6 at 1\nvote yes on 6 from 1 to 0\n"
    ));
    assert_eq!(list(&page), ["swap 6 committed"]);
    let entries = rows_behind(&page, "committed");
    let [entry] = entries[..] else {
        panic!("there are {} entries", entries.len());
    };
    assert_eq!(entry.one("th").text(), "swap 6");
    let keys = page.select("table.lanes tr.record").into_iter();
    let keys: Vec<_> = keys.map(|row| row.attribute("data-swap")).collect();
    let key = entry.attribute("data-swap");
    assert_eq!(keys[0], None);
    assert_eq!(keys[1..], [key; 6]);
    assert!(rows_behind(&page, "others").is_empty());
}

/// Where such a record was the swap's only one at a pantry, the reason tells so.
#[test]
fn a_swap_that_waits_for_a_record_that_cannot_be_read() {
    let page = drawn(&format!(
        "{PASSING}register 6 at 0\nregister 6 at 9\nvote yes on 6 from 0 to 9\n\
         register 6 at 2\nvote no on 6 from 0 to 1\n"
    ));
    let expected = [
        "Undecided: no pantry said no.".into(),
        "Pantry 0 has not heard the vote of pantry 1.".into(),
        "Pantry 1 does not know it. Refused at step 6 (line 9), 16: sender has not given this \
         vote on this swap."
            .into(),
        format!(
            "Not every record reached a pantry. Refused at step 3 (line 6) and once more, 3: \
             {OUT_OF_RANGE}."
        ),
    ];
    assert_eq!(reason(&page, "swap 6"), expected);
}

/// A right swap that was sent to no pantry there is.
#[test]
fn a_swap_that_reached_no_pantry() {
    let page = drawn(&format!("{PASSING}register 6 at 9\n"));
    let expected = [
        vec!["take pantry 0 opening 0 household 10 portions 3".into()],
        vec!["give pantry 1 household 20 portions 3".into()],
        vec!["–".into()],
        vec![format!(
            "No pantry knows it. Refused at step 2 (line 5), 3: {OUT_OF_RANGE}."
        )],
    ];
    assert_eq!(cells(&page, "swap 6"), expected);
}

/// Read, and refused by the pantries: with 6, 7, 16 and 17.
#[test]
fn swaps_that_every_pantry_refuses() {
    let page = drawn(&format!(
        "{PASSING}swap 6 as other\n  take pantry 0 opening 0 household 10 portions 3\n  \
         give pantry 1 household 30 portions 3\n\
         swap 7\n  take pantry 1 swap 6 position 0 household 20 portions 3\n  \
         give pantry 1 household 30 portions 3\n\
         swap 8\n  take pantry 4 opening 0 household 40 portions 1\n  \
         give pantry 5 household 40 portions 1\n\
         swap 9\n  take pantry 4 opening 0 household 40 portions 2\n  \
         give pantry 5 household 40 portions 2\n\
         register 6 at 1\nregister other at 1\nregister 7 at 1\nregister 8 at 6\n\
         vote yes on 9 from 4 to 5\n"
    ));
    for (swap, step, line, cause, pantries) in [
        (
            "swap 6-2",
            3,
            18,
            "7: number known here for a different swap",
            &["pantry 0 not known", "pantry 1 not known"][..],
        ),
        (
            "swap 7",
            4,
            19,
            "17: takes what an undecided swap is to make here",
            &["pantry 1 not known"],
        ),
        (
            "swap 8",
            5,
            20,
            "6: receiver or sender not among the swap's pantries",
            &["pantry 4 not known", "pantry 5 not known"],
        ),
        (
            "swap 9",
            6,
            21,
            "16: sender has not given this vote on this swap",
            &["pantry 4 not known", "pantry 5 not known"],
        ),
    ] {
        let why = format!("No pantry knows it. Refused at step {step} (line {line}), {cause}.");
        let cells = cells(&page, swap);
        assert_eq!(cells[2..], [pantries.to_vec(), vec![&*why]], "{swap}");
        assert_eq!(rows(&page, swap), [format!("step-{step}")]);
    }
    let takes = &cells(&page, "swap 8")[0];
    assert_eq!(*takes, ["(4, 0, 0): household 40, 1 portion"]);
}

/// There is no room for it: with 9 and 10.
#[test]
fn swaps_that_find_no_room() {
    let mut text = String::new();
    for number in 1..=33 {
        text += &format!(
            "swap {number}\n  take pantry 1 opening 0 household 10 portions 3\n  \
             give pantry 0 household 10 portions 3\nregister {number} at 0\n"
        );
    }
    let full = "No pantry knows it. Refused at step 33 (line 132), 9: 32 swaps are known here \
        already.";
    assert_eq!(reason(&drawn(&text), "swap 33"), [full]);
    let full =
        "No pantry knows it. Refused at step 131 (line 144), 10: tokens here would pass 128.";
    assert_eq!(reason(&stored("full-tokens"), "swap 2"), [full]);
}

/// Swaps of one number are told apart whether they could be read or not, and have
/// their names in the order in which they first came.
#[test]
fn swaps_of_one_number() {
    let page = drawn(&format!(
        "{PASSING}swap 6 as odd\n  take pantry 0 opening 0 household 10 portions 3\n  \
         give pantry 1 household 20 portions 4\n\
         swap 6 as far\n  take pantry 4 opening 0 household 10 portions 3\n  \
         give pantry 4 household 20 portions 3\n\
         register odd at 0\nregister far at 4\nregister 6 at 0\nregister odd at 1\n"
    ));
    let ends = [
        "swap 6 known nowhere",
        "swap 6-2 aborted",
        "swap 6-3 undecided",
    ];
    assert_eq!(list(&page), ends);
    assert_eq!(rows(&page, "swap 6"), ["step-2", "step-5"]);
    assert_eq!(rows(&page, "swap 6-2"), ["step-3"]);
    assert_eq!(rows(&page, "swap 6-3"), ["step-4"]);
    let told = page.one("#step-4 td.told").text();
    assert_eq!(
        told,
        "registration of swap 6-3 at pantry 0: votes yes, waits"
    );
    let told = page.one("#pantry-0 table.tokens tbody tr").elements();
    let told: Vec<String> = told.map(Element::text).collect();
    assert_eq!(told, ["(0, 0, 0)", "10", "3", "swap 6-3"]);
}

/// A finding calls the swap by its name, too.
#[test]
fn pledged_to_the_second_of_a_number() {
    let page = drawn(&format!(
        "{PASSING}swap 6 as odd\n  take pantry 0 opening 0 household 10 portions 3\n  \
         give pantry 1 household 20 portions 4\n\
         swap 7\n  take pantry 0 opening 0 household 10 portions 3\n  \
         give pantry 0 household 30 portions 3\n\
         register odd at 0\nregister 6 at 0\nregister 7 at 0\n"
    ));
    let token = "token (0, 0, 0), household 10, 3 portions: pledged to swap 6-2";
    let said = format!("Pantry 0 said no – {token}");
    assert_eq!(reason(&page, "swap 7"), [said]);
    let told = page.one("#step-4 td.told").text();
    assert!(told.ends_with(token), "{told}");
}
