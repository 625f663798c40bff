//! A week and a listing or a text that do not belong together are told apart, and so
//! are swaps that share a number.

#[path = "common/by_hand.rs"]
mod by_hand;

use by_hand::by_hand;
use program::weeks;
use weekpage::reading::{End, History};
use weekpage::{Mismatch, Week};
use weektext::{entries, entries_of_text};

/// Pantries 0 and 1 get a token each, pantry 0 one more.
const OPENINGS: &str = "opening pantry 0 position 0 household 10 portions 3\n\
    opening pantry 1 position 0 household 20 portions 2\n\
    opening pantry 0 position 1 household 10 portions 4\n";

/// What is wrong with this listing of the openings.
fn mismatch(listing: &str) -> Mismatch {
    let (bytes, _) = by_hand(OPENINGS);
    let mismatch = Week::read(&bytes, listing, entries(&bytes)).err();
    mismatch.unwrap_or_else(|| panic!("it was taken: {listing}"))
}

/// Listings, and what is wrong with each: a line, one too few, the total, one too
/// many, and one that should not be printed as it is.
const WRONG: [(&str, &str); 9] = [
    (
        "1 0 OPENED\n2 1 REFUSED 14\n3 0 OPENED\nTOTAL 9\n",
        "line 2 of the listing is '2 1 REFUSED 14', and the records give '2 1 OPENED'",
    ),
    (
        "1 0 OPENED\n3 0 OPENED\nTOTAL 9\n",
        "line 2 of the listing is '3 0 OPENED', and the records give '2 1 OPENED'",
    ),
    (
        "1 0 OPENED\n2 1 OPENED\n3 0 OPENED\nTOTAL 5\n",
        "line 4 of the listing is 'TOTAL 5', and the records give 'TOTAL 9'",
    ),
    (
        "1 0 OPENED\n2 1 OPENED\nTOTAL 5\n",
        "line 3 of the listing is 'TOTAL 5', and the records give '3 0 OPENED'",
    ),
    (
        "1 0 OPENED\n2 1 OPENED\n3 0 OPENED\n",
        "line 4 of the listing is nothing more, and the records give 'TOTAL 9'",
    ),
    (
        "",
        "line 1 of the listing is nothing more, and the records give '1 0 OPENED'",
    ),
    (
        "1 0 OPENED\n2 1 OPENED\n3 0 OPENED\n4 0 OPENED\nTOTAL 9\n",
        "line 4 of the listing is '4 0 OPENED', and the records give 'TOTAL 9'",
    ),
    (
        "1 0 OPENED\n2 1 OPENED\n3 0 OPENED\nTOTAL 9\nTOTAL 9\n",
        "line 5 of the listing is 'TOTAL 9', and the records give nothing more",
    ),
    (
        "1 0 OPENED\n2 1\tOPENED\u{1b}\n",
        "line 2 of the listing is '2 1\\tOPENED\\u{1b}', and the records give '2 1 OPENED'",
    ),
];

#[test]
fn listings_of_another_week() {
    for (listing, message) in WRONG {
        let expected = format!("{message}: they are not of one week");
        assert_eq!(mismatch(listing).to_string(), expected);
    }
}

/// The parts of what is told.
#[test]
fn what_a_mismatch_says() {
    let wrong = Mismatch::Listing {
        number: 2,
        listed: Some("2 1 YES WAIT".into()),
        played: Some("2 1 OPENED".into()),
    };
    assert_eq!(mismatch("1 0 OPENED\n2 1 YES WAIT\n"), wrong);
    let short = Mismatch::Listing {
        number: 2,
        listed: None,
        played: Some("2 1 OPENED".into()),
    };
    assert_eq!(mismatch("1 0 OPENED"), short);
}

/// Texts of other weeks than the openings: where the first record is that differs.
#[test]
fn texts_of_another_week() {
    let (bytes, listing) = by_hand(OPENINGS);
    let lines: Vec<&str> = OPENINGS.lines().collect();
    for (text, number) in [
        (OPENINGS.replacen("household 20", "household 21", 1), 2),
        (
            OPENINGS.replacen("opening pantry 1", "opening pantry 9", 1),
            2,
        ),
        (lines[..2].join("\n"), 3),
        (format!("{OPENINGS}turn pantry 0\n"), 4),
        (format!("{OPENINGS}bytes 07\n"), 4),
        (String::new(), 1),
    ] {
        let written = entries_of_text(text.as_bytes()).expect("the text has no error");
        let mismatch = Week::read(&bytes, &listing, written).err();
        assert_eq!(mismatch, Some(Mismatch::Text { number }), "{text}");
    }
    let told = Mismatch::Text { number: 3 }.to_string();
    let message = "record 3 of the text is not that of the records: they are not of one week";
    assert_eq!(told, message);
}

/// Records that are written alike may carry swaps that differ.
#[test]
fn a_text_with_another_swap() {
    let swap = |household: u32| {
        format!(
            "{OPENINGS}swap 7\n  take pantry 0 opening 0 household 10 portions 3\n  \
             give pantry 0 household {household} portions 3\nregister 7 at 0\n"
        )
    };
    let (bytes, listing) = by_hand(&swap(30));
    for (household, taken) in [(30, None), (31, Some(Mismatch::Text { number: 4 }))] {
        let written = entries_of_text(swap(household).as_bytes()).expect("it has no error");
        assert_eq!(Week::read(&bytes, &listing, written).err(), taken);
    }
}

/// With a text each record has its line, and without one none has.
#[test]
fn lines_of_a_text() {
    let text = OPENINGS.replace('\n', "\n\n# a comment\n");
    let (bytes, listing) = by_hand(&text);
    let written = entries_of_text(text.as_bytes()).expect("the text has no error");
    for (written, lines) in [
        (written, [Some(1), Some(4), Some(7)]),
        (entries(&bytes), [None; 3]),
    ] {
        let week = Week::read(&bytes, &listing, written).expect("they are of one week");
        let rows = week.rows.iter();
        let found: Vec<_> = rows.map(|row| (row.written, row.text.as_str())).collect();
        assert_eq!(
            found,
            Vec::from_iter(lines.into_iter().zip(OPENINGS.lines()))
        );
    }
}

/// Every stored week is taken with its own listing and records, and with no other's.
#[test]
fn every_week_has_its_own_listing() {
    let weeks = weeks();
    let text = |listing: &[u8]| String::from_utf8(listing.to_vec()).expect("it is ASCII");
    for week in &weeks {
        for other in &weeks {
            let (bytes, listing) = (&week.bytes, text(&other.listing));
            let taken = Week::read(bytes, &listing, entries(bytes)).is_ok();
            let same = week.listing == other.listing;
            assert_eq!(taken, same, "{} with {}", week.name, other.name);
            let listing = text(&week.listing);
            let taken = Week::read(bytes, &listing, entries(&other.bytes)).is_ok();
            let same = week.bytes == other.bytes;
            assert_eq!(taken, same, "{} written as {}", week.name, other.name);
        }
    }
}

/// A swap of number 7 that gives to this household, called so in the text.
fn seven(household: u32) -> String {
    format!(
        "swap 7 as s{household}\n  take pantry 0 opening 0 household 10 portions 3\n  \
         give pantry 0 household {household} portions 3\n"
    )
}

fn read(text: &str) -> Week {
    let (bytes, listing) = by_hand(text);
    let week = Week::read(&bytes, &listing, entries(&bytes));
    week.unwrap_or_else(|mismatch| panic!("{mismatch}"))
}

/// The first is registered and the others are refused; each is told of once, and
/// by the same name wherever it comes: by the label that texts have for it.
#[test]
fn many_swaps_of_one_number() {
    let mut text = String::new();
    for household in 1..=124 {
        text += &seven(household);
        text += &format!("register s{household} at 0\n");
    }
    let week = read(&(text + "register s3 at 0\nregister s1 at 0\n"));
    let names: Vec<&str> = week.histories.iter().map(|told| told.name()).collect();
    assert_eq!(names.len(), 124);
    assert_eq!(names[..3], ["7", "7-2", "7-3"]);
    assert_eq!(names[123], "7-124");
    for (name, row) in names.iter().zip(&week.rows) {
        assert_eq!(row.text, format!("register {name} at 0"));
    }
    assert_eq!(week.rows[124].text, "register 7-3 at 0");
    let about = |step: usize| week.rows[step - 1].about;
    assert_eq!((about(3), about(125)), (Some(2), Some(2)));
    assert_eq!((about(1), about(126)), (Some(0), Some(0)));
    let refused = |told: &History| -> Vec<(usize, u8)> {
        let refused = told.refused.iter();
        let refused = refused.map(|record| (record.step, record.refusal.number()));
        refused.collect()
    };
    assert_eq!(refused(&week.histories[0]), [(126, 8)]);
    assert_eq!(refused(&week.histories[2]), [(3, 7), (125, 7)]);
}

/// One number at separate pantries, for two swaps that both commit: each pantry
/// knows its own by it.
#[test]
fn two_swaps_of_one_number() {
    let week = read(
        "opening pantry 0 position 0 household 10 portions 3\n\
         opening pantry 4 position 0 household 40 portions 1\n\
         swap 7\n  take pantry 0 opening 0 household 10 portions 3\n  \
         give pantry 0 household 11 portions 3\n\
         swap 7 as far\n  take pantry 4 opening 0 household 40 portions 1\n  \
         give pantry 4 household 41 portions 1\n\
         register far at 4\nregister 7 at 0\nregister far at 0\n",
    );
    let names: Vec<&str> = week.histories.iter().map(|told| told.name()).collect();
    assert_eq!(names, ["7", "7-2"]);
    assert_eq!(week.known(4, 7), Some(0));
    assert_eq!(week.known(0, 7), Some(1));
    assert_eq!(week.known(1, 7), None);
    assert_eq!(week.known(0, 8), None);
    assert_eq!(week.committed(), [0, 1]);
    assert_eq!(week.ended(|end| end == End::Committed), [0, 1]);
    let registered: Vec<_> = week.histories.iter().map(|told| told.registered).collect();
    assert_eq!(registered, [Some(3), Some(4)]);
    assert_eq!(week.rows[4].line, "5 0 REFUSED 6");
    assert_eq!(week.rows[4].about, Some(0));
}
