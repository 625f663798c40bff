//! The records of a week one by one: their number, their texts, their lines, and
//! the swaps that they carry.

use std::fs;
use std::path::Path;

use reference::listing;
use weektext::{Carried, Entry, entries, entries_of_text, records, text};

fn of_text(text: &str) -> Vec<Entry> {
    entries_of_text(text.as_bytes()).expect("the text has no error")
}

/// The lines and the texts.
fn told(entries: &[Entry]) -> Vec<(usize, &str)> {
    let told = entries.iter().map(|entry| {
        let line = entry.line.expect("the week came as text");
        (line, &*entry.text)
    });
    told.collect()
}

/// The entries, as those of records.
fn without_lines(mut entries: Vec<Entry>) -> Vec<Entry> {
    for entry in &mut entries {
        entry.line = None;
    }
    entries
}

/// Names and texts of the stored weeks.
fn stored() -> Vec<(String, String)> {
    let folder = Path::new(env!("CARGO_MANIFEST_DIR")).join("../../weeks");
    let folder = fs::read_dir(folder).expect("there is a folder of weeks");
    let files = folder.map(|entry| entry.expect("the folder can be read").path());
    let texts = files.filter(|file| file.extension().is_some_and(|ending| ending == "txt"));
    let weeks = texts.map(|file| {
        let text = fs::read_to_string(&file).expect("the week can be read");
        (file.display().to_string(), text)
    });
    weeks.collect()
}

/// What stands on a line, without its comment and with one space between words.
fn words(line: &str) -> String {
    let words = line.split('#').next().expect("there is a first part");
    words.split_whitespace().collect::<Vec<_>>().join(" ")
}

/// As many as the listing has lines for records; each on a line that says it,
/// labels aside; the same ones as those of the records.
#[test]
fn every_stored_week() {
    let weeks = stored();
    assert!(weeks.len() > 20, "{} weeks", weeks.len());
    let mut compared = 0;
    for (name, text) in &weeks {
        let bytes = records(text.as_bytes()).expect("the week has no error");
        let found = of_text(text);
        let listing = String::from_utf8(listing(&bytes)).expect("a listing is ASCII");
        assert_eq!(found.len(), listing.lines().count() - 1, "{name}");
        let lines: Vec<&str> = text.lines().collect();
        for entry in &found {
            let line = entry.line.expect("the week came as text");
            let written = words(lines[line - 1]);
            if written.starts_with("bytes ") {
                continue;
            }
            let (record, label) = unlabelled(&written);
            assert_eq!(unlabelled(&entry.text).0, record, "{name}, line {line}");
            let named = label.map(|label| number_of(text, label));
            let carried = entry.swap.as_ref().map(|swap| swap.number);
            assert_eq!(carried, named, "{name}, line {line}");
            compared += 1;
        }
        assert_eq!(entries(&bytes), without_lines(found), "{name}");
    }
    assert!(compared > 800, "{compared} records");
}

/// A record's line with `LABEL` where a swap is named, and that label.
fn unlabelled(line: &str) -> (String, Option<&str>) {
    let words: Vec<&str> = line.split(' ').collect();
    match words[..] {
        ["register", label, "at", pantry] => (format!("register LABEL at {pantry}"), Some(label)),
        ["vote", verdict, "on", label, "from", sender, "to", pantry] => {
            let line = format!("vote {verdict} on LABEL from {sender} to {pantry}");
            (line, Some(label))
        }
        _ => (line.into(), None),
    }
}

/// The number of the swap that the text defines by this label.
fn number_of(text: &str, label: &str) -> u32 {
    let mut numbers = text.lines().filter_map(|line| {
        let words = words(line);
        let words: Vec<&str> = words.split(' ').collect();
        match words[..] {
            ["swap", number] if number == label => number.parse().ok(),
            ["swap", number, "as", given] if given == label => number.parse().ok(),
            _ => None,
        }
    });
    numbers.next().expect("the label is defined")
}

const SWAP: &str = "\
swap 8
  take pantry 0 opening 3 household 9 portions 4   # one
  take pantry 2 swap 7 position 1 household 9 portions 1
  give pantry 1 household 9 portions 5

swap 8 as other
  counts inputs 5 outputs 1
  take pantry 0 opening 3 household 9 portions 4
  give pantry 1 household 9 portions 4
";

#[test]
fn every_kind_of_record() {
    let week = SWAP.to_owned()
        + "register 8 at 9\n# nothing\n  opening pantry 255 position 1 household 0 portions 2\n\
           vote yes on other from 1 to 0\nvote no on 8 from 0 to 1\nvote 2 on 8 from 0 to 1\n\
           turn pantry 8\nregister other at 0";
    let found = of_text(&week);
    let expected = [
        (10, "register 8 at 9"),
        (12, "opening pantry 255 position 1 household 0 portions 2"),
        (13, "vote yes on 8-2 from 1 to 0"),
        (14, "vote no on 8 from 0 to 1"),
        (15, "vote 2 on 8 from 0 to 1"),
        (16, "turn pantry 8"),
        (17, "register 8-2 at 0"),
    ];
    assert_eq!(told(&found), expected);
    let bytes = records(week.as_bytes()).expect("the week has no error");
    let (first, other) = (&bytes[2..100], &bytes[115..213]);
    let swap = |place: usize| found[place].swap.as_ref();
    let expected = Carried {
        number: 8,
        label: "8".into(),
        fields: first.try_into().expect("these are 98 bytes"),
        takes: vec![
            "take pantry 0 opening 3 household 9 portions 4".into(),
            "take pantry 2 swap 7 position 1 household 9 portions 1".into(),
        ],
        gives: vec!["give pantry 1 household 9 portions 5".into()],
        counts: None,
    };
    assert_eq!(swap(0), Some(&expected));
    assert_eq!((swap(3), swap(4)), (Some(&expected), Some(&expected)));
    let expected = Carried {
        number: 8,
        label: "8-2".into(),
        fields: other.try_into().expect("these are 98 bytes"),
        takes: vec!["take pantry 0 opening 3 household 9 portions 4".into()],
        gives: vec!["give pantry 1 household 9 portions 4".into()],
        counts: Some("counts inputs 5 outputs 1".into()),
    };
    assert_eq!((swap(2), swap(6)), (Some(&expected), Some(&expected)));
    assert_eq!((swap(1), swap(5)), (None, None));
    assert_eq!(entries(&bytes), without_lines(found));
    // The text of the records has the same labels.
    for entry in entries(&bytes) {
        assert!(text(&bytes).lines().any(|line| line == entry.text));
    }
}

/// A record may begin in the middle of a line of bytes and go on over lines of
/// any kind, and a line may have several.
#[test]
fn records_in_lines_of_bytes() {
    let week = "\
bytes 04 00 04 01 04
bytes 02
# three turns so far, the third over two lines

bytes 03 01 02
bytes 00 00 00 09 00 00 00
bytes 05 04 07     # the opening's last byte
turn pantry 3
bytes 04
turn pantry 9
bytes 01
";
    let expected = [
        (1, "turn pantry 0"),
        (1, "turn pantry 1"),
        (1, "turn pantry 2"),
        (5, "opening pantry 1 position 2 household 9 portions 5"),
        (7, "turn pantry 7"),
        (8, "turn pantry 3"),
        // A byte 4, and the bytes 4 and 9 of the line behind it.
        (9, "turn pantry 4"),
        (10, "bytes 09 01"),
    ];
    assert_eq!(told(&of_text(week)), expected);
}

/// Behind what is no record all is one entry; behind whole records there is none.
#[test]
fn bytes_that_are_no_record() {
    let opening = "opening pantry 0 position 0 household 1 portions 1";
    let cases = [
        ("", vec![]),
        ("bytes 09 00", vec![(1, "bytes 09 00")]),
        ("bytes 00", vec![(1, "bytes 00")]),
        (
            "bytes 04 01 01",
            vec![(1, "turn pantry 1"), (1, "bytes 01")],
        ),
        ("\nbytes 03 01\nbytes 02", vec![(2, "bytes 03 01 02")]),
        (
            "turn pantry 1\nbytes 05\nopening pantry 0 position 0 household 1 portions 1",
            vec![
                (1, "turn pantry 1"),
                (2, "bytes 05 03 00 00 00 00 00 01 00 00 00 01"),
            ],
        ),
        (
            "bytes 05 01 02 03\nopening pantry 0 position 0 household 1 portions 1\nbytes 0f",
            vec![(1, "bytes 05 01 02 03 03 00 00 00 00 00 01 00 00 00 01 0f")],
        ),
        (
            "bytes 05 01 02 03\nopening pantry 0 position 0 household 1 portions 1\nturn pantry 1",
            vec![(
                1,
                "bytes 05 01 02 03 03 00 00 00 00 00 01 00 00 00 01 04 and 1 more",
            )],
        ),
    ];
    for (week, expected) in cases {
        let found = of_text(week);
        assert_eq!(told(&found), expected, "{week}");
        let bytes = records(week.as_bytes()).expect("the week has no error");
        assert_eq!(entries(&bytes), without_lines(found), "{week}");
    }
    let long = format!("bytes ff\n{}", format!("{opening}\n").repeat(1000));
    let [entry] = &of_text(&long)[..] else {
        panic!("there is one entry");
    };
    assert_eq!(entry.line, Some(1));
    assert!(entry.text.ends_with(" and 10985 more"), "{}", entry.text);
}

/// A record that is damaged has its text, and so has the swap that it carries.
#[test]
fn a_damaged_record() {
    let mut bytes = records((SWAP.to_owned() + "register 8 at 0").as_bytes()).expect("no error");
    bytes[7] = 0; // no outputs
    bytes[99] = 1; // and something in the last slot
    let [entry] = &entries(&bytes)[..] else {
        panic!("there is one entry");
    };
    assert_eq!((entry.line, &*entry.text), (None, "register 8 at 0"));
    let swap = entry.swap.as_ref().expect("it carries a swap");
    assert_eq!(swap.counts.as_deref(), Some("counts inputs 2 outputs 0"));
    assert_eq!((swap.takes.len(), swap.gives.len()), (2, 4));
    assert_eq!(swap.gives[3], "give pantry 0 household 0 portions 1");
    assert_eq!(swap.fields, bytes[2..]);
    // Cut by a byte, it carries none.
    let [cut] = &entries(&bytes[..99])[..] else {
        panic!("there is one entry");
    };
    assert!(cut.text.ends_with(" and 83 more"), "{}", cut.text);
    assert_eq!(cut.swap, None);
}

/// A byte order mark at the front has no line of its own.
#[test]
fn a_byte_order_mark() {
    let week = "\u{feff}turn pantry 1\nturn pantry 2\n";
    let expected = [(1, "turn pantry 1"), (2, "turn pantry 2")];
    assert_eq!(told(&of_text(week)), expected);
}

#[test]
fn an_error_in_the_text() {
    let week = b"turn pantry 1\nturn pantry x\n";
    let error = entries_of_text(week).expect_err("the text has an error");
    assert_eq!(Err(error), records(week));
}
