//! The text form: what each line stands for, each error, and that every byte
//! sequence has a text.

#[path = "../../reference/tests/common/example.rs"]
mod example;
#[path = "../../reference/tests/common/week.rs"]
mod week;

use reference::{MINT_LENGTH, Record, TURN_LENGTH, VOTE_LENGTH, decode, rest};
use weektext::{records, text};

use week::week;

const EXAMPLE: &str = "\
opening pantry 0 position 0 household 10 portions 3
opening pantry 1 position 0 household 20 portions 2

swap 5
  take pantry 0 opening 0 household 10 portions 3
  take pantry 1 opening 0 household 20 portions 2
  give pantry 1 household 10 portions 3
  give pantry 0 household 20 portions 2

register 5 at 0
register 5 at 1
vote yes on 5 from 1 to 0
vote yes on 5 from 0 to 1
vote yes on 5 from 0 to 1
";

/// The records of a text without errors.
fn bytes(text: &str) -> Vec<u8> {
    records(text.as_bytes()).expect("the text has no error")
}

/// The one record of a text.
fn record(text: &str) -> Record {
    let bytes = bytes(text);
    assert_eq!(rest(&bytes), []);
    decode(&bytes).expect("the text has one record")
}

#[test]
fn worked_example_both_ways() {
    assert_eq!(bytes(EXAMPLE), week());
    assert_eq!(text(&week()), EXAMPLE);
}

#[test]
fn comments_blanks_and_line_ends() {
    let same = EXAMPLE
        .replace('\n', " # why not\r\n\n\t \n# register 9 at 9\n")
        .replace("  ", "\t");
    assert_eq!(bytes(&same), week());
    assert_eq!(bytes(EXAMPLE.trim_end()), week());
    assert_eq!(bytes(""), []);
    assert_eq!(bytes("\n# nothing\n"), []);
    assert_eq!(text(&[]), "");
}

#[test]
fn a_swap_alone_is_no_record() {
    assert_eq!(
        bytes("swap 5\n take pantry 0 opening 0 household 1 portions 1"),
        []
    );
}

/// Fields of one byte up to 255 and of four up to 4294967295, whatever document
/// 01's ranges are.
#[test]
fn fields_out_of_range() {
    let opening = "opening pantry 255 position 128 household 0 portions 4294967295";
    assert_eq!(
        bytes(opening),
        [3, 255, 128, 0, 0, 0, 0, 255, 255, 255, 255]
    );
    let swap = "\
swap 0
  counts inputs 5 outputs 0
  take pantry 8 swap 4294967295 position 4 household 0 portions 0
  take pantry 1 swap 0 position 7 household 0 portions 0
  give pantry 9 household 0 portions 1000001
vote 2 on 0 from 8 to 255
";
    let Record::Vote {
        receiver: 255,
        sender: 8,
        verdict: 2,
        transaction,
    } = record(swap)
    else {
        panic!("the text has a vote");
    };
    assert_eq!(transaction.number, 0);
    assert_eq!((transaction.input_count, transaction.output_count), (5, 0));
    let [first, second, ..] = transaction.inputs;
    assert_eq!((first.token.shard, first.token.index), (8, 4));
    assert_eq!(first.token.creator, u32::MAX);
    // Making swap 0 stands for an opening.
    assert_eq!((second.token.creator, second.token.index), (0, 7));
    let [output, ..] = transaction.outputs;
    assert_eq!((output.shard, output.amount), (9, 1_000_001));
}

/// Labels tell swaps with one number apart; the number stays in the records.
#[test]
fn two_swaps_with_one_number() {
    let week = "\
swap 7
  take pantry 0 opening 0 household 10 portions 3
  give pantry 1 household 10 portions 3
swap 7 as b-2
  take pantry 2 opening 0 household 10 portions 3
  give pantry 3 household 10 portions 3
register 7 at 0
register b-2 at 2
";
    let bytes = bytes(week);
    let (first, second) = bytes.split_at(100);
    assert_eq!((first[..6].to_vec(), first[8]), (vec![1, 0, 0, 0, 0, 7], 0));
    assert_eq!(
        (second[..6].to_vec(), second[8]),
        (vec![1, 2, 0, 0, 0, 7], 2)
    );
    let shown = text(&bytes);
    assert!(shown.contains("\nswap 7 as 7-2\n"), "{shown}");
    assert!(shown.contains("\nregister 7-2 at 2\n"), "{shown}");
    assert_eq!(records(shown.as_bytes()), Ok(bytes));
}

/// The turn of a pantry, in range or out of it, and cut.
#[test]
fn turns() {
    let week = "turn pantry 0\nturn pantry 7\nturn pantry 255\n";
    assert_eq!(bytes(week), [4, 0, 4, 7, 4, 255]);
    assert_eq!(text(&[4, 0, 4, 7, 4, 255]), week);
    assert_eq!(record("turn pantry 3"), Record::Turn { receiver: 3 });
    assert_eq!(
        text(&[4]),
        "# a record of kind 4, cut: 1 of 2 bytes\nbytes 04\n"
    );
    // It ends a swap's lines.
    let between = "swap 5\nturn pantry 0\ntake pantry 0 opening 0 household 1 portions 1";
    assert!(records(between.as_bytes()).is_err());
}

#[test]
fn raw_bytes() {
    assert_eq!(
        bytes("bytes 01 ff Aa 00\nbytes 7f # more"),
        [1, 255, 170, 0, 127]
    );
    assert_eq!(text(&[9, 1, 2]), "# kind 9 is unknown\nbytes 09 01 02\n");
    assert_eq!(text(&[5, 0]), "# kind 5 is unknown\nbytes 05 00\n");
    assert_eq!(
        text(&[3, 1]),
        "# a record of kind 3, cut: 2 of 11 bytes\nbytes 03 01\n"
    );
}

/// Each error names the line, the field, what was expected and what is there.
#[test]
fn errors() {
    let swap = "swap 5\n";
    let take = "take pantry 0 opening 0 household 1 portions 1\n";
    let give = "give pantry 0 household 1 portions 1\n";
    let cases = [
        (
            "oping pantry 0".into(),
            "line 1: first word: expected opening, swap, take, give, counts, register, vote, turn \
             or bytes, found 'oping'",
        ),
        (
            "\n# a comment\nopening position 0".into(),
            "line 3: pantry: expected the word 'pantry', found 'position'",
        ),
        (
            "opening pantry".into(),
            "line 1: pantry: expected a number from 0 to 255, found the end of the line",
        ),
        (
            "opening pantry 256".into(),
            "line 1: pantry: expected a number from 0 to 255, found '256'",
        ),
        (
            "opening pantry 0 position -1".into(),
            "line 1: position: expected a number from 0 to 255, found '-1'",
        ),
        (
            "opening pantry 0 position 0 household +1".into(),
            "line 1: household: expected a number from 0 to 4294967295, found '+1'",
        ),
        (
            "opening pantry 0 position 0 household 1 portions x".into(),
            "line 1: portions: expected a number from 0 to 4294967295, found 'x'",
        ),
        (
            "opening pantry 0 position 0 household 1 portions 4294967296".into(),
            "line 1: portions: expected a number from 0 to 4294967295, found '4294967296'",
        ),
        (
            "opening pantry 0 position 0 household 1 # portions 2".into(),
            "line 1: portions: expected the word 'portions', found the end of the line",
        ),
        (
            "opening pantry 0 position 0 household 1 portions 2 3".into(),
            "line 1: end of the line: expected nothing more, found '3'",
        ),
        (
            "swap five".into(),
            "line 1: swap: expected a number from 0 to 4294967295, found 'five'",
        ),
        (
            "swap 5 b".into(),
            "line 1: swap: expected 'as' and a label, found 'b'",
        ),
        (
            "swap 5 as".into(),
            "line 1: label: expected letters, digits and hyphens that are not only a number, \
             found the end of the line",
        ),
        (
            "swap 5 as 6".into(),
            "line 1: label: expected letters, digits and hyphens that are not only a number, \
             found '6'",
        ),
        (
            "swap 5 as b'".into(),
            "line 1: label: expected letters, digits and hyphens that are not only a number, \
             found 'b\\''",
        ),
        (
            format!("{swap}{take}{swap}"),
            "line 3: swap: expected a label that line 1 has not given (swap 5 as LABEL), found '5'",
        ),
        (
            format!("{take}{swap}"),
            "line 1: take: expected a line 'swap NUMBER' above, found none",
        ),
        (
            format!("{swap}register 5 at 0\n{give}"),
            "line 3: give: expected a line 'swap NUMBER' above, found none",
        ),
        (
            "counts inputs 1 outputs 1".into(),
            "line 1: counts: expected a line 'swap NUMBER' above, found none",
        ),
        (
            format!("{swap}{take}{take}{take}{take}{take}"),
            "line 6: take: expected at most four in a swap, found a fifth",
        ),
        (
            format!("{swap}{give}{give}{give}{give}{give}"),
            "line 6: give: expected at most four in a swap, found a fifth",
        ),
        (
            format!("{swap}take pantry 0 position 0"),
            "line 2: token: expected 'opening' or 'swap', and its number, found 'position'",
        ),
        (
            format!("{swap}take pantry 0 opening 256"),
            "line 2: opening: expected a number from 0 to 255, found '256'",
        ),
        (
            format!("{swap}take pantry 0 swap b position 0"),
            "line 2: making swap: expected a number from 0 to 4294967295, found 'b'",
        ),
        (
            format!("{swap}take pantry 0 swap 4 household 0"),
            "line 2: position: expected the word 'position', found 'household'",
        ),
        (
            format!("{swap}counts 1 1"),
            "line 2: inputs: expected the word 'inputs', found '1'",
        ),
        (
            format!("{swap}counts inputs 1 outputs 256"),
            "line 2: outputs: expected a number from 0 to 255, found '256'",
        ),
        (
            format!("{swap}counts inputs 1 outputs 1\ncounts inputs 1 outputs 1"),
            "line 3: counts: expected one in a swap, found a second",
        ),
        (
            "register 5 at 0\nswap 5".into(),
            "line 1: swap: expected a swap defined above, found '5'",
        ),
        (
            "register".into(),
            "line 1: swap: expected a swap defined above, found the end of the line",
        ),
        (
            format!("{swap}register 5 to 0"),
            "line 2: receiving pantry: expected the word 'at', found 'to'",
        ),
        (
            format!("{swap}register 5 at here"),
            "line 2: receiving pantry: expected a number from 0 to 255, found 'here'",
        ),
        (
            "vote maybe on 5".into(),
            "line 1: verdict: expected yes, no or a number from 0 to 255, found 'maybe'",
        ),
        (
            "vote 256 on 5".into(),
            "line 1: verdict: expected yes, no or a number from 0 to 255, found '256'",
        ),
        (
            "vote yes for 5".into(),
            "line 1: swap: expected the word 'on', found 'for'",
        ),
        (
            "vote yes on 5 from 1 to 0".into(),
            "line 1: swap: expected a swap defined above, found '5'",
        ),
        (
            format!("{swap}vote yes on 5 to 0"),
            "line 2: sending pantry: expected the word 'from', found 'to'",
        ),
        (
            format!("{swap}vote yes on 5 from x"),
            "line 2: sending pantry: expected a number from 0 to 255, found 'x'",
        ),
        (
            format!("{swap}vote yes on 5 from 1 at 0"),
            "line 2: receiving pantry: expected the word 'to', found 'at'",
        ),
        (
            format!("{swap}vote yes on 5 from 1 to 300"),
            "line 2: receiving pantry: expected a number from 0 to 255, found '300'",
        ),
        (
            "turn".into(),
            "line 1: pantry: expected the word 'pantry', found the end of the line",
        ),
        (
            "turn 3".into(),
            "line 1: pantry: expected the word 'pantry', found '3'",
        ),
        (
            "turn pantry 256".into(),
            "line 1: pantry: expected a number from 0 to 255, found '256'",
        ),
        (
            "turn pantry 3 4".into(),
            "line 1: end of the line: expected nothing more, found '4'",
        ),
        (
            "bytes".into(),
            "line 1: bytes: expected two hexadecimal digits, found the end of the line",
        ),
        (
            "bytes 00 1".into(),
            "line 1: bytes: expected two hexadecimal digits, found '1'",
        ),
        (
            "bytes 0g".into(),
            "line 1: bytes: expected two hexadecimal digits, found '0g'",
        ),
        (
            "bytes +1".into(),
            "line 1: bytes: expected two hexadecimal digits, found '+1'",
        ),
        (
            format!("bytes {}", "0".repeat(41)),
            "line 1: bytes: expected two hexadecimal digits, found \
             '0000000000000000000000000000000000000000...'",
        ),
    ];
    for (week, message) in cases {
        let error = records(week.as_bytes()).expect_err(&week);
        assert_eq!(error.to_string(), message, "{week}");
    }
}

#[test]
fn text_that_is_none() {
    let error = records(b"# fine\nopening \xff").expect_err("no UTF-8");
    assert_eq!(
        error.to_string(),
        "line 2: text: expected UTF-8, found the byte ff"
    );
    assert_eq!(error.line(), 2);
}

/// Some editors put one in front of a text. Anywhere else it is a word's part.
#[test]
fn a_byte_order_mark() {
    assert_eq!(bytes(&format!("\u{feff}{EXAMPLE}")), week());
    assert_eq!(bytes("\u{feff}"), []);
    assert_eq!(bytes("\u{feff}\n# nothing\n"), []);
    assert_eq!(bytes("# \u{feff}\nturn pantry 1"), [4, 1]);
    for (week, message) in [
        (
            "\u{feff}\u{feff}turn pantry 1",
            "line 1: first word: expected opening, swap, take, give, counts, register, vote, turn \
             or bytes, found '\\u{feff}turn'",
        ),
        (
            "turn pantry 1\n\u{feff}turn pantry 2",
            "line 2: first word: expected opening, swap, take, give, counts, register, vote, turn \
             or bytes, found '\\u{feff}turn'",
        ),
        (
            "\u{feff}turn pantry\u{feff} 1",
            "line 1: pantry: expected the word 'pantry', found 'pantry\\u{feff}'",
        ),
    ] {
        let error = records(week.as_bytes()).expect_err(week);
        assert_eq!(error.to_string(), message);
    }
    // Not a whole one, and that of UTF-16.
    for (week, byte) in [(&b"\xef\xbbturn"[..], "ef"), (b"\xff\xfet\0", "ff")] {
        let error = records(week).expect_err("no UTF-8");
        let message = format!("line 1: text: expected UTF-8, found the byte {byte}");
        assert_eq!(error.to_string(), message);
    }
}

/// The bytes come back.
fn comes_back(bytes: &[u8]) {
    let text = text(bytes);
    assert!(records(text.as_bytes()).as_deref() == Ok(bytes), "{text}");
}

/// Every cut, every byte changed to every value.
#[test]
fn every_neighbour_of_the_example_comes_back() {
    let week = week();
    let (opening, swap, vote) = (
        &week[..MINT_LENGTH],
        &week[22..122],
        &week[222..][..VOTE_LENGTH],
    );
    let turn = &[4, 0][..TURN_LENGTH];
    for record in [opening, swap, vote, turn] {
        for place in 0..record.len() {
            comes_back(&record[..place]);
            for value in 0..=255 {
                let mut changed = record.to_vec();
                changed[place] = value;
                changed.extend(opening);
                comes_back(&changed);
            }
        }
    }
}

/// Random bytes, mostly in front of known kinds, with few values so that swaps
/// meet again and slots are zero.
#[test]
fn random_bytes_come_back() {
    let mut state = 1_u64;
    let mut next = move || {
        state = state
            .wrapping_mul(6_364_136_223_846_793_005)
            .wrapping_add(1);
        state >> 33
    };
    for _ in 0..20_000 {
        let length = next() % 600;
        let values = [2, 4, 256][next() as usize % 3];
        let mut bytes: Vec<u8> = (0..length).map(|_| (next() % values) as u8).collect();
        let mut place = 0;
        while place < bytes.len() {
            let kind = 1 + (next() % 4) as u8;
            bytes[place] = kind;
            place += [100, 102, 11, 2][usize::from(kind) - 1];
        }
        if next().is_multiple_of(4) && !bytes.is_empty() {
            let place = next() as usize % bytes.len();
            bytes[place] = next() as u8;
        }
        comes_back(&bytes);
    }
}
