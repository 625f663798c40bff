//! The reference's listing held to document 01, line by line; and a listing of
//! the same bytes however they arrive.

use std::io::{self, Read, Write};

#[path = "common/example.rs"]
mod example;
#[path = "common/records.rs"]
mod records;
#[path = "common/week.rs"]
mod week;

use reference::{Record, Transaction, decode, encode, list, listing, read, write};

use records::{mint, register, transaction};
use week::week;

fn vote(verdict: u8, sender: u8, receiver: u8, transaction: Transaction) -> Record {
    Record::Vote {
        receiver,
        sender,
        verdict,
        transaction,
    }
}

fn turn(receiver: u8) -> Record {
    Record::Turn { receiver }
}

fn bytes(records: &[Record]) -> Vec<u8> {
    let mut bytes = Vec::new();
    for record in records {
        encode(record, &mut bytes);
    }
    bytes
}

/// The listing of these bytes has these lines.
fn shows(bytes: &[u8], lines: &[&str]) {
    let mut expected = lines.join("\n");
    expected.push('\n');
    assert_eq!(String::from_utf8(listing(bytes)), Ok(expected));
}

/// Swap 5 of the worked example.
fn five() -> Transaction {
    transaction(
        5,
        &[(0, 0, 0, 10, 3), (1, 0, 0, 20, 2)],
        &[(1, 10, 3), (0, 20, 2)],
    )
}

fn example() -> [Record; 7] {
    [
        mint(0, 0, 10, 3),
        mint(1, 0, 20, 2),
        register(0, five()),
        register(1, five()),
        vote(1, 1, 0, five()),
        vote(1, 0, 1, five()),
        vote(1, 0, 1, five()),
    ]
}

const EXAMPLE: &str = "\
1 0 OPENED
2 1 OPENED
3 0 YES WAIT
4 1 YES WAIT
5 0 HEARD COMMIT
6 1 HEARD COMMIT
7 1 AGAIN COMMIT
TOTAL 5
";

#[test]
fn worked_example() {
    assert_eq!(listing(&bytes(&example())), EXAMPLE.as_bytes());
}

/// The example's bytes spelled out from the table of records, so that the
/// encoder is held to document 01 as well.
#[test]
fn worked_example_byte_by_byte() {
    assert_eq!(bytes(&example()), week());
    assert_eq!(listing(&week()), EXAMPLE.as_bytes());
}

#[test]
fn cut_after_line_5_the_total_is_4() {
    shows(
        &bytes(&example()[..5]),
        &[
            "1 0 OPENED",
            "2 1 OPENED",
            "3 0 YES WAIT",
            "4 1 YES WAIT",
            "5 0 HEARD COMMIT",
            "TOTAL 4",
        ],
    );
}

#[test]
fn empty_input() {
    shows(&[], &["TOTAL 0"]);
}

#[test]
fn bytes_99_and_100_of_kind_1() {
    let record = bytes(&[register(0, five())]);
    assert_eq!(record.len(), 100);
    shows(&record[..99], &["1 - REFUSED 2", "TOTAL 0"]);
    shows(&record, &["1 0 NO ABORT", "TOTAL 0"]);
}

/// Every cut of every kind is 2, and what was done before it stays.
#[test]
fn cut_records() {
    for record in [
        mint(0, 1, 10, 3),
        register(0, five()),
        vote(1, 1, 0, five()),
        turn(0),
    ] {
        let front = bytes(&[mint(7, 127, 10, 1_000_000)]);
        let whole = bytes(&[record]);
        for length in 1..whole.len() {
            let cut = [&front, &whole[..length]].concat();
            shows(&cut, &["1 7 OPENED", "2 - REFUSED 2", "TOTAL 1000000"]);
        }
    }
}

/// Nothing behind an unknown kind is read, however many bytes there are.
#[test]
fn unknown_kinds() {
    for kind in (0..=255).filter(|kind| !(1..=4).contains(kind)) {
        shows(&[kind], &["1 - REFUSED 1", "TOTAL 0"]);
        let front = bytes(&[mint(3, 0, 10, 4)]);
        let behind = bytes(&[mint(4, 0, 10, 5)]);
        let week = [&front[..], &[kind], &behind].concat();
        shows(&week, &["1 3 OPENED", "2 - REFUSED 1", "TOTAL 4"]);
    }
}

/// Refusals 3, 4 and 5 cost one line each, with "-" although a receiver is
/// named, and reading goes on behind them.
#[test]
fn damaged_records_in_the_middle() {
    let twice = transaction(6, &[(0, 0, 0, 10, 3); 2], &[(0, 10, 6)]);
    let unbalanced = transaction(6, &[(0, 0, 0, 10, 3)], &[(0, 10, 4)]);
    let mut nonzero_slot = five();
    nonzero_slot.outputs[3].amount = 1;
    let mut count = five();
    count.input_count = 5;
    shows(
        &bytes(&[
            mint(0, 0, 10, 3),
            mint(8, 0, 10, 3),
            mint(0, 128, 10, 3),
            mint(0, 1, 0, 3),
            mint(0, 1, 10, 0),
            mint(0, 1, 10, 1_000_001),
            register(0, twice),
            register(0, unbalanced),
            register(0, nonzero_slot),
            register(0, count),
            register(8, twice),
            vote(2, 1, 0, five()),
            vote(1, 8, 0, five()),
            vote(1, 0, 0, twice),
            vote(1, 0, 0, unbalanced),
            turn(8),
            turn(255),
            mint(0, 1, 20, 1_000_000),
        ]),
        &[
            "1 0 OPENED",
            "2 - REFUSED 3",
            "3 - REFUSED 3",
            "4 - REFUSED 3",
            "5 - REFUSED 3",
            "6 - REFUSED 3",
            "7 - REFUSED 4",
            "8 - REFUSED 5",
            "9 - REFUSED 3",
            "10 - REFUSED 3",
            "11 - REFUSED 3",
            "12 - REFUSED 3",
            "13 - REFUSED 3",
            "14 - REFUSED 4",
            "15 - REFUSED 5",
            "16 - REFUSED 3",
            "17 - REFUSED 3",
            "18 0 OPENED",
            "TOTAL 1000003",
        ],
    );
}

/// Order: 6, 16, 7 for votes; from 6 on the pantry is shown.
#[test]
fn votes_refused() {
    let other = transaction(5, &[(1, 0, 0, 20, 2)], &[(0, 20, 2)]);
    shows(
        &bytes(&[
            mint(0, 0, 10, 3),
            mint(1, 0, 20, 2),
            // No pantry of the swap: as the receiver, as the sender.
            vote(1, 0, 2, five()),
            vote(1, 2, 0, five()),
            // Known nowhere, so nobody has voted on it.
            vote(1, 1, 0, five()),
            register(1, five()),
            // What 1 has not given.
            vote(0, 1, 0, five()),
            // Another swap numbered 5 is known at 0.
            register(0, other),
            vote(1, 1, 0, five()),
            // Its own vote, and the other verdict.
            vote(1, 1, 1, five()),
            vote(0, 1, 1, five()),
        ]),
        &[
            "1 0 OPENED",
            "2 1 OPENED",
            "3 2 REFUSED 6",
            "4 0 REFUSED 6",
            "5 0 REFUSED 16",
            "6 1 YES WAIT",
            "7 0 REFUSED 16",
            "8 0 YES WAIT",
            "9 0 REFUSED 7",
            "10 1 AGAIN WAIT",
            "11 1 REFUSED 16",
            "TOTAL 5",
        ],
    );
}

/// Every way that a swap can end, and openings that come too late or twice.
#[test]
fn outcomes() {
    let lone = transaction(1, &[(6, 0, 9, 10, 3)], &[(6, 11, 3)]);
    let late = transaction(2, &[(6, 0, 9, 10, 3)], &[(6, 11, 3)]);
    let shared = transaction(3, &[(6, 0, 9, 10, 3)], &[(7, 11, 3)]);
    shows(
        &bytes(&[
            mint(6, 9, 10, 3),
            mint(6, 9, 10, 3),
            register(5, lone),
            register(6, lone),
            register(6, lone),
            register(6, Transaction { number: 1, ..late }),
            register(6, late),
            mint(6, 10, 10, 3),
            register(6, shared),
            register(7, shared),
            vote(0, 6, 7, shared),
            vote(0, 6, 7, shared),
            vote(1, 7, 6, shared),
            register(
                6,
                Transaction {
                    number: 1,
                    ..shared
                },
            ),
        ]),
        &[
            "1 6 OPENED",
            "2 6 REFUSED 14",
            "3 5 REFUSED 6",
            "4 6 YES COMMIT",
            "5 6 REFUSED 8",
            // The same fields but for its number: with that number the same swap.
            "6 6 REFUSED 8",
            "7 6 NO ABORT",
            "8 6 REFUSED 13",
            "9 6 NO ABORT",
            "10 7 YES WAIT",
            "11 7 HEARD ABORT",
            "12 7 AGAIN ABORT",
            "13 6 HEARD ABORT",
            "14 6 REFUSED 7",
            "TOTAL 3",
        ],
    );
}

/// A vote heard while others are missing.
#[test]
fn three_pantries() {
    let three = transaction(4, &[(0, 0, 0, 10, 3)], &[(1, 11, 1), (2, 12, 2)]);
    shows(
        &bytes(&[
            mint(0, 0, 10, 3),
            register(2, three),
            register(1, three),
            vote(1, 1, 2, three),
            vote(1, 1, 2, three),
            register(0, three),
            vote(1, 0, 2, three),
        ]),
        &[
            "1 0 OPENED",
            "2 2 YES WAIT",
            "3 1 YES WAIT",
            "4 2 HEARD WAIT",
            "5 2 AGAIN WAIT",
            "6 0 YES WAIT",
            "7 2 HEARD COMMIT",
            // 3 at pantry 0, which has not decided yet, and 2 made at pantry 2.
            "TOTAL 5",
        ],
    );
}

/// A swap close behind another. The pantry is shown, as for every refusal from 6
/// on.
#[test]
fn held_off() {
    let first = transaction(5, &[(0, 0, 0, 10, 3)], &[(1, 20, 3)]);
    let second = transaction(6, &[(1, 5, 0, 20, 3)], &[(1, 30, 3)]);
    shows(
        &bytes(&[
            mint(0, 0, 10, 3),
            register(0, first),
            register(1, first),
            register(1, second),
            vote(1, 0, 1, first),
            register(1, second),
        ]),
        &[
            "1 0 OPENED",
            "2 0 YES WAIT",
            "3 1 YES WAIT",
            "4 1 REFUSED 17",
            "5 1 HEARD COMMIT",
            "6 1 YES COMMIT",
            // 3 at pantry 0, which has not heard pantry 1, and 3 at pantry 1.
            "TOTAL 6",
        ],
    );
}

/// One no of three votes: the pantry's own and one that it hears. Later fresh
/// votes are heard, and the swap stays aborted.
#[test]
fn one_no() {
    let three = transaction(4, &[(0, 0, 0, 10, 3)], &[(1, 11, 1), (2, 12, 2)]);
    shows(
        &bytes(&[
            register(1, three),
            register(2, three),
            register(0, three),
            vote(0, 0, 1, three),
            vote(1, 2, 1, three),
            vote(1, 2, 1, three),
            vote(1, 2, 0, three),
            vote(1, 0, 1, three),
        ]),
        &[
            "1 1 YES WAIT",
            "2 2 YES WAIT",
            "3 0 NO ABORT",
            "4 1 HEARD ABORT",
            "5 1 HEARD ABORT",
            "6 1 AGAIN ABORT",
            "7 0 HEARD ABORT",
            "8 1 REFUSED 16",
            "TOTAL 0",
        ],
    );
}

/// A token bound by an abort comes free with the turn and is spent; the pantry is
/// shown, also where it is turned already.
#[test]
fn turned() {
    let bound = transaction(5, &[(0, 0, 0, 10, 3), (0, 0, 1, 10, 1)], &[(0, 20, 4)]);
    let vain = transaction(6, &[(0, 0, 0, 10, 3)], &[(0, 20, 3)]);
    let spent = transaction(7, &[(0, 0, 0, 10, 3)], &[(0, 20, 3)]);
    shows(
        &bytes(&[
            mint(0, 0, 10, 3),
            register(0, bound),
            register(0, vain),
            turn(0),
            turn(0),
            turn(7),
            register(0, spent),
        ]),
        &[
            "1 0 OPENED",
            "2 0 NO ABORT",
            "3 0 NO ABORT",
            "4 0 TURNED",
            "5 0 REFUSED 19",
            "6 7 TURNED",
            "7 0 YES COMMIT",
            "TOTAL 3",
        ],
    );
}

/// A vote brings its swap: the line has the receiver's own verdict and the
/// outcome after both. Pantry 2 has no token and votes no on swap 6, and so
/// does pantry 0, whose token is gone with swap 5.
#[test]
fn brought() {
    let inputs = [(2, 0, 0, 10, 3), (0, 0, 0, 10, 3)];
    let vain = transaction(6, &inputs, &[(3, 30, 6)]);
    shows(
        &bytes(&[
            mint(0, 0, 10, 3),
            mint(1, 0, 20, 2),
            register(1, five()),
            vote(1, 1, 0, five()),
            vote(1, 1, 0, five()),
            register(0, five()),
            vote(1, 0, 1, five()),
            register(3, vain),
            vote(1, 3, 2, vain),
            vote(0, 2, 0, vain),
            vote(0, 2, 3, vain),
        ]),
        &[
            "1 0 OPENED",
            "2 1 OPENED",
            "3 1 YES WAIT",
            "4 0 YES COMMIT",
            "5 0 AGAIN COMMIT",
            "6 0 REFUSED 8",
            "7 1 HEARD COMMIT",
            "8 3 YES WAIT",
            "9 2 NO ABORT",
            "10 0 NO ABORT",
            "11 3 HEARD ABORT",
            "TOTAL 5",
        ],
    );
}

/// The receiver's yes and the sender's no; and a vote that is held off, until
/// the swap before it is decided.
#[test]
fn brought_by_a_no_and_held_off() {
    let vain = transaction(6, &[(2, 0, 0, 10, 3)], &[(1, 30, 3)]);
    let first = transaction(7, &[(0, 0, 0, 10, 3)], &[(1, 10, 3)]);
    let second = transaction(8, &[(1, 7, 0, 10, 3)], &[(2, 20, 3)]);
    shows(
        &bytes(&[
            mint(0, 0, 10, 3),
            register(2, vain),
            vote(0, 2, 1, vain),
            register(1, first),
            register(2, second),
            vote(1, 2, 1, second),
            vote(1, 1, 0, first),
            vote(1, 0, 1, first),
            vote(1, 2, 1, second),
            vote(1, 1, 2, second),
        ]),
        &[
            "1 0 OPENED",
            "2 2 NO ABORT",
            "3 1 YES ABORT",
            "4 1 YES WAIT",
            "5 2 YES WAIT",
            "6 1 REFUSED 17",
            "7 0 YES COMMIT",
            "8 1 HEARD COMMIT",
            "9 1 YES COMMIT",
            "10 2 HEARD COMMIT",
            "TOTAL 3",
        ],
    );
}

#[test]
fn the_32nd_and_the_33rd_swap() {
    let give = |number| transaction(number, &[(1, 0, 0, 10, 3)], &[(0, 10, 3)]);
    let records: Vec<Record> = (1..=33).map(|number| register(0, give(number))).collect();
    let mut expected: Vec<String> = (1..=32).map(|step| format!("{step} 0 YES WAIT")).collect();
    expected.push("33 0 REFUSED 9".into());
    expected.push("TOTAL 0".into());
    let lines: Vec<&str> = expected.iter().map(String::as_str).collect();
    shows(&bytes(&records), &lines);
}

#[test]
fn tokens_127_and_128() {
    let mut records: Vec<Record> = (0..128).map(|index| mint(0, index, 10, 1)).collect();
    let change = transaction(1, &[(0, 0, 0, 10, 1)], &[(0, 11, 1)]);
    records.push(register(0, change));
    let text = String::from_utf8(listing(&bytes(&records))).expect("words are ASCII");
    assert!(text.ends_with("128 0 OPENED\n129 0 REFUSED 10\nTOTAL 128\n"));
    records.remove(127);
    let text = String::from_utf8(listing(&bytes(&records))).expect("words are ASCII");
    assert!(text.ends_with("127 0 OPENED\n128 0 YES COMMIT\nTOTAL 127\n"));
}

/// Gives so many bytes at a time, and is interrupted in between.
struct Drops<'a> {
    bytes: &'a [u8],
    size: usize,
    interrupted: bool,
}

impl Read for Drops<'_> {
    fn read(&mut self, buffer: &mut [u8]) -> io::Result<usize> {
        self.interrupted = !self.interrupted;
        if self.interrupted {
            return Err(io::ErrorKind::Interrupted.into());
        }
        let length = self.size.min(buffer.len());
        let mut part = self.bytes.take(length as u64);
        let count = part.read(buffer)?;
        self.bytes = &self.bytes[count..];
        Ok(count)
    }
}

/// Longer than the buffer, so that records stand across its end.
#[test]
fn the_same_text_however_the_bytes_arrive() {
    let mut week = bytes(&example());
    let votes = bytes(&[vote(1, 0, 1, five())]);
    for _ in 0..2_000 {
        week.extend(&votes);
    }
    week.extend(&votes[..101]);
    let whole = listing(&week);
    assert!(whole.ends_with(b"2007 1 AGAIN COMMIT\n2008 - REFUSED 2\nTOTAL 5\n"));
    for size in [1, 7, 102, 4_096, 65_537] {
        let mut text = Vec::new();
        let input = Drops {
            bytes: &week,
            size,
            interrupted: false,
        };
        list(input, &mut text).expect("nothing fails");
        assert!(text == whole, "{size} bytes at a time");
    }
}

/// Takes so many bytes and then no more.
struct Narrow(usize);

impl Write for Narrow {
    fn write(&mut self, bytes: &[u8]) -> io::Result<usize> {
        let taken = bytes.len().min(self.0);
        self.0 -= taken;
        Ok(taken)
    }

    fn flush(&mut self) -> io::Result<()> {
        Ok(())
    }
}

#[test]
fn a_failing_output_is_told() {
    assert!(list(&[][..], Narrow(8)).is_ok());
    assert!(list(&[][..], Narrow(7)).is_err());
}

/// `encode` and `decode` against the reader and the writer where those agree to
/// read and write, and against each other elsewhere.
#[test]
fn fields_in_range_and_out_of_it() {
    for record in example().into_iter().chain([turn(7)]) {
        let mut written = [0; 102];
        let length = write(&record, &mut written).expect("the record is valid");
        let encoded = bytes(&[record]);
        assert_eq!(encoded, written[..length]);
        assert_eq!(read(&encoded).outcome, Ok(record));
        assert_eq!(decode(&encoded), Some(record));
        assert_eq!(decode(&encoded[..length - 1]), None);
    }
    let mut strange = five();
    strange.input_count = 255;
    strange.outputs[3].owner = u32::MAX;
    for record in [
        register(9, strange),
        vote(7, 200, 255, strange),
        mint(99, 255, 0, u32::MAX),
        turn(8),
    ] {
        assert_eq!(decode(&bytes(&[record])), Some(record));
    }
    assert_eq!(decode(&[]), None);
    assert_eq!(decode(&[5; 200]), None);
}
