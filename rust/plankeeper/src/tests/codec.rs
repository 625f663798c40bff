//! Records written and read.

use super::story::{Told, cluster_story, encode, mint, register, transaction, turn};
use crate::{Record, Refusal, read, records};

/// Whether the reader and the writers refuse the record, by its answer's code.
fn refused((record, code): &Told) -> Result<Record, Refusal> {
    match code {
        3..=5 => Err(Refusal::from_number(*code as u8).expect("a refusal")),
        _ => Ok(*record),
    }
}

#[test]
fn records_are_written_and_read() {
    for told in &cluster_story() {
        let (record, expected) = (told.0, refused(told));
        let bytes = encode(&record);
        assert_eq!(record.to_bytes(), expected.map(|_| bytes.clone()));
        let mut lent = [0xEE; 110];
        let written = record.write(&mut lent);
        assert_eq!(written, expected.map(|_| bytes.len()));
        let (front, behind) = lent.split_at(written.unwrap_or(0));
        assert!(bytes.starts_with(front) && behind.iter().all(|&byte| byte == 0xEE));

        let longer = [&bytes[..], &[1, 2, 3]].concat();
        let reading = read(&longer);
        assert_eq!(reading.record, expected, "{record:?}");
        assert_eq!((reading.taken, reading.rest), (bytes.len(), &[1, 2, 3][..]));
    }
}

#[test]
fn a_buffer_that_is_too_short() {
    let five = transaction(5, &[(1, 0)], &[1]);
    for record in [mint(1, 2), register(1, five), turn(1)] {
        for room in 0..record.length() {
            let mut lent = vec![0xEE; room];
            assert_eq!(record.write(&mut lent), Err(Refusal::BufferTooShort));
            assert_eq!(lent, vec![0xEE; room]);
        }
    }
}

#[test]
fn records_one_after_the_other() {
    let story = cluster_story();
    let expected: Vec<_> = story.iter().map(refused).collect();
    let bytes: Vec<u8> = story
        .iter()
        .flat_map(|(record, _)| encode(record))
        .collect();
    assert!(records(&bytes).eq(expected.clone()));
    assert_eq!(records(&[]).next(), None);
    // What follows an unknown kind or a part of a record is not read.
    for (end, refusal) in [(9, Refusal::UnknownKind), (3, Refusal::TooShort)] {
        let ended = [&bytes[..], &[end], &[0; 9]].concat();
        let mut read = records(&ended);
        for &record in &expected {
            assert_eq!(read.next(), Some(record));
        }
        assert_eq!(read.rest().len(), 10);
        assert_eq!(read.next(), Some(Err(refusal)));
        assert_eq!((read.next(), read.rest()), (None, &[][..]));
    }
}
