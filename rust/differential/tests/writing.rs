//! Writing, compared on systematic records and buffers.

use differential::{
    Case, Rng, SEED, check_write, codec_answers, encode, mints_at_their_edges, numbered,
    records_with_every_front, sample_records,
};
use reference::Record;
use weeks::{Giver, Tally, refused};

/// Writes each record into buffers of every length up to ten more than it has,
/// and compares its refusal. Gives the counts.
fn every_room(records: Vec<(u8, Record)>) -> Tally {
    let mut tally = Tally::default();
    for (refusal, record) in records {
        let bytes = encode(&record);
        let rng = &mut Rng::new(SEED, bytes.len() as u64);
        for room in 0..=bytes.len() + 10 {
            let answer = check_write(&Case::new(room as u64, &bytes), &record, room, rng);
            let expected = with_room(refusal, room, &bytes);
            assert_eq!(answer, expected, "{room} bytes for {record:?}");
            tally.add(refused(answer));
        }
    }
    tally
}

/// The refusal where there is so much room for the record's bytes: any other
/// goes before a 15.
fn with_room(refusal: u8, room: usize, bytes: &[u8]) -> u8 {
    match refusal {
        0 if room < bytes.len() => 15,
        _ => refusal,
    }
}

#[test]
fn buffers_of_every_length() {
    let tally = every_room(sample_records());
    let title = "buffers of every length";
    tally.report(title, &codec_answers(Giver::Writer), 10);
}

#[test]
fn mints_at_their_edges_into_buffers_of_every_length() {
    let tally = every_room(mints_at_their_edges());
    tally.report("mints", &numbered(&[0, 3, 15]), 10);
}

#[test]
fn fields_in_front_of_the_transaction() {
    let rng = &mut Rng::new(SEED, 0);
    for (number, (refusal, record)) in (0..).zip(records_with_every_front()) {
        let bytes = encode(&record);
        let case = Case::new(number, &bytes);
        for room in [bytes.len(), bytes.len() - 1] {
            let answer = check_write(&case, &record, room, rng);
            let expected = with_room(refusal, room, &bytes);
            assert_eq!(answer, expected, "{room} bytes for {record:?}");
        }
    }
}
