//! Inputs longer than the program's buffer of 65,536 bytes.

use std::time::Instant;

use program::{CHUNKS, assert_same, encode_all, list};
use reference::{VOTE_LENGTH, listing};
use weeks::{ClusterStyle, Rng, SEED, Turns, cluster_week, cluster_week_of};

const BUFFER: usize = 65_536;
const MILLION: usize = 1_000_000;

/// A week of all shards, long enough to fill the buffer more than once.
fn long_week(number: u64) -> (Vec<u8>, Vec<usize>) {
    let rng = &mut Rng::new(SEED, number);
    let calls = 1_000 + 300 * number as usize % 1_500;
    let style = ClusterStyle {
        calls,
        shards: 8,
        mints: 12,
        amounts: 9_000,
        new: 10,
        due: 50,
        left_out: rng.pick(&[0, 3, 8]),
        damage: Some(50),
        turns: Turns::random(rng, calls),
    };
    encode_all(&cluster_week_of(rng, style))
}

#[test]
fn weeks_longer_than_the_buffer() {
    let mut straddling = 0;
    for number in 0..20 {
        let (bytes, starts) = long_week(number);
        assert!(bytes.len() > BUFFER, "{} bytes", bytes.len());
        straddling += usize::from(starts.binary_search(&BUFFER).is_err());
        let expected = listing(&bytes);
        // Every byte alone once only: it is slow.
        for chunk in &CHUNKS[usize::from(number != 0)..] {
            let name = format!("long week {number}, writes of {chunk}");
            assert_same(&list(&bytes, *chunk), &expected, &bytes, &name);
        }
    }
    assert!(straddling > 0, "no record stood across the buffer's end");
    println!("20 long weeks, {straddling} with a record across the buffer's end");
}

/// Input that ends at, or up to a record's length before or behind, the end of
/// the first buffer and of the second.
#[test]
fn ends_around_the_buffers_end() {
    let (bytes, _) = long_week(4);
    let mut inputs = 0;
    for middle in [BUFFER, 2 * BUFFER] {
        for length in middle - VOTE_LENGTH - 1..=middle + VOTE_LENGTH + 1 {
            let cut = &bytes[..length];
            let name = format!("long week 4, {length} bytes of it");
            assert_same(&list(cut, BUFFER + 1), &listing(cut), cut, &name);
            inputs += 1;
        }
    }
    println!("{inputs} inputs");
}

/// The shortest records, whose lines are many times as long as they are: one
/// buffer of input brings nine of text.
#[test]
fn turns_alone() {
    let turns = (0..100_000_u32).map(|turn| [4, (turn % 9) as u8]);
    let bytes: Vec<u8> = turns.flatten().collect();
    let expected = listing(&bytes);
    assert!(expected.len() > 9 * bytes.len(), "{}", expected.len());
    assert!(expected.starts_with(b"1 0 TURNED\n2 1 TURNED\n"));
    assert!(expected.ends_with(b"\n99999 - REFUSED 3\n100000 0 REFUSED 19\nTOTAL 0\n"));
    for chunk in &CHUNKS[1..] {
        let name = format!("turns alone, writes of {chunk}");
        assert_same(&list(&bytes, *chunk), &expected, &bytes, &name);
    }
}

/// Random weeks one behind the other, again and again: most calls are refused
/// once the first weeks have filled the shards.
#[test]
fn a_million_records() {
    let mut weeks = Vec::new();
    let mut number = 0;
    while weeks.len() < 20_000 {
        weeks.extend(cluster_week(&mut Rng::new(SEED, number)));
        number += 1;
    }
    weeks.truncate(20_000);
    let (bytes, _) = encode_all(&weeks);
    let bytes = bytes.repeat(MILLION / weeks.len());
    let expected = listing(&bytes);
    let start = Instant::now();
    let listed = list(&bytes, BUFFER + 1);
    let seconds = start.elapsed().as_secs_f64();
    assert_same(&listed, &expected, &bytes, "a million records");
    let lines = listed.iter().filter(|&&byte| byte == b'\n').count();
    assert_eq!(lines, MILLION + 1);
    println!(
        "a million records, {} bytes, in {seconds:.1} s",
        bytes.len()
    );
}
