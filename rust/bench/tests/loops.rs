//! The benchmark's loops give one sum, on votes and on anything else.

use differential::{Rng, SEED, damage, encode, record, vote};

fn check(case: u64, bytes: &[u8], records: usize) {
    let expected = bench::read_votes(bytes, records);
    let answer = engine::probes::read_votes(bytes, records);
    assert_eq!(
        answer, expected,
        "seed {SEED:#x}, case {case}, {records} records"
    );
    assert_eq!(bench::read_votes_inlined(bytes, records), expected);
}

#[test]
fn sums_of_votes() {
    for case in 0..100 {
        let rng = &mut Rng::new(SEED, case);
        let votes = 1 + rng.below(20);
        let bytes: Vec<u8> = (0..votes).flat_map(|_| encode(&vote(rng))).collect();
        // Less than once through, exactly, and more than once.
        for records in [0, 1, votes - 1, votes, votes + 1, 3 * votes + 2] {
            check(case, &bytes, records);
        }
    }
}

#[test]
fn sums_of_mixed_records() {
    for case in 0..1000 {
        let rng = &mut Rng::new(SEED, case);
        let mut bytes = Vec::new();
        for _ in 0..rng.below(30) {
            let mut record = record(rng);
            if rng.once_in(2) {
                damage(rng, &mut record);
            }
            bytes.extend(encode(&record));
        }
        // Some end in a cut record or one of an unknown kind.
        match rng.below(3) {
            0 => bytes.extend(&encode(&vote(rng))[..50]),
            1 => bytes.extend([5, 6, 7]),
            _ => {}
        }
        for records in [0, 1, 7, 30, 100] {
            check(case, &bytes, records);
        }
    }
}
