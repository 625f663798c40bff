//! Random and damaged inputs: the program's output against the Rust listing.

use std::time::Instant;

use program::{CHUNKS, DAMAGES, assert_same, count_listing, input, list, listing_labels};
use reference::listing;
use weeks::{Giver, Tally, share_out, shown_for};

/// Each input gets a fresh process.
const INPUTS: u64 = 100_000;

/// A listing shows what the reader and the cluster answer.
const GIVERS: [Giver; 2] = [Giver::Reader, Giver::Cluster];

/// What the inputs brought. The bytes that kinds were changed to are counted
/// apart: they are 256.
#[derive(Default)]
struct Counts {
    all: Tally,
    kinds: Tally,
}

#[test]
fn random_and_damaged_inputs() {
    let start = Instant::now();
    let counts = share_out(INPUTS, |cases| {
        let mut counts = Counts::default();
        cases.for_each(|case| check(case, &mut counts));
        counts
    });
    let mut joined = Counts::default();
    for Counts { all, kinds } in counts {
        joined.all.join(all);
        joined.kinds.join(kinds);
    }
    let seconds = start.elapsed().as_secs_f64();
    let title = format!("{INPUTS} inputs in {seconds:.0} s");
    let [shown, never] = shown_for(&GIVERS);
    joined.all.report(&title, &expected(&shown), 1);
    joined.all.check_never(&title, &never);
    let kinds = (0..=255).map(|kind| format!("kind {kind}"));
    joined.kinds.check(&title, &Vec::from_iter(kinds), 1);
}

/// Lists the input of this number and compares.
fn check(case: u64, counts: &mut Counts) {
    let chunk = CHUNKS[case as usize % CHUNKS.len()];
    // Every byte alone is slow, so those inputs are short.
    let input = input(case, chunk == 1);
    let expected = listing(&input.bytes);
    let listed = list(&input.bytes, chunk);
    let name = format!("input {case} ({}), writes of {chunk}", input.damage);
    assert_same(&listed, &expected, &input.bytes, &name);
    count_listing(&mut counts.all, &listed);
    counts.all.add(input.damage);
    counts.all.add(&format!("writes of {chunk}"));
    if let Some(kind) = input.kind {
        counts.kinds.add(&format!("kind {kind}"));
    }
}

/// What has to be met, beside these words.
fn expected(words: &[&str]) -> Vec<String> {
    let words = words.iter().chain(&DAMAGES);
    let chunks = CHUNKS.map(|chunk| format!("writes of {chunk}"));
    let named = words.map(|&word| word.into()).chain(chunks);
    named.chain(listing_labels()).collect()
}
