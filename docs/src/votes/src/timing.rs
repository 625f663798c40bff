//! The readers compared, and then timed.

use std::hint::black_box;
use std::time::{Duration, Instant};

use crate::buffer::VOTE;
use crate::readers::Reader;

/// Sees that each vote is accepted, and every field of its answer the same by
/// all readers; else names the vote's place.
pub fn compare(readers: &[Reader], votes: &[u8]) -> Result<(), String> {
    for place in 0..votes.len() / VOTE {
        let rest = &votes[place * VOTE..];
        let answers = readers.iter().map(|reader| (reader.read)(rest));
        let answers: Vec<_> = answers.collect();
        for (reader, answer) in readers.iter().zip(&answers) {
            let name = reader.name;
            if *answer != answers[0] {
                let (first, expected) = (readers[0].name, &answers[0]);
                return Err(format!(
                    "vote {place}: {first} and {name} differ\n{expected:?}\n{answer:?}"
                ));
            }
            if answer.refusal != 0 || answer.taken != VOTE {
                return Err(format!("vote {place}: not accepted by {name}\n{answer:?}"));
            }
        }
    }
    Ok(())
}

/// What came out for one reader.
pub struct Timed {
    pub name: &'static str,
    /// The least time of all rounds.
    pub least: Duration,
    /// The sum of what was told of each record in a round.
    pub sum: u64,
}

/// Reads so many votes with each reader. They take turns, so that a slow spell
/// of the machine meets them all.
pub fn time(readers: &[Reader], votes: &[u8], count: usize, rounds: usize) -> Vec<Timed> {
    let fresh = |reader: &Reader| Timed {
        name: reader.name,
        least: Duration::MAX,
        sum: 0,
    };
    let mut timed: Vec<Timed> = readers.iter().map(fresh).collect();
    for _ in 0..rounds {
        for (reader, timed) in readers.iter().zip(&mut timed) {
            let start = Instant::now();
            timed.sum = black_box((reader.run)(black_box(votes), black_box(count)));
            timed.least = timed.least.min(start.elapsed());
        }
    }
    timed
}

/// Prints the least times for so many votes, each reader's ratio to the first
/// one's, and the sum; fails if the sums differ.
pub fn report(timed: &[Timed], count: usize) -> Result<(), String> {
    let (first, others) = timed.split_first().expect("a reader");
    for Timed { name, least, .. } in timed {
        let seconds = least.as_secs_f64();
        let (all, each) = (seconds * 1e3, seconds * 1e9 / count as f64);
        println!("{name:20} {all:9.3} ms {each:8.1} ns a vote");
    }
    for Timed { name, least, .. } in others {
        let ratio = least.as_secs_f64() / first.least.as_secs_f64();
        println!("{:20} {ratio:9.2}", format!("{name} / {}", first.name));
    }
    if others.iter().any(|timed| timed.sum != first.sum) {
        let sums: Vec<u64> = timed.iter().map(|timed| timed.sum).collect();
        return Err(format!("the sums differ: {sums:?}"));
    }
    println!("sums agree: {}", first.sum);
    Ok(())
}
