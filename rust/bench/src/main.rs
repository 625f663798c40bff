//! Time to read and check votes: the proved engine against the reference.

#![forbid(unsafe_code)]

use std::env;
use std::hint::black_box;
use std::process::ExitCode;
use std::time::{Duration, Instant};

use differential::{Rng, SEED, encode, vote};

/// As many votes as 64 KiB hold.
const VOTES: u64 = 642;

type Loop = fn(&[u8], usize) -> u64;

const LOOPS: [(&str, Loop); 3] = [
    ("engine", engine::probes::read_votes),
    ("reference", bench::read_votes),
    ("reference, inlined", bench::read_votes_inlined),
];

fn main() -> ExitCode {
    let arguments: Vec<String> = env::args().skip(1).collect();
    let (records, rounds) = match arguments.as_slice() {
        [] => (1_000_000, 15),
        [flag] if flag == "--smoke" => (20_000, 3),
        _ => {
            eprintln!("usage: bench [--smoke]");
            return ExitCode::FAILURE;
        }
    };
    let bytes: Vec<u8> = (0..VOTES)
        .flat_map(|case| encode(&vote(&mut Rng::new(SEED, case))))
        .collect();
    println!(
        "{records} votes from a buffer of {VOTES} ({} bytes), least of {rounds} rounds each",
        bytes.len()
    );

    // The loops take turns, so that a slow spell of the machine meets them all.
    let mut least = [Duration::MAX; LOOPS.len()];
    let mut sums = [0; LOOPS.len()];
    for _ in 0..rounds {
        for (number, (_, run)) in LOOPS.iter().enumerate() {
            let start = Instant::now();
            sums[number] = black_box(run(black_box(&bytes), black_box(records)));
            least[number] = least[number].min(start.elapsed());
        }
    }

    for ((name, _), time) in LOOPS.iter().zip(least) {
        let each = time.as_secs_f64() * 1e9 / records as f64;
        println!(
            "{name:20} {:9.3} ms {each:8.1} ns each",
            time.as_secs_f64() * 1e3
        );
    }
    let [engine, reference, inlined] = least.map(|time| time.as_secs_f64());
    println!("engine / reference           {:.2}", engine / reference);
    println!("engine / reference, inlined  {:.2}", engine / inlined);
    if sums.iter().any(|&sum| sum != sums[0]) {
        eprintln!("the sums differ: {sums:?}");
        return ExitCode::FAILURE;
    }
    println!("sums agree: {}", sums[0]);
    ExitCode::SUCCESS
}
