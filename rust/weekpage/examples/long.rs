//! Writes the records of a long random week, so that a page of it can be timed:
//! 3,000 of them, or as many as the argument says.

use std::env;
use std::io::{self, Write};

use program::encode_all;
use weeks::{ClusterStyle, Rng, SEED, Turns, cluster_week_of};

fn main() -> io::Result<()> {
    let calls = env::args().nth(1).and_then(|calls| calls.parse().ok());
    let style = ClusterStyle {
        calls: calls.unwrap_or(3_000),
        shards: 8,
        mints: 20,
        amounts: 9_000,
        new: 8,
        due: 60,
        left_out: 2,
        damage: Some(200),
        turns: Turns::NEVER,
    };
    let records = cluster_week_of(&mut Rng::new(SEED, 0), style);
    let (bytes, _) = encode_all(&records);
    io::stdout().write_all(&bytes)
}
