//! Time for a call on a shard and on a cluster: the proved engine against the
//! reference, each handed what it takes; for clusters by kind of call too, and
//! for a question for findings; and the sizes of the states.

#![forbid(unsafe_code)]

use std::env;
use std::hint::black_box;
use std::mem::size_of;
use std::process::ExitCode;
use std::time::Duration;

use bench::findings::findings;
use bench::kinds::{KINDS, Kind, kinds};
use bench::ledgers::{Run, Week, engine_run, reference_run};
use plankeeper::boundary::{CLUSTER_WORDS, SHARD_WORDS};
use reference::{Known, LIMITS, Shard, Token};
use weeks::{ClusterStyle, Rng, SEED, ShardStyle, Turns, cluster_week_of, shard_week_of};

/// Weeks of each kind.
const WEEKS: u64 = 8;

type Loop = fn(&Week, usize) -> Run;

const LOOPS: [(&str, Loop); 2] = [("engine", engine_run), ("reference", reference_run)];

const SHARD: ShardStyle = ShardStyle {
    calls: 300,
    mints: 40,
    amounts: 60,
    local: 2,
    here: 4,
    damage: None,
    yes: 14,
    brought: 0,
    turns: Turns::NEVER,
};
const FULL_SHARD: ShardStyle = ShardStyle {
    calls: 500,
    mints: 122,
    ..SHARD
};
const CLUSTER: ClusterStyle = ClusterStyle {
    calls: 300,
    shards: 4,
    mints: 8,
    amounts: 40,
    new: 10,
    due: 55,
    left_out: 0,
    damage: None,
    turns: Turns::NEVER,
};
const FULL_CLUSTER: ClusterStyle = ClusterStyle {
    calls: 800,
    shards: 2,
    mints: 122,
    amounts: 60,
    ..CLUSTER
};

/// As `CLUSTER`, with all shards turned first.
const TURNED_CLUSTER: ClusterStyle = ClusterStyle {
    turns: Turns {
        all: Some(0),
        some: None,
    },
    ..CLUSTER
};

/// As `CLUSTER`, with each transaction registered at one shard and brought to
/// the others by votes.
const BROUGHT_CLUSTER: ClusterStyle = ClusterStyle {
    left_out: 8,
    ..CLUSTER
};

fn main() -> ExitCode {
    let arguments: Vec<String> = env::args().skip(1).collect();
    let (rounds, repeats) = match arguments.as_slice() {
        [] => (60, 15),
        [flag] if flag == "--smoke" => (2, 3),
        _ => {
            eprintln!("usage: ledgers [--smoke]");
            return ExitCode::FAILURE;
        }
    };
    let clusters = [
        ("cluster", CLUSTER),
        ("full cluster", FULL_CLUSTER),
        ("turned cluster", TURNED_CLUSTER),
        ("brought cluster", BROUGHT_CLUSTER),
    ]
    .map(|(name, style)| (name, weeks(|rng| cluster_of(rng, style))));
    let shards = [("shard", SHARD), ("full shard", FULL_SHARD)]
        .map(|(name, style)| (name, weeks(|rng| shard_of(rng, style))));

    println!("{WEEKS} weeks each, played {rounds} times, least of {repeats}; ns for a call");
    let mut agree = true;
    for (name, weeks) in shards.iter().chain(&clusters) {
        agree &= measure(name, weeks, rounds, repeats);
    }
    println!(
        "ns for a call by its kind, least of {} rounds",
        rounds * repeats
    );
    for (name, weeks) in &clusters {
        agree &= measure_kinds(name, weeks, rounds * repeats);
    }
    print_sizes();
    if !agree {
        return ExitCode::FAILURE;
    }
    println!("answers agree");
    ExitCode::SUCCESS
}

fn weeks(week: impl Fn(&mut Rng) -> Week) -> Vec<Week> {
    (0..WEEKS)
        .map(|number| week(&mut Rng::new(SEED, number)))
        .collect()
}

fn shard_of(rng: &mut Rng, style: ShardStyle) -> Week {
    let (number, records) = shard_week_of(rng, style);
    Week::new(Some(number), records)
}

fn cluster_of(rng: &mut Rng, style: ClusterStyle) -> Week {
    Week::new(None, cluster_week_of(rng, style))
}

/// Prints times and their ratio; tells whether the answers agree.
fn measure(name: &str, weeks: &[Week], rounds: usize, repeats: usize) -> bool {
    // The loops take turns, so that a slow spell of the machine meets both.
    let mut least = [Duration::MAX; LOOPS.len()];
    let mut folds = [0_u64; LOOPS.len()];
    for _ in 0..repeats {
        for (number, (_, run)) in LOOPS.iter().enumerate() {
            let mut time = Duration::ZERO;
            folds[number] = weeks.iter().fold(0, |fold, week| {
                let (codes, taken) = black_box(run(black_box(week), black_box(rounds)));
                time += taken;
                fold.wrapping_mul(31).wrapping_add(codes)
            });
            least[number] = least[number].min(time);
        }
    }

    let calls = weeks.iter().map(|week| week.calls.len()).sum::<usize>() * rounds;
    println!("{name} ({calls} calls)");
    for ((name, _), time) in LOOPS.iter().zip(least) {
        println!("  {name:18} {:7.1}", nanoseconds(time, calls));
    }
    println!("  engine / reference  {:6.2}", ratio(least));
    let agree = folds[0] == folds[1];
    if !agree {
        eprintln!("  the answers differ");
    }
    agree
}

/// Prints the times by kind; tells whether the answers agree.
fn measure_kinds(name: &str, weeks: &[Week], rounds: usize) -> bool {
    let (Some(kinds), Some(asked)) = (kinds(weeks, rounds), findings(weeks, rounds)) else {
        eprintln!("{name}: the answers differ");
        return false;
    };
    println!("{name:18}   calls   engine  reference  ratio");
    let row = |name: &str, Kind { calls, times }: Kind| {
        let [engine, reference] = times.map(|time| nanoseconds(time, calls));
        let ratio = ratio(times);
        println!("  {name:16} {calls:7} {engine:8.1} {reference:10.1} {ratio:6.2}");
    };
    let mut all = Kind::default();
    for (name, kind) in KINDS.iter().zip(kinds) {
        if kind.calls > 0 {
            row(name, kind);
        }
        all.calls += kind.calls;
        for (all, time) in all.times.iter_mut().zip(kind.times) {
            *all += time;
        }
    }
    row("all", all);
    row("findings asked", asked);
    true
}

fn nanoseconds(time: Duration, calls: usize) -> f64 {
    time.as_secs_f64() * 1e9 / calls as f64
}

fn ratio([engine, reference]: [Duration; 2]) -> f64 {
    engine.as_secs_f64() / reference.as_secs_f64()
}

fn print_sizes() {
    let shard = size_of::<Shard>()
        + LIMITS.tokens * size_of::<Token>()
        + LIMITS.transactions * size_of::<Known>()
        + usize::from(LIMITS.genesis);
    println!(
        "memory: shard {SHARD_WORDS} words ({} bytes), cluster {CLUSTER_WORDS} words ({} bytes); \
         the reference reserves {shard} bytes for a shard",
        SHARD_WORDS * 4,
        CLUSTER_WORDS * 4
    );
}
