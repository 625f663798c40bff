//! Time for a listing of many records, the proved program against the
//! reference, each a process that reads the same file; and the program's memory
//! for a small and for a large input.

#![forbid(unsafe_code)]

use std::env;
use std::fs::{self, File};
use std::io::{self, Write};
use std::os::fd::AsFd;
use std::path::Path;
use std::process::{Child, Command, ExitCode, Stdio};
use std::time::{Duration, Instant};

use program::{encode_all, list, program, stdin, wait, wait_until_asleep};
use reference::{Record, listing};
use weeks::{ClusterStyle, Rng, SEED, Turns, cluster_week_of};

/// Calls of the one week that the input is made of.
const WEEK: usize = 1_000;

/// Says to this same binary that it is to list its standard input with the
/// reference, so that both are timed as processes.
const REFERENCE: &str = "--reference";

fn main() -> ExitCode {
    let arguments: Vec<String> = env::args().skip(1).collect();
    let (records, repeats) = match arguments.as_slice() {
        [] => (1_000_000, 5),
        [flag] if flag == "--smoke" => (20_000, 2),
        [flag] if flag == REFERENCE => return list_with_reference(),
        _ => {
            eprintln!("usage: listing [--smoke]");
            return ExitCode::FAILURE;
        }
    };
    let week = week();
    let bytes = sent_again(&week, records);
    println!(
        "{records} records, {} bytes: a week of {WEEK} calls at all eight shards ({}), then all of \
         it sent again and again",
        bytes.len(),
        kinds(&week)
    );
    let text = listing(&bytes);
    println!(
        "refused: {} of the week's records, {} of all",
        refused(&listing(&sent_again(&week, WEEK))),
        refused(&text)
    );
    if list(&bytes, 65_536) != text {
        eprintln!("the listings differ");
        return ExitCode::FAILURE;
    }
    println!("the listings agree");
    if let Err(error) = measure(&bytes, records, repeats) {
        eprintln!("{error}");
        return ExitCode::FAILURE;
    }
    println!("peak resident memory of the program, in KiB");
    let few = sent_again(&week, 100);
    for (records, bytes) in [(100, few), (records, bytes)] {
        println!("  {records:9} records  {:9}", peak(&bytes));
    }
    ExitCode::SUCCESS
}

fn week() -> Vec<Record> {
    let style = ClusterStyle {
        calls: WEEK,
        shards: 8,
        mints: 10,
        amounts: 9_000,
        new: 8,
        due: 60,
        left_out: 0,
        damage: Some(200),
        turns: Turns::NEVER,
    };
    cluster_week_of(&mut Rng::new(SEED, 0), style)
}

/// The bytes of so many records: the week again and again.
fn sent_again(week: &[Record], records: usize) -> Vec<u8> {
    let (bytes, starts) = encode_all(week);
    let left = records % week.len();
    let mut all = bytes.repeat(records / week.len());
    all.extend(&bytes[..starts[left]]);
    all
}

fn kinds(week: &[Record]) -> String {
    let (mut mints, mut registrations, mut votes) = (0, 0, 0);
    for record in week {
        match record {
            Record::Mint { .. } => mints += 1,
            Record::Register { .. } => registrations += 1,
            Record::Vote { .. } => votes += 1,
            Record::Turn { .. } => unreachable!("the week turns no shard"),
        }
    }
    format!("{mints} genesis tokens, {registrations} registrations, {votes} votes")
}

fn refused(text: &[u8]) -> usize {
    let lines = text.split(|&byte| byte == b'\n');
    lines
        .filter(|line| line.windows(8).any(|word| word == b" REFUSED"))
        .count()
}

/// Lists standard input. Files instead of the standard streams, which would
/// buffer once more.
fn list_with_reference() -> ExitCode {
    let run = || {
        let input = File::from(io::stdin().as_fd().try_clone_to_owned()?);
        let output = File::from(io::stdout().as_fd().try_clone_to_owned()?);
        reference::list(input, output)
    };
    match run() {
        Ok(()) => ExitCode::SUCCESS,
        Err(_) => ExitCode::FAILURE,
    }
}

/// Prints both times: the least of several, taken in turn, so that a slow spell
/// of the machine meets both.
fn measure(bytes: &[u8], records: usize, repeats: usize) -> io::Result<()> {
    let file = env::temp_dir().join(format!("listing-{}.records", std::process::id()));
    fs::write(&file, bytes)?;
    let times = least(&file, repeats);
    fs::remove_file(&file)?;
    let [engine, reference] = times?.map(|time| time.as_secs_f64());
    println!("records per second, least time of {repeats}");
    for (name, time) in [("program", engine), ("reference", reference)] {
        println!(
            "  {name:18} {:12.0}   ({:.1} ns for a record)",
            records as f64 / time,
            time * 1e9 / records as f64
        );
    }
    println!("  program / reference, time  {:.2}", engine / reference);
    Ok(())
}

fn least(file: &Path, repeats: usize) -> io::Result<[Duration; 2]> {
    let mut least = [Duration::MAX; 2];
    for _ in 0..repeats {
        let mut reference = Command::new(env::current_exe()?);
        reference.arg(REFERENCE);
        for (command, least) in [Command::new(program()), reference]
            .iter_mut()
            .zip(&mut least)
        {
            *least = (*least).min(time(command, file)?);
        }
    }
    Ok(least)
}

/// From start to end of the process, with the file as its input.
fn time(command: &mut Command, file: &Path) -> io::Result<Duration> {
    command.stdin(File::open(file)?).stdout(Stdio::null());
    let start = Instant::now();
    let status = command.status()?;
    let time = start.elapsed();
    if status.success() {
        Ok(time)
    } else {
        Err(io::Error::other(format!("{command:?} ended with {status}")))
    }
}

/// The most memory that the program had once it had read all these bytes and
/// waited for more.
fn peak(bytes: &[u8]) -> u64 {
    let mut child = Command::new(program())
        .stdin(Stdio::piped())
        .stdout(Stdio::null())
        .spawn()
        .expect("the program starts");
    let mut stdin = stdin(&mut child);
    stdin.write_all(bytes).expect("the program reads");
    wait_until_asleep(&child);
    let peak = high_water(&child);
    drop(stdin);
    wait(&mut child);
    peak
}

fn high_water(child: &Child) -> u64 {
    let status = fs::read_to_string(format!("/proc/{}/status", child.id()))
        .expect("the program's status can be read");
    let line = status.lines().find_map(|line| line.strip_prefix("VmHWM:"));
    line.and_then(|line| line.trim().strip_suffix(" kB"))
        .and_then(|number| number.parse().ok())
        .expect("the status has a high-water mark")
}
