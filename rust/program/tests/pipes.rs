//! Reads split at every place, and outputs that nobody reads or that cannot be
//! written: the program ends quietly.

use std::io::{Read, Write};
use std::os::unix::process::ExitStatusExt;
use std::process::{Command, ExitStatus, Stdio};
use std::time::Instant;

use program::{
    PATIENCE, assert_same, ends_by_closed_pipe, example, full_device, list_split, output, program,
    spawn, stdin, votes_again, wait, wait_until_asleep,
};
use reference::listing;

#[test]
fn the_example_split_at_every_byte() {
    let bytes = example();
    let expected = listing(&bytes);
    for place in 0..=bytes.len() {
        let name = format!("the example split at {place}");
        assert_same(&list_split(&bytes, place), &expected, &bytes, &name);
    }
    println!("{} splits", bytes.len() + 1);
}

/// The end of the input comes some time after the last record.
#[test]
fn an_input_that_stays_open() {
    let bytes = example();
    let mut child = spawn();
    let mut stdin = stdin(&mut child);
    stdin.write_all(&bytes).expect("the program reads");
    wait_until_asleep(&child);
    let before = child.try_wait().expect("the program can be waited for");
    assert_eq!(before, None, "it ended before its input did");
    drop(stdin);
    assert_eq!(output(child), listing(&bytes));
}

/// Document 01: after 1 or 2 it reads no further. So the program ends although
/// its input is still open, where more could come.
#[test]
fn an_unknown_kind_ends_an_open_input() {
    let mut child = spawn();
    let mut stdin = stdin(&mut child);
    stdin.write_all(&[9; 102]).expect("the program reads");
    assert!(wait(&mut child).success());
    assert_eq!(output(child), b"1 - REFUSED 1\nTOTAL 0\n");
    drop(stdin);
}

/// Starts the program by this command, gives nobody a way to read its output,
/// and checks that it ends without a word.
fn ends_quietly(command: &mut Command, stdout: Stdio) -> ExitStatus {
    let mut child = command
        .stdin(Stdio::piped())
        .stdout(stdout)
        .stderr(Stdio::piped())
        .spawn()
        .expect("the program starts");
    drop(child.stdout.take());
    let mut stdin = stdin(&mut child);
    // The input never ends, so that only the failed output can end the program;
    // its reader's end is noticed by the next write.
    let votes = votes_again(1_000);
    let week = [example(), votes.clone()].concat();
    stdin.write_all(&week).expect("the program reads");
    let start = Instant::now();
    while stdin.write_all(&votes).is_ok() {
        assert!(start.elapsed() < PATIENCE, "the program reads for ever");
    }
    let status = wait(&mut child);
    let mut message = String::new();
    let mut stderr = child.stderr.take().expect("its messages are a pipe");
    stderr
        .read_to_string(&mut message)
        .expect("messages are UTF-8");
    assert_eq!(message, "");
    status
}

#[test]
fn a_closed_output() {
    let status = ends_quietly(&mut Command::new(program()), Stdio::piped());
    assert!(status.success() || ends_by_closed_pipe(status), "{status}");
}

/// Where the signal is ignored, the write itself fails.
#[test]
fn a_closed_output_without_the_signal() {
    let mut shell = Command::new("sh");
    shell
        .arg("-c")
        .arg("trap '' PIPE; exec \"$0\"")
        .arg(program());
    let status = ends_quietly(&mut shell, Stdio::piped());
    assert_eq!(status.signal(), None, "{status}");
}

#[test]
fn a_full_device() {
    let status = ends_quietly(&mut Command::new(program()), full_device().into());
    assert_eq!(status.signal(), None, "{status}");
}

/// Few records: the one write is the last one.
#[test]
fn a_closed_output_at_the_end() {
    let mut child = spawn();
    drop(child.stdout.take());
    let written = stdin(&mut child).write_all(&example());
    written.expect("the program reads");
    let status = wait(&mut child);
    assert!(status.success() || ends_by_closed_pipe(status), "{status}");
}
