//! Starting the program, writing to it and reading from it.

use std::fs::{self, File};
use std::io::{self, ErrorKind, Read, Write};
use std::os::unix::process::ExitStatusExt;
use std::path::{Path, PathBuf};
use std::process::{Child, ChildStdin, Command, ExitStatus, Output, Stdio};
use std::sync::OnceLock;
use std::thread;
use std::time::{Duration, Instant};

/// Sizes of writes, so that the program meets records split anywhere, one
/// record at a time, and more than its buffer has room for.
pub const CHUNKS: [usize; 5] = [1, 7, 102, 4_096, 65_537];

/// Longer than anything here should take.
pub const PATIENCE: Duration = Duration::from_secs(20);

/// Input whose listing surely fits into a pipe (64 KiB), so that nobody has to
/// read while it is written: a line has 20 bytes or less for 2 of input.
const SHORT: usize = 6 * 1024;

/// The repository's root.
pub fn root() -> &'static Path {
    Path::new(concat!(env!("CARGO_MANIFEST_DIR"), "/../.."))
}

/// Where the proved program is. Panics, and says what to build, where it is
/// missing.
pub fn program() -> &'static Path {
    static PROGRAM: OnceLock<PathBuf> = OnceLock::new();
    PROGRAM.get_or_init(|| {
        let program = root().join("target/bin/plankeeper");
        assert!(
            program.is_file(),
            "the proved listing program is not built: target/bin/plankeeper is missing; run \
             `tools/program` in the repository's root first"
        );
        program
    })
}

/// Starts the program with pipes at both ends.
pub fn spawn() -> Child {
    Command::new(program())
        .stdin(Stdio::piped())
        .stdout(Stdio::piped())
        .spawn()
        .expect("the program starts")
}

/// The process's input, which has to be a pipe; it ends where this is dropped.
pub fn stdin(child: &mut Child) -> ChildStdin {
    child.stdin.take().expect("the input is a pipe")
}

/// Hands the bytes to a process and gives all that it says. It may end before
/// it has read them.
pub fn fed(mut child: Child, bytes: &[u8]) -> Output {
    write_parts(&mut stdin(&mut child), bytes, 4_096);
    child.wait_with_output().expect("the process ends")
}

/// The program's whole output for these bytes, written so many at a time. It
/// has to end well.
pub fn list(bytes: &[u8], chunk: usize) -> Vec<u8> {
    let mut child = spawn();
    let mut stdin = stdin(&mut child);
    if bytes.len() <= SHORT {
        write_parts(&mut stdin, bytes, chunk);
        drop(stdin);
        return output(child);
    }
    thread::scope(|scope| {
        scope.spawn(move || write_parts(&mut stdin, bytes, chunk));
        output(child)
    })
}

/// As [`list`], but in two writes, the second only when the program has taken
/// the first and asks for more.
pub fn list_split(bytes: &[u8], place: usize) -> Vec<u8> {
    let (first, second) = bytes.split_at(place);
    let mut child = spawn();
    let mut stdin = stdin(&mut child);
    write_parts(&mut stdin, first, SHORT);
    wait_until_asleep(&child);
    write_parts(&mut stdin, second, SHORT);
    drop(stdin);
    output(child)
}

/// Writes the bytes so many at a time, until all are written or nobody reads
/// them any more: after an unknown kind the program need not read on.
pub fn write_parts(output: &mut impl Write, bytes: &[u8], chunk: usize) {
    for part in bytes.chunks(chunk) {
        match output.write_all(part) {
            Ok(()) => {}
            Err(error) if error.kind() == ErrorKind::BrokenPipe => return,
            Err(error) => panic!("the program's input cannot be written: {error}"),
        }
    }
}

/// All that the program prints. It has to end well, which is waited for.
pub fn output(mut child: Child) -> Vec<u8> {
    let mut text = Vec::new();
    let mut stdout = child.stdout.take().expect("the output is a pipe");
    stdout
        .read_to_end(&mut text)
        .expect("the program's output can be read");
    let status = child.wait().expect("the program ends");
    assert!(status.success(), "the program ended with {status}");
    text
}

/// Whether the process was ended by a write that nobody would read.
pub fn ends_by_closed_pipe(status: ExitStatus) -> bool {
    const SIGPIPE: i32 = 13;
    status.signal() == Some(SIGPIPE)
}

/// An output that takes nothing.
pub fn full_device() -> File {
    let full = File::options().write(true).open("/dev/full");
    full.expect("there is a device that is full")
}

/// Waits until the program sleeps. It prints when its own buffer is full or at
/// its end, so that before then it sleeps only when it waits for input.
pub fn wait_until_asleep(child: &Child) {
    let start = Instant::now();
    while state(child.id()).expect("the program is there") != 'S' {
        assert!(
            start.elapsed() < PATIENCE,
            "the program never asks for input"
        );
        thread::sleep(Duration::from_micros(20));
    }
}

/// The letter for the process's state: it stands behind the name, which is in
/// brackets.
fn state(process: u32) -> io::Result<char> {
    let line = fs::read_to_string(format!("/proc/{process}/stat"))?;
    let letter = line
        .rsplit_once(") ")
        .and_then(|(_, rest)| rest.chars().next());
    letter.ok_or_else(|| ErrorKind::InvalidData.into())
}

/// Waits for the program's end, but not for ever.
pub fn wait(child: &mut Child) -> ExitStatus {
    let start = Instant::now();
    loop {
        if let Some(status) = child.try_wait().expect("the program can be waited for") {
            return status;
        }
        if start.elapsed() > PATIENCE {
            child.kill().expect("the program can be ended");
            panic!("the program did not end");
        }
        thread::sleep(Duration::from_millis(1));
    }
}
