//! The text that the listing program prints (document 01, 'The listing
//! program').

use std::io::{self, BufWriter, ErrorKind, Read, Write};

use crate::record::{Reading, Record, VOTE_LENGTH, read};
use crate::shard::{Answer, Done, LIMITS, Outcome, Verdict};
use crate::{Cluster, Refusal};

/// Bytes kept of the input, and of the text, at a time.
const BUFFER: usize = 64 * 1024;

/// The longest record. With so many bytes at hand, the reader's answer does not
/// depend on where the input was split.
const LONGEST: usize = VOTE_LENGTH;

/// Reads records from the input, runs a fresh cluster and writes a line for
/// each, then the total. Memory does not grow with the input.
pub fn list(input: impl Read, output: impl Write) -> io::Result<()> {
    let mut unread = Unread::new(input);
    let mut text = BufWriter::with_capacity(BUFFER, output);
    let mut cluster = Cluster::new(LIMITS);
    let mut step = 0_u64;
    loop {
        let bytes = unread.bytes()?;
        if bytes.is_empty() {
            break;
        }
        step += 1;
        let Reading { outcome, taken } = read(bytes);
        unread.take(taken);
        match outcome {
            Ok(record) => write_line(
                &mut text,
                step,
                Some(receiver(&record)),
                cluster.play(&record),
            )?,
            Err(refusal) => write_line(&mut text, step, None, Err(refusal))?,
        }
        // There is no record then, so nothing is known of where the next starts.
        if let Err(Refusal::UnknownKind | Refusal::TooShort) = outcome {
            break;
        }
    }
    writeln!(text, "TOTAL {}", cluster.total())?;
    text.flush()
}

/// The whole text for these bytes.
pub fn listing(bytes: &[u8]) -> Vec<u8> {
    let mut text = Vec::new();
    list(bytes, &mut text).expect("neither bytes nor a vector can fail");
    text
}

/// The bytes of the input that are still to be read as records.
struct Unread<R> {
    input: R,
    buffer: Vec<u8>,
    at: usize,
    end: usize,
    ended: bool,
}

impl<R: Read> Unread<R> {
    fn new(input: R) -> Self {
        Unread {
            input,
            buffer: vec![0; BUFFER],
            at: 0,
            end: 0,
            ended: false,
        }
    }

    /// Bytes from the current place on: as many as the longest record has, or
    /// all that are left.
    fn bytes(&mut self) -> io::Result<&[u8]> {
        while self.end - self.at < LONGEST && !self.ended {
            self.refill()?;
        }
        Ok(&self.buffer[self.at..self.end])
    }

    fn refill(&mut self) -> io::Result<()> {
        self.buffer.copy_within(self.at..self.end, 0);
        self.end -= self.at;
        self.at = 0;
        match self.input.read(&mut self.buffer[self.end..]) {
            Ok(0) => self.ended = true,
            Ok(more) => self.end += more,
            Err(error) if error.kind() == ErrorKind::Interrupted => {}
            Err(error) => return Err(error),
        }
        Ok(())
    }

    fn take(&mut self, bytes: usize) {
        self.at += bytes;
    }
}

fn receiver(record: &Record) -> u8 {
    match *record {
        Record::Register { receiver, .. }
        | Record::Vote { receiver, .. }
        | Record::Mint { receiver, .. }
        | Record::Turn { receiver } => receiver,
    }
}

/// Step, shard, words. No shard is shown for refusals 1 to 5.
fn write_line(
    text: &mut impl Write,
    step: u64,
    shard: Option<u8>,
    answer: Answer,
) -> io::Result<()> {
    let hidden = matches!(answer, Err(refusal) if refusal.number() <= 5);
    match shard {
        Some(number) if !hidden => write!(text, "{step} {number} ")?,
        _ => write!(text, "{step} - ")?,
    }
    match answer {
        Ok(done) => writeln!(text, "{}", words(done)),
        Err(refusal) => writeln!(text, "REFUSED {}", refusal.number()),
    }
}

fn words(done: Done) -> &'static str {
    use Outcome::{Abort, Commit, Wait};
    use Verdict::{No, Yes};
    match done {
        Done::Minted => "OPENED",
        // A transaction that a vote brings reads like one that was registered.
        Done::Registered { verdict, outcome } | Done::Brought { verdict, outcome } => {
            match (verdict, outcome) {
                (Yes, Wait) => "YES WAIT",
                (Yes, Commit) => "YES COMMIT",
                (Yes, Abort) => "YES ABORT",
                (No, Wait) => "NO WAIT",
                (No, Commit) => "NO COMMIT",
                (No, Abort) => "NO ABORT",
            }
        }
        Done::Heard(Wait) => "HEARD WAIT",
        Done::Heard(Commit) => "HEARD COMMIT",
        Done::Heard(Abort) => "HEARD ABORT",
        Done::Again(Wait) => "AGAIN WAIT",
        Done::Again(Commit) => "AGAIN COMMIT",
        Done::Again(Abort) => "AGAIN ABORT",
        Done::Turned => "TURNED",
    }
}
