//! `week`: weeks of records to and from text.

#![forbid(unsafe_code)]

use std::ffi::OsString;
use std::process::ExitCode;

use command::{Failure, contents, is_help, print, source};
use weektext::{records, text};

const HELP: &str = "\
week: weeks of records as text

  week records [FILE]   writes the records of a week's text
  week text [FILE]      writes the text of a week's records
  week --help           writes this

Reads FILE, or standard input where no file is named. A text is UTF-8, with or
without a byte order mark at its front. It has one record a line; # begins a
comment.

  opening pantry 0 position 0 household 10 portions 3

  swap 5                                  # the fields, once; no record yet
    take pantry 0 opening 0 household 10 portions 3
    take pantry 1 swap 4 position 2 household 20 portions 2
    give pantry 1 household 10 portions 3
    give pantry 0 household 20 portions 2

  register 5 at 0                         # to the receiving pantry
  vote yes on 5 from 1 to 0               # yes, no or the verdict's byte
  turn pantry 0                           # its aborts free their tokens from now on
  bytes 01 ff                             # any bytes, in hexadecimal digits

A second, different swap with the same number needs a label: 'swap 5 as b', and
then 'register b at 0'. Numbers are decimal and may be out of range, up to 255
for fields of one byte and 4294967295 for those of four. A swap's counts are
those of its lines, at most four of each, unless it has a line such as
'counts inputs 5 outputs 1'; lines beyond a count fill unused slots.

Exit status: 0; 1 if the text has an error or a file cannot be read or written;
2 bad usage. Where the text has an error, nothing is written.
";

const USAGE: &str = "usage: week records|text [FILE], or week --help";

fn main() -> ExitCode {
    command::main("week", USAGE, run)
}

fn run(arguments: &[OsString]) -> Result<(), Failure> {
    let (command, file) = match arguments {
        [help] if is_help(help) => return print(HELP.as_bytes()),
        [command] => (command, None),
        [command, file] => (command, Some(file.as_os_str())),
        _ => return Err(Failure::Usage),
    };
    match command.to_str() {
        Some("records") => {
            let week = contents(file)?;
            let wrong = |error| Failure::Message(format!("{}: {error}", source(file)));
            print(&records(&week).map_err(wrong)?)
        }
        Some("text") => print(text(&contents(file)?).as_bytes()),
        _ => Err(Failure::Usage),
    }
}
