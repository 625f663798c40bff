//! What the commands for people share: arguments, files, standard output,
//! messages and exit status.

#![forbid(unsafe_code)]
#![warn(missing_docs)]

use std::ffi::{OsStr, OsString};
use std::io::{ErrorKind, Read, Write, stderr, stdin, stdout};
use std::process::ExitCode;
use std::{env, fs};

/// What ends a command early.
pub enum Failure {
    /// Bad usage: exit status 2, after what the command says of its usage.
    Usage,
    /// Anything else that is wrong: exit status 1, after this message.
    Message(String),
    /// Nobody reads any more, which is no mistake.
    ClosedPipe,
}

/// Runs a command with its arguments; messages begin with its name.
pub fn main(
    name: &str,
    usage: &str,
    run: impl FnOnce(&[OsString]) -> Result<(), Failure>,
) -> ExitCode {
    let arguments: Vec<OsString> = env::args_os().skip(1).collect();
    match run(&arguments) {
        Ok(()) | Err(Failure::ClosedPipe) => ExitCode::SUCCESS,
        Err(Failure::Message(message)) => {
            complain(&format!("{name}: {message}"));
            ExitCode::FAILURE
        }
        Err(Failure::Usage) => {
            complain(usage.trim_end());
            ExitCode::from(2)
        }
    }
}

/// Whether help is asked for.
pub fn is_help(argument: &OsStr) -> bool {
    argument == "--help" || argument == "-h"
}

/// A message to a standard error that may be closed.
fn complain(message: &str) {
    let _ = writeln!(stderr(), "{message}");
}

/// What is read from: a file, or standard input where none is named.
pub fn source(file: Option<&OsStr>) -> String {
    file.map_or("standard input".into(), |file| file.display().to_string())
}

/// All that a file has, or standard input where none is named.
pub fn contents(file: Option<&OsStr>) -> Result<Vec<u8>, Failure> {
    let read = match file {
        Some(file) => fs::read(file),
        None => {
            let mut bytes = Vec::new();
            stdin().read_to_end(&mut bytes).map(|_| bytes)
        }
    };
    read.map_err(|error| Failure::Message(format!("{}: {error}", source(file))))
}

/// Writes all of it to standard output.
pub fn print(bytes: &[u8]) -> Result<(), Failure> {
    let written = stdout().write_all(bytes).and_then(|()| stdout().flush());
    written.map_err(|error| match error.kind() {
        ErrorKind::BrokenPipe => Failure::ClosedPipe,
        _ => Failure::Message(format!("standard output: {error}")),
    })
}
