//! `weekpage`: a week as one page.

#![forbid(unsafe_code)]

use std::ffi::{OsStr, OsString};
use std::process::ExitCode;

use command::{Failure, contents, is_help, print, source};
use weekpage::{Week, page, picture};
use weektext::{Entry, entries, entries_of_text};

const HELP: &str = "\
usage: weekpage NAME RECORDS LISTING [TEXT]
       weekpage --picture RECORDS LISTING

Prints a week as one HTML page that has this name, or the lanes alone as an SVG
picture. RECORDS is the file with the week's records, LISTING the one with what
the listing program prints for them, TEXT the one with the text that the records
were made of, where there is one: refused records are then shown with their lines
of it. `./show` makes all of them and then the page.

Exit status: 0; 1 if something cannot be read or written, or if the listing or the
text is not the records'; 2 bad usage.
";

fn main() -> ExitCode {
    command::main("weekpage", HELP, run)
}

fn run(arguments: &[OsString]) -> Result<(), Failure> {
    let text = match arguments {
        [help] if is_help(help) => HELP.into(),
        [flag, records, listing] if flag == "--picture" => picture(&week(records, listing, None)?),
        [name, records, listing] if is_name(name) => {
            page(&name.to_string_lossy(), &week(records, listing, None)?)
        }
        [name, records, listing, text] if is_name(name) => page(
            &name.to_string_lossy(),
            &week(records, listing, Some(text))?,
        ),
        _ => return Err(Failure::Usage),
    };
    print(text.as_bytes())
}

fn is_name(argument: &OsStr) -> bool {
    !argument.as_encoded_bytes().starts_with(b"-")
}

fn week(records: &OsStr, listing: &OsStr, text: Option<&OsString>) -> Result<Week, Failure> {
    let (bytes, listing) = (contents(Some(records))?, contents(Some(listing))?);
    let listing = String::from_utf8_lossy(&listing);
    let written = match text {
        Some(text) => entries_of(text)?,
        None => entries(&bytes),
    };
    let week = Week::read(&bytes, &listing, written);
    week.map_err(|mismatch| Failure::Message(mismatch.to_string()))
}

/// The records of the text in this file.
fn entries_of(file: &OsStr) -> Result<Vec<Entry>, Failure> {
    let entries = entries_of_text(&contents(Some(file))?);
    entries.map_err(|error| Failure::Message(format!("{}: {error}", source(Some(file)))))
}
