//! The proved listing program as a process, fed through pipes, and inputs to try
//! on it. The tests beside this know the program by what it reads and prints
//! only.

#![forbid(unsafe_code)]
#![warn(missing_docs)]

mod inputs;
mod listed;
mod process;
mod scripts;
mod weeks;

pub use inputs::{DAMAGES, Input, encode_all, input};
pub use listed::{count_listing, listing_labels};
pub use process::{
    CHUNKS, PATIENCE, ends_by_closed_pipe, fed, full_device, list, list_split, output, program,
    root, spawn, stdin, wait, wait_until_asleep, write_parts,
};
pub use scripts::{script, told};
pub use weeks::{Week, example, votes_again, week_files, weeks};

use weektext::text;

/// Fails with what differs first, and with the week's text if it is short.
pub fn assert_same(listed: &[u8], expected: &[u8], bytes: &[u8], case: &str) {
    if listed == expected {
        return;
    }
    let mut lines = lines(listed).zip(lines(expected)).zip(1..);
    let difference = match lines.find(|((listed, expected), _)| listed != expected) {
        Some(((listed, expected), line)) => format!(
            "line {line} is '{}', not '{}'",
            listed.escape_ascii(),
            expected.escape_ascii()
        ),
        None => format!("{} bytes, not {}", listed.len(), expected.len()),
    };
    let week = if bytes.len() < 20_000 {
        text(bytes)
    } else {
        String::new()
    };
    panic!("{case}, {} bytes: {difference}\n{week}", bytes.len());
}

fn lines(text: &[u8]) -> impl Iterator<Item = &[u8]> {
    text.split(|&byte| byte == b'\n')
}
