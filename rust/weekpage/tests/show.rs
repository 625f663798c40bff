//! `./show`: arguments, messages, exit status, and the page that it makes.

use std::fs;
use std::path::{Path, PathBuf};
use std::process::Output;

use program::{root, script, told, weeks};
use weekpage::{Week, page};
use weektext::{entries, entries_of_text};

/// `./show` with these arguments, in a folder of the tests' own.
fn show(arguments: &[&str], input: &[u8]) -> Output {
    script("show", &folder(), arguments, input)
}

fn folder() -> PathBuf {
    let folder = Path::new(env!("CARGO_TARGET_TMPDIR")).join("show");
    fs::create_dir_all(&folder).expect("there is room for the pages");
    folder
}

#[test]
fn help_and_bad_usage() {
    for help in ["--help", "-h"] {
        let output = show(&[help], b"");
        let (status, text, message) = told(&output);
        assert_eq!((status, message), (Some(0), ""));
        assert!(text.starts_with("usage: ./show [WEEK [OUT.html]]\n"));
    }
    for arguments in [
        &[""][..],
        &["--what"],
        &["--help", "a.html"],
        &["a.txt", "-"],
        &["a.txt", ""],
        &["a.txt", "--help"],
        &["a.txt", "a.html", "b.html"],
    ] {
        let output = show(arguments, b"");
        let (status, text, message) = told(&output);
        assert_eq!((status, text), (Some(2), ""), "{arguments:?}");
        assert!(message.starts_with("usage: "), "{arguments:?}: {message}");
    }
}

#[test]
fn weeks_and_pages_that_cannot_be() {
    let week = folder().join("own.txt");
    fs::write(&week, "").expect("the week can be written");
    fs::create_dir_all(folder().join("taken.html")).expect("there is room for a folder");
    for (arguments, sentence) in [
        (
            &["none.txt"][..],
            "'none.txt' is not there or cannot be read",
        ),
        (&["."], "'.' is a folder"),
        (&["own.txt", "own.txt"], "'own.txt' is the week itself"),
        (&["own.txt", "./own.txt"], "'./own.txt' is the week itself"),
        (&["own.txt", "taken.html"], "'taken.html' is a folder"),
        (
            &["own.txt", "none/own.html"],
            "'none/own.html' cannot be written; name another place for the page",
        ),
    ] {
        let output = show(arguments, b"");
        let message = format!("show: {sentence}\n");
        assert_eq!(told(&output), (Some(1), "", message.as_str()));
    }
}

/// The page that stands there, and which name it was given.
fn made(output: &Output, name: &str) -> String {
    assert_eq!(output.status.code(), Some(0), "{output:?}");
    assert_eq!(output.stdout, format!("{name}\n").as_bytes());
    fs::read_to_string(folder().join(name)).expect("the page is there")
}

/// A week as text, as records, from standard input and under another name: one
/// page, but for its title and, where there is no text, for the lines.
#[test]
fn the_page_of_a_week() {
    let stored = weeks().into_iter().find(|week| week.name == "damaged");
    let stored = stored.expect("there is a damaged week");
    let listing = String::from_utf8(stored.listing).expect("a listing is ASCII");
    let text = fs::read(root().join("weeks/damaged.txt")).expect("the week can be read");
    let written = entries_of_text(&text).expect("the text has no error");
    let read = |written| Week::read(&stored.bytes, &listing, written).expect("it is that week's");
    let (lined, bare) = (read(written), read(entries(&stored.bytes)));
    fs::write(folder().join("a & b.txt"), &text).expect("the week can be written");
    fs::write(folder().join("sent.records"), &stored.bytes).expect("so can its records");
    let cases: [(&[&str], &str, &str, &Week); 5] = [
        (&["a & b.txt"], "a & b.html", "a & b", &lined),
        (&["sent.records"], "sent.html", "sent", &bare),
        (&["-"], "week.html", "standard input", &lined),
        (&["/dev/stdin", "in.html"], "in.html", "stdin", &lined),
        (&["sent.records", "other.html"], "other.html", "sent", &bare),
    ];
    for (arguments, file, name, week) in cases {
        let output = show(arguments, &text);
        assert!(made(&output, file) == page(name, week), "{arguments:?}");
    }
    assert!(page("one", &lined) != page("one", &bare));
}

/// A text with an error makes no page, and leaves one that is there.
#[test]
fn a_week_with_an_error() {
    fs::write(folder().join("wrong.txt"), "open pantry 0\n").expect("it can be written");
    fs::write(folder().join("wrong.html"), "as it was").expect("so can the page");
    let output = show(&["wrong.txt"], b"");
    let (status, text, message) = told(&output);
    assert_eq!((status, text), (Some(1), ""));
    assert!(message.contains("week: wrong.txt: line 1"), "{message}");
    let left = fs::read_to_string(folder().join("wrong.html"));
    assert_eq!(left.expect("the page is there"), "as it was");
}
