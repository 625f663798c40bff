//! The header says what the library's source, its symbols and document 01 say.

use std::collections::BTreeMap;
use std::fs;

use clients::{Cause, Header, Prototype, exported, symbols};
use program::root;
use weeks::{CAUSES, DONE};

fn header_text() -> String {
    fs::read_to_string(root().join("include/plankeeper.h")).expect("the header can be read")
}

fn header() -> Header {
    Header::parse(&header_text())
}

fn by_name(functions: Vec<Prototype>) -> BTreeMap<String, String> {
    let count = functions.len();
    let named: BTreeMap<String, String> = functions
        .into_iter()
        .map(|function| (function.name.clone(), function.to_string()))
        .collect();
    assert_eq!(named.len(), count, "a function is declared twice");
    named
}

/// Every function, its result, and each parameter's type and name.
#[test]
fn declares_what_the_source_exports() {
    let declared = by_name(header().functions);
    let exported = exported(&root().join("crates/engine/src")).into_iter();
    let exported = by_name(exported.map(|export| export.prototype).collect());
    for (name, prototype) in &exported {
        assert_eq!(declared.get(name), Some(prototype), "{name}");
    }
    for name in declared.keys() {
        assert!(exported.contains_key(name), "{name} is not exported");
    }
}

#[test]
fn declares_what_the_library_defines() {
    let defined = symbols().into_iter();
    let defined: Vec<String> = defined
        .filter(|name| name.starts_with("plankeeper"))
        .collect();
    let declared: Vec<String> = by_name(header().functions).into_keys().collect();
    assert_eq!(declared, defined);
}

/// The answers' numbers by the definition, and their names by their labels.
fn answers() -> impl Iterator<Item = (String, u64)> {
    DONE.iter().map(|reply| {
        let name = reply.label.to_uppercase().replace(' ', "_");
        (name, reply.code.into())
    })
}

/// The refusals' numbers and names.
fn refusals() -> impl Iterator<Item = (String, u64)> {
    CAUSES
        .iter()
        .map(|cause| (format!("REFUSED_{}", cause.name), cause.reply.code.into()))
}

const SIZES: [(&str, u64); 17] = [
    ("WORDS", 8 * 2404),
    ("SHARD_WORDS", 4 + 128 + 128 * 5 + 32 * (43 + 8)),
    ("TRANSACTION_WORDS", 3 + 4 * 5 + 4 * 3),
    ("READING_WORDS", 7 + 35),
    ("TOKEN_WORDS", 5),
    ("KNOWN_WORDS", 35 + 8),
    ("FINDINGS_WORDS", 4 * 2),
    ("REGISTER_LENGTH", 2 + 98),
    ("VOTE_LENGTH", 4 + 98),
    ("MINT_LENGTH", 11),
    ("TURN_LENGTH", 2),
    ("SHARDS", 8),
    ("MAX_TOKENS", 128),
    ("MAX_KNOWN", 32),
    ("SLOTS", 4),
    ("GENESIS", 128),
    ("MAX_AMOUNT", 1_000_000),
];

/// Names whose numbers count up, from the first one's on.
const ROWS: [(u64, &str); 9] = [
    (0, "NUMBER INPUT_COUNT OUTPUT_COUNT"),
    (
        0,
        "TOKEN_CREATOR TOKEN_INDEX TOKEN_OWNER TOKEN_AMOUNT TOKEN_PLEDGE",
    ),
    (0, "SAID_NOTHING SAID_NO SAID_YES"),
    (
        0,
        "READING_KIND READING_RECEIVER READING_SENDER READING_VERDICT READING_INDEX \
         READING_OWNER READING_AMOUNT READING_TRANSACTION",
    ),
    (1, "KIND_REGISTER KIND_VOTE KIND_MINT KIND_TURN"),
    (0, "NO YES"),
    (0, "WAIT COMMIT ABORT UNKNOWN"),
    (1, "AVAILABLE NOT_HELD OTHER_OWNER OTHER_AMOUNT PLEDGED"),
    (700, "FOUND"),
];

/// Each name has its number, and there is no other name.
#[test]
fn every_number() {
    let mut expected: BTreeMap<String, u64> = answers().chain(refusals()).collect();
    expected.extend(SIZES.map(|(name, number)| (name.into(), number)));
    for (first, names) in ROWS {
        expected.extend(names.split(' ').map(str::to_owned).zip(first..));
    }
    let expected: BTreeMap<String, u64> = expected
        .into_iter()
        .map(|(name, number)| (format!("PLANKEEPER_{name}"), number))
        .collect();
    assert_eq!(header().numbers, expected);
}

/// Every answer that can be given has one name, and every refusal.
#[test]
fn every_answer_has_a_name() {
    let header = header();
    let numbers = |name: &str| -> Vec<u64> {
        let names = header.enums[name].iter();
        names.map(|name| header.numbers[name]).collect()
    };
    let refusals: Vec<u64> = refusals().map(|(_, number)| number).collect();
    assert_eq!(numbers("plankeeper_refusal"), refusals);
    let answers: Vec<u64> = answers().map(|(_, number)| number).collect();
    assert_eq!(numbers("plankeeper_answer"), answers);
}

#[test]
fn the_table_of_refusals() {
    let expected: Vec<Cause> = CAUSES
        .iter()
        .map(|cause| Cause {
            number: cause.reply.code as usize,
            givers: cause.letters(),
            sentence: cause.sentence.into(),
        })
        .collect();
    assert_eq!(header().causes, expected);
}

/// `header.c` tries every name, so that each is one that compiles.
#[test]
fn every_name_is_tried() {
    let header = header();
    let source = root().join("rust/clients/tests/header.c");
    let source = fs::read_to_string(source).expect("the program can be read");
    let words: Vec<&str> = source
        .split(|letter: char| !letter.is_alphanumeric() && letter != '_')
        .collect();
    let tried = |name: &str| {
        let refusal = name.strip_prefix("PLANKEEPER_REFUSED_");
        words.contains(&name) || refusal.is_some_and(|refusal| words.contains(&refusal))
    };
    let functions = header.functions.iter().map(|function| &function.name);
    let names = header.numbers.keys().chain(&header.macros).chain(functions);
    let missing: Vec<&String> = names.filter(|name| !tried(name)).collect();
    assert!(missing.is_empty(), "header.c never uses {missing:?}");
}

#[test]
fn lines_are_short() {
    for (line, number) in header_text().lines().zip(1..) {
        assert!(line.len() < 100 && line.is_ascii(), "line {number}: {line}");
    }
}
