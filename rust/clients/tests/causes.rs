//! The causes of refusal read the same wherever a planner meets them: not every
//! one can come of a record, so they are looked up.

use std::fs;

use clients::Header;
use plankeeper::Refusal;
use program::root;
use weeks::CAUSES;

/// Document 01's, in the order of the numbers.
fn sentences() -> Vec<&'static str> {
    CAUSES.iter().map(|cause| cause.sentence).collect()
}

#[test]
fn every_sentence_in_rust() {
    let shown = Refusal::ALL.map(|refusal| refusal.to_string());
    assert_eq!(Vec::from(shown), sentences());
}

/// The header's name of a cause is the crate's, in capitals.
#[test]
fn every_name_in_both() {
    let header = fs::read_to_string(root().join("include/plankeeper.h")).expect("it can be read");
    let numbers = Header::parse(&header).numbers;
    for refusal in Refusal::ALL {
        let mut name = "PLANKEEPER_REFUSED".to_owned();
        for letter in format!("{refusal:?}").chars() {
            if letter.is_uppercase() {
                name.push('_');
            }
            name.push(letter.to_ascii_uppercase());
        }
        let number = u64::from(refusal.number());
        assert_eq!(numbers.get(&name), Some(&number), "{name}");
    }
}

#[test]
fn every_sentence_in_c() {
    let source = fs::read_to_string(root().join("examples/planner.c")).expect("it can be read");
    let (_, rest) = source.split_once("CAUSES[] = {\n").expect("it has them");
    let (table, _) = rest.split_once("\n};").expect("they end");
    let table: Vec<&str> = table
        .lines()
        .map(|line| line.trim().trim_matches([',', '"']))
        .collect();
    // By number; a number that is no refusal has none.
    let last = CAUSES.last().expect("there are causes").reply.code;
    let expected = (0..=last).map(|number| {
        let cause = CAUSES.iter().find(|cause| cause.reply.code == number);
        cause.map_or("", |cause| cause.sentence)
    });
    assert_eq!(table, Vec::from_iter(expected));
}

/// The rules' table of refusals is the header's, row by row: number, givers,
/// sentence.
#[test]
fn every_row_in_the_rules() {
    let rules = fs::read_to_string(root().join("docs/PROTOCOL.md")).expect("it can be read");
    let (_, table) = rules
        .split_once("| No. | Given by | Cause | Where |\n|---|---|---|---|\n")
        .expect("it has the table");
    let rows = table.lines().take_while(|line| !line.is_empty());
    let rows = rows.map(|line| {
        let cells: Vec<&str> = line.split('|').map(str::trim).collect();
        let [_, number, givers, sentence, _, _] = cells[..] else {
            panic!("a row has four cells: {line}");
        };
        let number = number.parse().expect("a refusal has a number");
        (number, givers.to_owned(), sentence.to_owned())
    });
    let header = fs::read_to_string(root().join("include/plankeeper.h")).expect("it can be read");
    let causes = Header::parse(&header).causes.into_iter();
    let causes = causes.map(|cause| (cause.number, cause.givers, cause.sentence));
    assert_eq!(Vec::from_iter(rows), Vec::from_iter(causes));
}
