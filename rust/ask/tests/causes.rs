//! The causes of refusal as stewards read them.

use std::collections::BTreeSet;

use ask::cause;
use plankeeper::Refusal;

/// What document 01's table has in front of a sentence to say whose it is.
const FRONTS: [&str; 8] = [
    "kind 1 or 2: ",
    "kind 1: ",
    "kind 2: ",
    "kind 3: ",
    "kind 4: ",
    "round, kind 2: ",
    "findings: ",
    "writer: ",
];

/// The table's sentence without its front.
fn bare(refusal: Refusal) -> String {
    let sentence = refusal.to_string();
    let bare = FRONTS.iter().find_map(|front| sentence.strip_prefix(front));
    bare.unwrap_or(&sentence).into()
}

#[test]
fn no_kinds_of_record_and_all_different() {
    let causes = Refusal::ALL.map(cause);
    for cause in causes {
        assert!(!cause.is_empty() && !cause.contains(':'), "{cause}");
        assert!(!cause.contains("kind ") || cause == "no such kind of record");
        assert!(!cause.contains("without words"), "{cause}");
    }
    let different: BTreeSet<&str> = causes.into();
    assert_eq!(different.len(), Refusal::ALL.len());
}

/// The table's sentences, but for those that alone say too little.
#[test]
fn the_sentences_of_the_table() {
    let others: [(u8, &str, &str); 10] = [
        (1, "kind not 1 to 4", "no such kind of record"),
        (
            2,
            "no bytes, or fewer than the kind's length",
            "the record is cut short",
        ),
        (
            3,
            "field or count outside its range; pantry above 7; unused slot not zero",
            "a field or count outside its range, a pantry above 7, or an unused slot not zero",
        ),
        (
            5,
            "sums differ",
            "the portions taken and given have different sums",
        ),
        (8, "this swap known here", "this swap is known here already"),
        (9, "32 swaps known", "32 swaps are known here already"),
        (10, "tokens would pass 128", "tokens here would pass 128"),
        (
            13,
            "a swap is known here",
            "too late for an opening, since a swap is known here",
        ),
        (
            14,
            "this opening position was given",
            "this opening position was given already",
        ),
        (
            15,
            "lent bytes fewer than the record",
            "fewer bytes lent than the record has",
        ),
    ];
    for refusal in Refusal::ALL {
        let other = others.iter().find(|other| other.0 == refusal.number());
        match other {
            Some(&(_, table, plain)) => {
                assert_eq!((&*bare(refusal), cause(refusal)), (table, plain));
            }
            None => assert_eq!(cause(refusal), bare(refusal)),
        }
    }
}
