//! The table of answers, held to itself: every test that counts answers relies
//! on it.

use std::collections::BTreeSet;

use reference::Refusal;
use weeks::{
    ACCEPTED, CAUSES, DONE, Giver, carried_out, given_by, label, never_given_by, refused,
    registering, replies, shown_for,
};

/// Rows are in the order of their numbers, and each row is told apart from all
/// others by its number, its answer and its label. The label ends with the
/// words.
#[test]
fn rows_are_told_apart() {
    assert!(DONE.is_sorted_by_key(|reply| reply.code));
    assert!(CAUSES.is_sorted_by_key(|cause| cause.reply.code));
    let codes: BTreeSet<u32> = replies().map(|reply| reply.code).collect();
    let labels: BTreeSet<&str> = replies().map(|reply| reply.label).collect();
    let all = DONE.len() + CAUSES.len();
    assert_eq!((codes.len(), labels.len()), (all, all));
    for reply in replies() {
        assert_eq!(label(reply.answer), reply.label, "{reply:?}");
        assert!(reply.label.ends_with(reply.words), "{reply:?}");
    }
}

/// A transaction that a vote has brought is listed as one that was registered,
/// and no other answers have words in common. YES ABORT is a vote's alone.
#[test]
fn words_in_common() {
    for reply in replies() {
        let same = replies().filter(|other| other.words == reply.words);
        let codes: Vec<u32> = same.map(|other| other.code).collect();
        match reply.code {
            registered @ 200..300 => assert_eq!(codes, [registered, registered + 400]),
            brought @ 600..700 => assert_eq!(codes, [brought - 400, brought]),
            other => assert_eq!(codes, [other]),
        }
    }
    let [shown, never] = shown_for(&[Giver::Cluster]);
    assert!(shown.contains(&"YES ABORT") && shown.contains(&"HEARD WAIT"));
    let none = ["NO WAIT", "NO COMMIT", "REFUSED 11", "REFUSED 18"];
    assert!(none.iter().all(|words| never.contains(words)));
    assert!(shown.iter().all(|words| !never.contains(words)));
}

/// Every refusal that the reference knows has its row, and no other number.
#[test]
fn every_refusal_has_its_row() {
    for number in 1..=u8::MAX {
        let found = CAUSES
            .iter()
            .find(|cause| cause.reply.code == number.into());
        let answer = found.map(|cause| cause.reply.answer);
        assert_eq!(answer, Refusal::from_number(number).map(Err), "{number}");
        if found.is_some() {
            assert_eq!(refused(number), format!("REFUSED {number}"));
        }
    }
    assert_eq!(refused(0), ACCEPTED);
}

/// Who gives what, by hand from documents 01 and 02, as far as the refusals up to
/// 19 go.
#[test]
fn givers() {
    let numbers = |giver| -> Vec<u32> {
        let given = given_by(&[giver]);
        let causes = CAUSES.iter().map(|cause| cause.reply);
        let first = causes.filter(|reply| reply.code <= 19 && given.contains(&reply.label));
        first.map(|reply| reply.code).collect()
    };
    assert_eq!(numbers(Giver::Reader), [1, 2, 3, 4, 5]);
    assert_eq!(numbers(Giver::Writer), [3, 4, 5, 15]);
    let shard = [3, 4, 5, 6, 7, 8, 9, 10, 11, 12, 13, 14, 17, 19];
    assert_eq!(numbers(Giver::Shard), shard);
    let cluster = [3, 4, 5, 6, 7, 8, 9, 10, 13, 14, 16, 17, 19];
    assert_eq!(numbers(Giver::Cluster), cluster);
    assert_eq!(numbers(Giver::Findings), [3, 18]);
    let both = given_by(&[Giver::Shard, Giver::Cluster]);
    assert!(carried_out().iter().all(|label| both.contains(label)));
    let never = ["YES ABORT", "NO COMMIT", "NO WAIT"];
    for never in never
        .into_iter()
        .chain(["brought NO COMMIT", "brought NO WAIT"])
    {
        assert!(!both.contains(&never) && !carried_out().contains(&never));
    }
    for given in ["YES WAIT", "YES COMMIT", "YES ABORT", "NO ABORT"] {
        let brought = format!("brought {given}");
        assert!(both.contains(&brought.as_str()), "{brought}");
    }
    let others = never_given_by(&[Giver::Shard, Giver::Cluster]);
    assert_eq!(both.len() + others.len(), replies().count());
}

/// Those that tell of a registration, by hand from documents 01 and 02.
#[test]
fn registrations() {
    let called = ["NO ABORT", "YES WAIT", "YES COMMIT"];
    let brought = [
        "brought NO ABORT",
        "brought YES WAIT",
        "brought YES COMMIT",
        "brought YES ABORT",
    ];
    let both = called.iter().chain(&brought).copied();
    assert!(registering().into_iter().eq(both), "{:?}", registering());
}
