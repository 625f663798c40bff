//! What the program takes, and what it fails for.

use std::time::Duration;

use crate::buffer::{Buffer, VOTE, VOTES};
use crate::readers::{Answer, READERS, Reader};
use crate::timing::{Timed, compare, report};
use crate::{USAGE, run};

/// A reader that is made wrong here, beside the proved one.
fn beside(read: fn(&[u8]) -> Answer) -> [Reader; 2] {
    let [_, words, _] = READERS;
    let wrong = Reader {
        name: "wrong",
        read,
        run: words.run,
    };
    [words, wrong]
}

fn proved(bytes: &[u8]) -> Answer {
    (READERS[1].read)(bytes)
}

#[test]
fn arguments() {
    assert_eq!(run(&["--smoke"]), Ok(()));
    let bad: [&[&str]; 5] = [
        &["--all"],
        &["--only"],
        &["--only", "all"],
        &["--smoke", "--smoke"],
        &["--only", "words", "records"],
    ];
    for arguments in bad {
        assert_eq!(run(arguments), Err(USAGE.into()), "{arguments:?}");
    }
}

#[test]
fn a_vote_that_is_not_accepted_is_named() {
    let buffer = Buffer::new();
    assert_eq!(compare(&READERS, buffer.votes()), Ok(()));
    for place in [0, 17, VOTES - 1] {
        let mut votes = buffer.votes().to_vec();
        votes[place * VOTE + 1] = 8; // There is no shard 8.
        let message = compare(&READERS, &votes).expect_err("a vote is damaged");
        let named = format!("vote {place}: not accepted by baseline");
        assert!(message.starts_with(&named), "{message}");
    }
}

#[test]
fn an_answer_that_differs_is_named() {
    let buffer = Buffer::new();
    let votes = buffer.votes();
    assert_eq!(compare(&beside(proved), votes), Ok(()));
    let wrong: [fn(&[u8]) -> Answer; 4] = [
        |bytes| Answer {
            refusal: 3,
            ..proved(bytes)
        },
        |bytes| Answer {
            taken: VOTE - 1,
            ..proved(bytes)
        },
        |bytes| {
            let mut answer = proved(bytes);
            answer.fields[0] += 1;
            answer
        },
        |bytes| {
            let mut answer = proved(bytes);
            answer.fields[41] += u32::from(bytes.len() == VOTE);
            answer
        },
    ];
    for (read, place) in wrong.into_iter().zip([0, 0, 0, VOTES - 1]) {
        let message = compare(&beside(read), votes).expect_err("an answer is wrong");
        let named = format!("vote {place}: words and wrong differ");
        assert!(message.starts_with(&named), "{message}");
    }
}

#[test]
fn sums_that_differ_are_told() {
    let timed = |sum| Timed {
        name: "reader",
        least: Duration::from_millis(1),
        sum,
    };
    assert_eq!(report(&[timed(7), timed(7), timed(7)], 1), Ok(()));
    for sums in [[7, 8, 7], [7, 7, 8], [8, 7, 7]] {
        let told = report(&sums.map(timed), 1);
        assert_eq!(told, Err(format!("the sums differ: {sums:?}")));
    }
}

/// The loops read what stands there, of any kind and refused or not, and go on
/// from the front behind the last.
#[test]
fn loops_add_up_what_is_told() {
    let buffer = Buffer::new();
    let votes = buffer.votes();
    let mut refused = votes[VOTE..2 * VOTE].to_vec();
    refused[3] = 2;
    let register = [&[1, 7], &votes[4..VOTE]].concat();
    let mint = [3, 1, 127, 0, 0, 0, 9, 0, 0, 0, 5];
    let bytes = [&votes[..VOTE], &refused, &register, &mint, &[4, 6]].concat();
    // Verdict, refusal, the first vote's number twice, and all bytes.
    let number = u32::from_be_bytes(*votes[4..].first_chunk().expect("a number"));
    let once = u64::from(votes[3]) + 3 + 2 * u64::from(number) + bytes.len() as u64;
    for reader in READERS {
        assert_eq!((reader.run)(&bytes, 5), once, "{}", reader.name);
        assert_eq!((reader.run)(&bytes, 15), 3 * once, "{}", reader.name);
    }
}
