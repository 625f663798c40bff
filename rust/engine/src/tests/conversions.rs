//! Answers, calls and transactions in both sides' types.

use std::panic::catch_unwind;

use plankeeper::answer_from_code;
use reference::Record;
use weeks::replies;

use super::widths::{transaction, wide_transactions};
use crate::places::TRANSACTION_WORDS;
use crate::{Call, Words, answer, answer_code, from_words, to_words};

/// Every answer of the table stands for itself on both sides, and no other
/// number stands for one.
#[test]
fn answers_are_told_apart() {
    for reply in replies() {
        let code = reply.code;
        let ours = answer_from_code(code).expect("the code of an answer");
        assert_eq!(answer(ours), reply.answer, "{code}");
        assert_eq!(answer_code(reply.answer), code, "{reply:?}");
        if let Ok(done) = ours {
            assert_eq!(done.to_string(), reply.words, "{code}");
        }
    }
    for code in 0..=1_000 {
        let listed = replies().any(|reply| reply.code == code);
        assert_eq!(answer_from_code(code).is_some(), listed, "{code}");
    }
}

#[test]
fn words_and_fields_stand_for_each_other() {
    let words: [u32; TRANSACTION_WORDS] = std::array::from_fn(|place| place as u32 + 1);
    let fields = from_words(&words);
    assert_eq!(to_words(&fields), words);
    let counts = (fields.number, fields.input_count, fields.output_count);
    assert_eq!(counts, (1, 2, 3));
    let input = fields.inputs[1];
    let token = input.token;
    assert_eq!((token.shard, token.creator, token.index), (9, 10, 11));
    assert_eq!((input.owner, input.amount), (12, 13));
    let output = fields.outputs[1];
    assert_eq!((output.shard, output.owner, output.amount), (27, 28, 29));
    // No word is cut to its field.
    for wide in wide_transactions(words) {
        assert!(catch_unwind(|| from_words(&wide)).is_err());
    }
}

/// A transaction built of fields has the words of the reference's.
#[test]
fn built_transactions_have_the_same_words() {
    let expected = transaction();
    let mut built = plankeeper::Transaction::new(expected.number);
    for input in expected.inputs {
        let token = plankeeper::TokenId {
            shard: input.token.shard,
            creator: input.token.creator,
            index: input.token.index,
        };
        built = built.input(plankeeper::Input {
            token,
            owner: input.owner,
            amount: input.amount,
        });
    }
    for output in expected.outputs {
        built = built.output(plankeeper::Output {
            shard: output.shard,
            owner: output.owner,
            amount: output.amount,
        });
    }
    assert_eq!(*built.words(), to_words(&expected));
}

/// Types say what they can, words the rest; both stand for the same fields.
#[test]
fn calls_are_typed_where_types_can_say_them() {
    let vote = |receiver, verdict| Record::Vote {
        receiver,
        sender: 2,
        verdict,
        transaction: transaction(),
    };
    for (record, typed) in [
        (vote(1, 0), true),
        (vote(255, 1), true),
        (vote(1, 2), false),
        (vote(1, 255), false),
    ] {
        let words = Words::from(&record);
        assert_eq!(Record::from(&words), record);
        let call = Call::from(&record);
        assert_eq!(matches!(call, Call::Typed(_)), typed, "{record:?}");
    }
    let narrow = to_words(&transaction());
    for wide in wide_transactions(narrow) {
        let words = Words::Register([300], wide);
        assert_eq!(Call::from(words), Call::Words(words));
        let Record::Register {
            receiver,
            transaction: meant,
        } = Record::from(&words)
        else {
            panic!("another kind of record");
        };
        assert_eq!(receiver, 255);
        let place = (0..TRANSACTION_WORDS).find(|&place| wide[place] != narrow[place]);
        let mut expected = narrow;
        expected[place.expect("a wide word")] = 255;
        assert_eq!(to_words(&meant), expected);
    }
}

#[test]
fn turns_are_typed_where_types_can_say_them() {
    for (receiver, typed) in [(0, true), (255, true), (256, false), (u32::MAX, false)] {
        let words = Words::Turn([receiver]);
        let call = Call::from(words);
        assert_eq!(matches!(call, Call::Typed(_)), typed, "{receiver}");
        let receiver = receiver.min(255) as u8;
        assert_eq!(Record::from(&words), Record::Turn { receiver });
    }
}
