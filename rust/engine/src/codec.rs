//! Readings and writings in the reference's types.

use plankeeper::boundary::{write_mint, write_register, write_turn, write_vote};
use plankeeper::written_from_code;
use reference::{MINT_LENGTH, REGISTER_LENGTH, Reading, Record, Refusal, TURN_LENGTH, VOTE_LENGTH};

use crate::answers::{refusal, verdict};
use crate::calls::{Call, Words};
use crate::words::from_words;

/// The engine's reading in the reference's types.
pub fn reading(reading: &plankeeper::Reading) -> Reading {
    Reading {
        outcome: reading.record.map(record).map_err(refusal),
        taken: reading.taken,
    }
}

fn record(record: plankeeper::Record) -> Record {
    match record {
        plankeeper::Record::Register {
            receiver,
            transaction,
        } => Record::Register {
            receiver,
            transaction: from_words(transaction.words()),
        },
        plankeeper::Record::Vote {
            receiver,
            sender,
            verdict: said,
            transaction,
        } => Record::Vote {
            receiver,
            sender,
            verdict: (verdict(said) == reference::Verdict::Yes).into(),
            transaction: from_words(transaction.words()),
        },
        plankeeper::Record::Mint {
            receiver,
            index,
            owner,
            amount,
        } => Record::Mint {
            receiver,
            index,
            owner,
            amount,
        },
        plankeeper::Record::Turn { receiver } => Record::Turn { receiver },
    }
}

/// Writes the record with the engine, through its types where they can say it.
pub fn write(record: &Record, buffer: &mut [u8]) -> Result<usize, Refusal> {
    match Call::from(record) {
        Call::Typed(record) => record.write(buffer).map_err(refusal),
        Call::Words(words) => {
            let (length, code) = write_words(&words, buffer);
            let written = written_from_code(length, code);
            let written = written.unwrap_or_else(|| panic!("the engine answered {code}"));
            written.map_err(refusal)
        }
    }
}

/// The length of such a record, and the writer's answer.
fn write_words(words: &Words, buffer: &mut [u8]) -> (usize, u64) {
    match *words {
        Words::Mint([receiver, index, owner, amount]) => {
            let answer = write_mint(receiver, index, owner, amount, buffer);
            (MINT_LENGTH, answer)
        }
        Words::Register([receiver], ref transaction) => {
            let answer = write_register(receiver, transaction, buffer);
            (REGISTER_LENGTH, answer)
        }
        Words::Vote([receiver, sender, verdict], ref transaction) => {
            let answer = write_vote(receiver, sender, verdict, transaction, buffer);
            (VOTE_LENGTH, answer)
        }
        Words::Turn([receiver]) => (TURN_LENGTH, write_turn(receiver, buffer)),
    }
}
