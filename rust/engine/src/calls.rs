//! Calls by their words, and through the types where these can say them.

use plankeeper::boundary::Memory;
use plankeeper::{Answer, Ledger, Refusal, Transaction, Verdict, answer_from_code};
use reference::Record;

use crate::places::{TransactionWords, is_byte};
use crate::words::{from_words, narrow, narrowed, to_words};

/// A call with the words that cross the boundary, whether they fit their
/// fields or not.
#[derive(Clone, Copy, Debug, PartialEq, Eq)]
pub enum Words {
    /// Gives a shard a genesis token (document 01: opening): the receiver, the
    /// index, the owner and the amount.
    Mint([u32; 4]),
    /// Hands a transaction to one of its shards (document 01: registration):
    /// the receiver.
    Register([u32; 1], TransactionWords),
    /// Hands one shard's vote to another (document 01: vote, vote delivery):
    /// the receiver, the sender and the verdict, 1 for yes and 0 for no.
    Vote([u32; 3], TransactionWords),
    /// Turns a shard (document 02, 4): the receiver.
    Turn([u32; 1]),
}

impl Words {
    /// Each of its words, and whether the field is a byte.
    pub fn each(&mut self) -> Vec<(&mut u32, bool)> {
        let (head, transaction): (&mut [u32], _) = match self {
            Words::Mint(words) => {
                let widths = [true, true, false, false];
                return words.iter_mut().zip(widths).collect();
            }
            Words::Turn([receiver]) => return vec![(receiver, true)],
            Words::Register(head, transaction) => (head, transaction),
            Words::Vote(head, transaction) => (head, transaction),
        };
        let head = head.iter_mut().map(|word| (word, true));
        let fields = transaction.iter_mut().enumerate();
        let fields = fields.map(|(place, word)| (word, is_byte(place)));
        head.chain(fields).collect()
    }
}

/// The words of the record's fields.
impl From<&Record> for Words {
    fn from(record: &Record) -> Self {
        match *record {
            Record::Mint {
                receiver,
                index,
                owner,
                amount,
            } => Words::Mint([receiver.into(), index.into(), owner, amount]),
            Record::Register {
                receiver,
                ref transaction,
            } => Words::Register([receiver.into()], to_words(transaction)),
            Record::Vote {
                receiver,
                sender,
                verdict,
                ref transaction,
            } => {
                let head = [receiver, sender, verdict].map(u32::from);
                Words::Vote(head, to_words(transaction))
            }
            Record::Turn { receiver } => Words::Turn([receiver.into()]),
        }
    }
}

/// The fields that the words stand for: a word above 255 where the field is a
/// byte stands for 255.
impl From<&Words> for Record {
    fn from(words: &Words) -> Self {
        match *words {
            Words::Mint([receiver, index, owner, amount]) => Record::Mint {
                receiver: narrow(receiver),
                index: narrow(index),
                owner,
                amount,
            },
            Words::Register([receiver], transaction) => Record::Register {
                receiver: narrow(receiver),
                transaction: from_words(&narrowed(transaction)),
            },
            Words::Vote([receiver, sender, verdict], transaction) => Record::Vote {
                receiver: narrow(receiver),
                sender: narrow(sender),
                verdict: narrow(verdict),
                transaction: from_words(&narrowed(transaction)),
            },
            Words::Turn([receiver]) => Record::Turn {
                receiver: narrow(receiver),
            },
        }
    }
}

/// A call as it is made.
#[derive(Clone, Copy, Debug, PartialEq, Eq)]
pub enum Call {
    /// Through the types.
    Typed(plankeeper::Record),
    /// By words, which the types cannot say: some word is too wide for its
    /// field, or the verdict is neither 0 nor 1.
    Words(Words),
}

impl From<Words> for Call {
    fn from(words: Words) -> Self {
        typed(&words).map_or(Call::Words(words), Call::Typed)
    }
}

impl From<&Record> for Call {
    fn from(record: &Record) -> Self {
        Words::from(record).into()
    }
}

fn typed(words: &Words) -> Option<plankeeper::Record> {
    let byte = |word: u32| u8::try_from(word).ok();
    Some(match *words {
        Words::Mint([receiver, index, owner, amount]) => plankeeper::Record::Mint {
            receiver: byte(receiver)?,
            index: byte(index)?,
            owner,
            amount,
        },
        Words::Register([receiver], transaction) => plankeeper::Record::Register {
            receiver: byte(receiver)?,
            transaction: fitting(transaction)?,
        },
        Words::Vote([receiver, sender, verdict], transaction) => plankeeper::Record::Vote {
            receiver: byte(receiver)?,
            sender: byte(sender)?,
            verdict: match verdict {
                0 => Verdict::No,
                1 => Verdict::Yes,
                _ => return None,
            },
            transaction: fitting(transaction)?,
        },
        Words::Turn([receiver]) => plankeeper::Record::Turn {
            receiver: byte(receiver)?,
        },
    })
}

/// The transaction, if all words fit their fields.
fn fitting(words: TransactionWords) -> Option<Transaction> {
    let transaction = Transaction::from_words(words);
    (*transaction.words() == words).then_some(transaction)
}

/// Makes the call.
#[inline]
pub fn play<M: Memory>(ledger: &mut Ledger<M>, call: &Call) -> Result<Answer, Refusal> {
    match call {
        Call::Typed(record) => ledger.play(record),
        Call::Words(words) => {
            let code = code(ledger.memory_mut(), words);
            answer_from_code(code).unwrap_or_else(|| panic!("the engine answered {code}"))
        }
    }
}

/// The code of the call by its words.
fn code<M: Memory>(memory: &mut M, words: &Words) -> u32 {
    match *words {
        Words::Mint([receiver, index, owner, amount]) => {
            memory.mint(receiver, index, owner, amount)
        }
        Words::Register([receiver], ref transaction) => memory.register(receiver, transaction),
        Words::Vote([receiver, sender, verdict], ref transaction) => {
            memory.deliver(receiver, sender, verdict, transaction)
        }
        Words::Turn([receiver]) => memory.turn(receiver),
    }
}
