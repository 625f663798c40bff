//! From the text to the records.

use std::collections::HashMap;

use reference::{Input, Output, Record, SLOTS, TokenId, Transaction, encode};

use crate::Error;
use crate::words::{Words, decimal};

/// What some editors put in front of a text.
const BYTE_ORDER_MARK: &[u8] = b"\xef\xbb\xbf";

const FIRST_WORDS: &str = "opening, swap, take, give, counts, register, vote, turn or bytes";

/// The records of a week's text, one behind the other; or the first error.
pub fn records(text: &[u8]) -> Result<Vec<u8>, Error> {
    Ok(parsed(text)?.bytes)
}

/// What a text stands for.
pub(crate) struct Parsed {
    /// The records, one behind the other.
    pub(crate) bytes: Vec<u8>,
    /// Where they are written.
    pub(crate) starts: Starts,
}

/// The lines that have given bytes, in their order: each with the place of its
/// first byte among all of them.
#[derive(Default)]
pub(crate) struct Starts(Vec<(usize, usize)>);

impl Starts {
    /// The line, from 1, that has given the byte at this place; nothing where no
    /// line is known.
    pub(crate) fn line(&self, place: usize) -> Option<usize> {
        let behind = self.0.partition_point(|&(first, _)| first <= place);
        let (_, line) = self.0[..behind].last()?;
        Some(*line)
    }
}

/// The records and their lines; or the first error.
pub(crate) fn parsed(text: &[u8]) -> Result<Parsed, Error> {
    let mut week = Week::default();
    let mut starts = Starts::default();
    for (number, line) in (1..).zip(utf8(text)?.lines()) {
        let first = week.bytes.len();
        week.line(&mut Words::new(number, line))?;
        if week.bytes.len() > first {
            starts.0.push((first, number));
        }
    }
    Ok(Parsed {
        bytes: week.bytes,
        starts,
    })
}

/// The text, without a byte order mark at its front.
fn utf8(text: &[u8]) -> Result<&str, Error> {
    let text = text.strip_prefix(BYTE_ORDER_MARK).unwrap_or(text);
    str::from_utf8(text).map_err(|error| {
        let (before, behind) = text.split_at(error.valid_up_to());
        let line = 1 + before.iter().filter(|&&byte| byte == b'\n').count();
        Error::new(line, "text", "UTF-8", format!("the byte {:02x}", behind[0]))
    })
}

/// What the lines so far have given.
#[derive(Default)]
struct Week {
    bytes: Vec<u8>,
    /// The swaps defined, by label.
    swaps: HashMap<String, Swap>,
    /// The label of the swap that the next take or give belongs to.
    open: Option<String>,
}

#[derive(Default)]
struct Swap {
    /// The line of its definition.
    line: usize,
    transaction: Transaction,
    /// How many takes and gives it has; the counts are these unless the text
    /// names others.
    takes: u8,
    gives: u8,
    counted: bool,
}

impl Week {
    fn line(&mut self, words: &mut Words) -> Result<(), Error> {
        let Some(first) = words.next() else {
            return Ok(());
        };
        match first {
            "take" => self.open_swap(words, "take")?.take(words)?,
            "give" => self.open_swap(words, "give")?.give(words)?,
            "counts" => self.open_swap(words, "counts")?.counts(words)?,
            _ => {
                self.open = None;
                match first {
                    "opening" => self.opening(words)?,
                    "swap" => self.swap(words)?,
                    "register" => self.register(words)?,
                    "vote" => self.vote(words)?,
                    "turn" => self.turn(words)?,
                    "bytes" => return self.raw(words),
                    _ => return Err(words.error("first word", FIRST_WORDS, Some(first))),
                }
            }
        }
        words.end()
    }

    fn opening(&mut self, words: &mut Words) -> Result<(), Error> {
        let record = Record::Mint {
            receiver: words.named_byte("pantry")?,
            index: words.named_byte("position")?,
            owner: words.named_word("household")?,
            amount: words.named_word("portions")?,
        };
        encode(&record, &mut self.bytes);
        Ok(())
    }

    /// `swap NUMBER` or `swap NUMBER as LABEL`.
    fn swap(&mut self, words: &mut Words) -> Result<(), Error> {
        let number = words.word("swap")?;
        let label = match words.next() {
            None => number.to_string(),
            Some("as") => label(words)?,
            found => return Err(words.error("swap", "'as' and a label", found)),
        };
        if let Some(earlier) = self.swaps.get(&label) {
            let expected = format!(
                "a label that line {} has not given (swap {number} as LABEL)",
                earlier.line
            );
            return Err(words.error("swap", expected, Some(&label)));
        }
        let swap = Swap {
            line: words.line(),
            transaction: Transaction {
                number,
                ..Transaction::default()
            },
            ..Swap::default()
        };
        self.swaps.insert(label.clone(), swap);
        self.open = Some(label);
        Ok(())
    }

    /// `register LABEL at PANTRY`.
    fn register(&mut self, words: &mut Words) -> Result<(), Error> {
        let transaction = self.defined(words)?;
        words.literal("receiving pantry", "at")?;
        let record = Record::Register {
            receiver: words.byte("receiving pantry")?,
            transaction,
        };
        encode(&record, &mut self.bytes);
        Ok(())
    }

    /// `vote VERDICT on LABEL from PANTRY to PANTRY`.
    fn vote(&mut self, words: &mut Words) -> Result<(), Error> {
        let verdict = verdict(words)?;
        words.literal("swap", "on")?;
        let transaction = self.defined(words)?;
        words.literal("sending pantry", "from")?;
        let sender = words.byte("sending pantry")?;
        words.literal("receiving pantry", "to")?;
        let record = Record::Vote {
            receiver: words.byte("receiving pantry")?,
            sender,
            verdict,
            transaction,
        };
        encode(&record, &mut self.bytes);
        Ok(())
    }

    fn turn(&mut self, words: &mut Words) -> Result<(), Error> {
        let record = Record::Turn {
            receiver: words.named_byte("pantry")?,
        };
        encode(&record, &mut self.bytes);
        Ok(())
    }

    /// `bytes HEX HEX ...`: whatever the record is.
    fn raw(&mut self, words: &mut Words) -> Result<(), Error> {
        let mut found = words.next();
        loop {
            let byte = found
                .and_then(hexadecimal)
                .ok_or_else(|| words.error("bytes", "two hexadecimal digits", found))?;
            self.bytes.push(byte);
            found = words.next();
            if found.is_none() {
                return Ok(());
            }
        }
    }

    /// The swap that the lines above have begun.
    fn open_swap(&mut self, words: &Words, field: &'static str) -> Result<&mut Swap, Error> {
        let open = self
            .open
            .as_ref()
            .and_then(|label| self.swaps.get_mut(label));
        open.ok_or_else(|| Error::new(words.line(), field, "a line 'swap NUMBER' above", "none"))
    }

    /// The swap that the next word names.
    fn defined(&self, words: &mut Words) -> Result<Transaction, Error> {
        let found = words.next();
        let swap = found.and_then(|label| self.swaps.get(label));
        swap.map(|swap| swap.transaction)
            .ok_or_else(|| words.error("swap", "a swap defined above", found))
    }
}

impl Swap {
    /// `take pantry P opening N ...` or `take pantry P swap N position N ...`.
    fn take(&mut self, words: &mut Words) -> Result<(), Error> {
        let slot = free_slot(words, "take", self.takes)?;
        let shard = words.named_byte("pantry")?;
        let (creator, index) = match words.next() {
            Some("opening") => (0, words.byte("opening")?),
            Some("swap") => (words.word("making swap")?, words.named_byte("position")?),
            found => {
                let expected = "'opening' or 'swap', and its number";
                return Err(words.error("token", expected, found));
            }
        };
        self.transaction.inputs[slot] = Input {
            token: TokenId {
                shard,
                creator,
                index,
            },
            owner: words.named_word("household")?,
            amount: words.named_word("portions")?,
        };
        self.takes += 1;
        if !self.counted {
            self.transaction.input_count = self.takes;
        }
        Ok(())
    }

    fn give(&mut self, words: &mut Words) -> Result<(), Error> {
        let slot = free_slot(words, "give", self.gives)?;
        self.transaction.outputs[slot] = Output {
            shard: words.named_byte("pantry")?,
            owner: words.named_word("household")?,
            amount: words.named_word("portions")?,
        };
        self.gives += 1;
        if !self.counted {
            self.transaction.output_count = self.gives;
        }
        Ok(())
    }

    /// `counts inputs N outputs N`: counts other than those of the lines.
    fn counts(&mut self, words: &mut Words) -> Result<(), Error> {
        if self.counted {
            let line = words.line();
            return Err(Error::new(line, "counts", "one in a swap", "a second"));
        }
        self.counted = true;
        self.transaction.input_count = words.named_byte("inputs")?;
        self.transaction.output_count = words.named_byte("outputs")?;
        Ok(())
    }
}

/// The next of the four slots.
fn free_slot(words: &Words, field: &'static str, used: u8) -> Result<usize, Error> {
    let slot = usize::from(used);
    if slot < SLOTS {
        return Ok(slot);
    }
    Err(Error::new(
        words.line(),
        field,
        "at most four in a swap",
        "a fifth",
    ))
}

/// A label cannot be a number: those stand for the swaps without one.
fn label(words: &mut Words) -> Result<String, Error> {
    let found = words.next();
    let fits = |word: &&str| {
        decimal(word).is_none()
            && word
                .bytes()
                .all(|byte| byte.is_ascii_alphanumeric() || byte == b'-')
    };
    found.filter(fits).map(str::to_owned).ok_or_else(|| {
        let expected = "letters, digits and hyphens that are not only a number";
        words.error("label", expected, found)
    })
}

/// `yes`, `no`, or any byte.
fn verdict(words: &mut Words) -> Result<u8, Error> {
    let found = words.next();
    let verdict = match found {
        Some("yes") => Some(1),
        Some("no") => Some(0),
        _ => found
            .and_then(decimal)
            .and_then(|number| number.try_into().ok()),
    };
    verdict.ok_or_else(|| words.error("verdict", "yes, no or a number from 0 to 255", found))
}

fn hexadecimal(word: &str) -> Option<u8> {
    let digits = word.len() == 2 && word.bytes().all(|byte| byte.is_ascii_hexdigit());
    u8::from_str_radix(word, 16).ok().filter(|_| digits)
}
