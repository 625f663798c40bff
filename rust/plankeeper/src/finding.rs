//! What a shard has found of a transaction's inputs.

use std::fmt::{self, Debug, Display, Formatter};
use std::ops::Deref;

use crate::Refusal;
use crate::boundary::FindingsWords;
use crate::defect::nameless;

/// As many inputs as a transaction has at most.
const MOST: usize = 4;

/// What a shard found of an input when it registered the transaction, right
/// before it pledged anything: of the last four the first that fits (document 02,
/// 2). The shard has voted yes exactly where all its findings are
/// [`Available`](Finding::Available).
///
/// ```
/// use plankeeper::Finding;
///
/// assert_eq!(Finding::NotHeld.to_string(), "not held");
/// assert_eq!(Finding::Pledged(5).to_string(), "pledged to transaction 5");
/// ```
#[derive(Clone, Copy, Debug, PartialEq, Eq, Hash)]
pub enum Finding {
    /// The token was held with that owner and that amount, and was pledged to no
    /// transaction.
    Available,
    /// No token of that creator and index was held.
    NotHeld,
    /// The token had another owner (document 02: other household).
    OtherOwner,
    /// The token had another amount (document 02: other portions).
    OtherAmount,
    /// The token was pledged to the transaction of this number, which the shard
    /// knew before.
    Pledged(u32),
}

/// What a shard found of a transaction's inputs there: one [`Finding`] for each
/// of them, in their order, four at most. It is read as a slice.
#[derive(Clone, Copy, PartialEq, Eq, Hash)]
pub struct Findings {
    /// Places behind the last are all the same.
    found: [Finding; MOST],
    count: usize,
}

impl Finding {
    /// The finding of these words, if they stand for one.
    fn from_words(words: [u32; 2]) -> Option<Self> {
        match words {
            [1, 0] => Some(Finding::Available),
            [2, 0] => Some(Finding::NotHeld),
            [3, 0] => Some(Finding::OtherOwner),
            [4, 0] => Some(Finding::OtherAmount),
            [5, number] if number != 0 => Some(Finding::Pledged(number)),
            _ => None,
        }
    }
}

impl Findings {
    /// So many, of these words.
    fn from_words(count: usize, words: &FindingsWords) -> Self {
        let mut found = [Finding::Available; MOST];
        let (pairs, _) = words.as_chunks();
        for (place, &pair) in found.iter_mut().zip(pairs).take(count) {
            let finding = Finding::from_words(pair);
            *place = finding.unwrap_or_else(|| nameless("a question for a finding", pair[0]));
        }
        Findings { found, count }
    }
}

/// What the library's answer and the words that it has filled in stand for.
pub(crate) fn found(code: u32, words: &FindingsWords) -> Result<Findings, Refusal> {
    match code {
        3 => Err(Refusal::OutOfRange),
        18 => Err(Refusal::NoSuchNumber),
        700..=704 => Ok(Findings::from_words(code as usize - 700, words)),
        _ => nameless("a question for findings", code),
    }
}

impl Deref for Findings {
    type Target = [Finding];

    fn deref(&self) -> &[Finding] {
        &self.found[..self.count]
    }
}

impl Debug for Findings {
    fn fmt(&self, f: &mut Formatter<'_>) -> fmt::Result {
        Debug::fmt(&**self, f)
    }
}

impl Display for Finding {
    fn fmt(&self, f: &mut Formatter<'_>) -> fmt::Result {
        match self {
            Finding::Available => f.write_str("available"),
            Finding::NotHeld => f.write_str("not held"),
            Finding::OtherOwner => f.write_str("other owner"),
            Finding::OtherAmount => f.write_str("other amount"),
            Finding::Pledged(number) => write!(f, "pledged to transaction {number}"),
        }
    }
}
