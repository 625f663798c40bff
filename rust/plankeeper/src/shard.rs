//! A lone shard.

use std::fmt::{self, Debug, Formatter};

use crate::boundary::ShardMemory;
use crate::query::{self, Shown};
use crate::{Known, Ledger, Outcome, Token};

/// One shard without the other seven (document 01: a lone pantry). Which votes
/// it hears is up to the caller, and a call for another shard is refused with
/// 3. A clone is a shard of its own.
///
/// ```
/// use plankeeper::{Answer, Outcome, Output, Refusal, Shard, Transaction, Verdict};
///
/// let mut shard = Shard::new(3);
/// shard.mint(3, 0, 10, 5)?;
/// assert_eq!(shard.mint(4, 0, 10, 5), Err(Refusal::OutOfRange));
///
/// let held = shard.tokens().next().expect("it holds a token");
/// let output = Output { shard: 4, owner: 10, amount: 5 };
/// let transaction = Transaction::new(9).input(held.input()).output(output);
/// shard.register(3, &transaction)?;
/// assert_eq!(shard.outcome(9), Some(Outcome::Wait));
///
/// let heard = shard.deliver(3, 4, Verdict::Yes, &transaction)?;
/// assert_eq!(heard, Answer::Heard(Outcome::Commit));
/// assert_eq!(shard.total(), 0);
/// # Ok::<(), Refusal>(())
/// ```
pub type Shard = Ledger<ShardMemory>;

impl Shard {
    /// An empty shard with this number, 0 to 7. A greater one is taken, but
    /// every call on such a shard is refused.
    pub fn new(number: u8) -> Self {
        Ledger::on(ShardMemory::new(number.into()))
    }

    /// Its number.
    pub fn number(&self) -> u8 {
        self.memory().number() as u8
    }

    /// The tokens held, 128 at most, in the order in which they stand in the
    /// memory.
    pub fn tokens(&self) -> impl ExactSizeIterator<Item = Token> + '_ {
        query::tokens(self.memory())
    }

    /// The transactions known, 32 at most, decided ones included, in the order
    /// of their registration.
    pub fn transactions(&self) -> impl ExactSizeIterator<Item = Known> + '_ {
        query::transactions(self.memory())
    }

    /// What is decided on the transaction known by this number; nothing where
    /// no such number is known.
    pub fn outcome(&self, number: u32) -> Option<Outcome> {
        query::outcome(self.memory(), number)
    }

    /// Whether it is turned: see [`turn`](Ledger::turn).
    pub fn is_turned(&self) -> bool {
        query::is_turned(self.memory())
    }
}

/// Shows what it holds and knows.
impl Debug for Shard {
    fn fmt(&self, f: &mut Formatter<'_>) -> fmt::Result {
        Shown(self.memory()).fmt(f)
    }
}
