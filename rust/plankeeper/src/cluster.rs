//! The cluster of eight shards.

use std::fmt::{self, Debug, Formatter};

use crate::answer::answered;
use crate::boundary::ClusterMemory;
use crate::query::{self, Member, Shown};
use crate::{Answer, Known, Ledger, Outcome, Refusal, Token};

/// Eight shards, numbered 0 to 7 and empty at first (document 01: a round of
/// eight pantries).
///
/// Each call changes the one shard that receives it. The cluster hands over no
/// votes of its own accord: the caller does, in any order. A clone is a cluster
/// of its own.
///
/// ```
/// use plankeeper::{Answer, Cluster, Outcome, Output, Refusal, Transaction, Verdict};
///
/// let mut cluster = Cluster::new();
/// cluster.mint(0, 7, 10, 3)?;
/// let held = cluster.tokens(0).next().expect("shard 0 holds a token");
/// assert_eq!((held.id.index, held.owner, held.amount), (7, 10, 3));
///
/// // Shard 1 is to hold it, for another owner.
/// let output = Output { shard: 1, owner: 20, amount: 3 };
/// let transaction = Transaction::new(1).input(held.input()).output(output);
/// cluster.register(0, &transaction)?;
/// cluster.register(1, &transaction)?;
/// let held = cluster.tokens(0).next().expect("shard 0 still holds it");
/// assert_eq!(held.pledge, Some(1));
///
/// let answer = cluster.deliver(1, 0, Verdict::Yes, &transaction)?;
/// assert_eq!(answer, Answer::Heard(Outcome::Commit));
/// assert_eq!(cluster.outcome(1, 1), Some(Outcome::Commit));
/// assert_eq!(cluster.outcome(0, 1), Some(Outcome::Wait));
/// assert_eq!(cluster.total_at(1), 3);
///
/// // A refused call changes nothing.
/// let refused = cluster.mint(1, 0, 10, 3);
/// assert_eq!(refused, Err(Refusal::MintTooLate));
/// # Ok::<(), Refusal>(())
/// ```
pub type Cluster = Ledger<ClusterMemory>;

impl Cluster {
    /// A cluster of empty shards.
    pub fn new() -> Self {
        Ledger::on(ClusterMemory::new())
    }

    /// Reads the record at the front of the bytes and makes its call. How many
    /// bytes it took is up to [`read`](crate::read); of many records,
    /// [`records`](crate::records) and [`play`](Ledger::play) take one after
    /// the other.
    ///
    /// ```
    /// use plankeeper::{Answer, Cluster, Refusal};
    ///
    /// let mut cluster = Cluster::new();
    /// let mut bytes = [3, 1, 0, 0, 0, 0, 20, 0, 0, 0, 2];
    /// assert_eq!(cluster.apply(&bytes), Ok(Answer::Minted));
    /// assert_eq!(cluster.apply(&bytes), Err(Refusal::IndexGiven));
    /// bytes[0] = 5;
    /// assert_eq!(cluster.apply(&bytes), Err(Refusal::UnknownKind));
    /// assert_eq!(cluster.total(), 2);
    /// ```
    pub fn apply(&mut self, bytes: &[u8]) -> Result<Answer, Refusal> {
        answered(self.memory_mut().apply(bytes))
    }

    /// The sum of the amounts that the shard holds. A shard above 7 is an empty
    /// one, here and in the other queries; [`findings`](Ledger::findings) alone
    /// refuses it.
    pub fn total_at(&self, shard: u8) -> u64 {
        self.memory().total_at(shard.into())
    }

    /// The tokens that the shard holds, 128 at most, in the order in which they
    /// stand in its memory.
    ///
    /// ```
    /// use plankeeper::Cluster;
    ///
    /// let mut cluster = Cluster::new();
    /// cluster.mint(6, 0, 10, 3)?;
    /// cluster.mint(6, 9, 20, 4)?;
    /// let tokens = cluster.tokens(6);
    /// assert_eq!(tokens.len(), 2);
    /// let owners: Vec<u32> = tokens.map(|token| token.owner).collect();
    /// assert_eq!(owners, [10, 20]);
    /// # Ok::<(), plankeeper::Refusal>(())
    /// ```
    pub fn tokens(&self, shard: u8) -> impl ExactSizeIterator<Item = Token> + '_ {
        query::tokens(Member(self.memory(), shard))
    }

    /// The transactions that the shard knows, 32 at most, decided ones
    /// included, in the order of their registration there.
    ///
    /// ```
    /// use plankeeper::{Cluster, Output, Outcome, Transaction, Verdict};
    ///
    /// let mut cluster = Cluster::new();
    /// cluster.mint(6, 0, 10, 3)?;
    /// let held = cluster.tokens(6).next().expect("the token");
    /// let transaction = Transaction::new(1)
    ///     .input(held.input())
    ///     .output(Output { shard: 2, owner: 10, amount: 3 });
    /// cluster.register(6, &transaction)?;
    ///
    /// let mut known = cluster.transactions(6);
    /// assert_eq!(known.len(), 1);
    /// let known = known.next().expect("the transaction");
    /// assert_eq!(known.transaction, transaction);
    /// assert_eq!(known.heard[6], Some(Verdict::Yes));
    /// assert_eq!(known.heard[2], None);
    /// assert_eq!(known.outcome, Outcome::Wait);
    /// # Ok::<(), plankeeper::Refusal>(())
    /// ```
    pub fn transactions(&self, shard: u8) -> impl ExactSizeIterator<Item = Known> + '_ {
        query::transactions(Member(self.memory(), shard))
    }

    /// What the shard has decided on the transaction that it knows by this
    /// number; nothing where it knows no such number.
    pub fn outcome(&self, shard: u8, number: u32) -> Option<Outcome> {
        query::outcome(Member(self.memory(), shard), number)
    }

    /// Whether the shard is turned: see [`turn`](Ledger::turn).
    pub fn is_turned(&self, shard: u8) -> bool {
        query::is_turned(Member(self.memory(), shard))
    }
}

impl Default for Cluster {
    fn default() -> Self {
        Cluster::new()
    }
}

/// Shows what each shard holds and knows.
impl Debug for Cluster {
    fn fmt(&self, f: &mut Formatter<'_>) -> fmt::Result {
        f.write_str("Cluster ")?;
        let shards = (0..8).map(|shard| Shown(Member(self.memory(), shard)));
        f.debug_list().entries(shards).finish()
    }
}
