//! What a cluster and a lone shard have in common.

use crate::answer::answered;
use crate::boundary::{FINDINGS_WORDS, Memory};
use crate::finding::found;
use crate::{Answer, Findings, Record, Refusal, Transaction, Verdict};

/// Tokens and transactions in some memory, and the calls that change them:
/// [`Cluster`](crate::Cluster) and [`Shard`](crate::Shard) are ledgers, each
/// with queries of its own.
///
/// Any arguments may be handed in. A call that is refused has changed nothing.
#[derive(Clone)]
pub struct Ledger<M> {
    memory: M,
}

impl<M: Memory> Ledger<M> {
    /// The ledger in this memory, as it stands.
    pub fn on(memory: M) -> Self {
        Ledger { memory }
    }

    /// Its memory, to be asked by words.
    pub fn memory(&self) -> &M {
        &self.memory
    }

    /// Its memory, for calls by words.
    pub fn memory_mut(&mut self) -> &mut M {
        &mut self.memory
    }

    /// Empties it and keeps the memory.
    pub fn renew(&mut self) {
        self.memory.renew();
    }

    /// Gives the receiving shard a genesis token (document 01: opening). That
    /// is done first: a shard that knows a transaction is given no more.
    #[inline]
    pub fn mint(
        &mut self,
        receiver: u8,
        index: u8,
        owner: u32,
        amount: u32,
    ) -> Result<Answer, Refusal> {
        let (receiver, index) = (receiver.into(), index.into());
        answered(self.memory.mint(receiver, index, owner, amount))
    }

    /// Asks the receiving shard to register the transaction (document 01:
    /// registration). It pledges the inputs that it holds and that are
    /// available, and votes yes if all its inputs are. If it votes no, the
    /// transaction is aborted there at once.
    ///
    /// A transaction may come too close behind another: it takes what the other
    /// is to make at this shard, which knows the other and has not decided it.
    /// Then it is held off. Nothing has changed; ask again once the other is
    /// decided there.
    ///
    /// ```
    /// use plankeeper::{Cluster, Input, Output, Refusal, TokenId, Transaction, Verdict};
    ///
    /// let take = |shard, creator| Input {
    ///     token: TokenId { shard, creator, index: 0 },
    ///     owner: 10,
    ///     amount: 3,
    /// };
    /// let give = |shard| Output { shard, owner: 10, amount: 3 };
    /// let first = Transaction::new(5).input(take(0, 0)).output(give(1));
    /// let second = Transaction::new(6).input(take(1, 5)).output(give(2));
    ///
    /// let mut cluster = Cluster::new();
    /// cluster.mint(0, 0, 10, 3)?;
    /// cluster.register(0, &first)?;
    /// cluster.register(1, &first)?;
    /// assert_eq!(cluster.register(1, &second), Err(Refusal::HeldOff));
    /// cluster.deliver(1, 0, Verdict::Yes, &first)?;
    /// assert_eq!(cluster.register(1, &second)?.to_string(), "YES WAIT");
    /// # Ok::<(), Refusal>(())
    /// ```
    #[inline]
    pub fn register(&mut self, receiver: u8, transaction: &Transaction) -> Result<Answer, Refusal> {
        let words = transaction.words();
        answered(self.memory.register(receiver.into(), words))
    }

    /// Hands the sending shard's vote to the receiving one (document 01: vote
    /// delivery). A cluster refuses a vote that its sender has not given; a
    /// lone shard hears any.
    ///
    /// To a shard that does not know the number the vote brings its transaction
    /// (document 02, 6): the shard registers it, as
    /// [`register`](Self::register) would, and then hears the vote. Where there
    /// is no room for it (9, 10), or where it comes too close behind another
    /// (17), the vote is refused, and nothing has changed; it may be handed in
    /// again later.
    ///
    /// ```
    /// use plankeeper::{Answer, Cluster, Input, Outcome, Output, Refusal, TokenId};
    /// use plankeeper::{Transaction, Verdict};
    ///
    /// let token = TokenId { shard: 0, creator: 0, index: 0 };
    /// let transaction = Transaction::new(5)
    ///     .input(Input { token, owner: 10, amount: 3 })
    ///     .output(Output { shard: 1, owner: 10, amount: 3 });
    ///
    /// // Nobody asks shard 1 to register it; shard 0's vote brings it there.
    /// let mut cluster = Cluster::new();
    /// cluster.mint(0, 0, 10, 3)?;
    /// cluster.register(0, &transaction)?;
    /// let (verdict, outcome) = (Verdict::Yes, Outcome::Commit);
    /// let brought = cluster.deliver(1, 0, Verdict::Yes, &transaction)?;
    /// assert_eq!(brought, Answer::Brought { verdict, outcome });
    /// assert_eq!(cluster.register(1, &transaction), Err(Refusal::KnownAlready));
    ///
    /// // Shard 1 has voted, and its vote decides at shard 0, too.
    /// cluster.deliver(0, 1, Verdict::Yes, &transaction)?;
    /// assert_eq!((cluster.total_at(0), cluster.total_at(1)), (0, 3));
    /// # Ok::<(), Refusal>(())
    /// ```
    ///
    /// One no is enough for an abort, while a commit needs every yes:
    ///
    /// ```
    /// use plankeeper::{Cluster, Input, Output, Refusal, TokenId, Transaction, Verdict};
    ///
    /// // Nobody has minted the token, so shard 0 will vote no.
    /// let token = TokenId { shard: 0, creator: 0, index: 0 };
    /// let give = |shard| Output { shard, owner: 10, amount: 3 };
    /// let transaction = Transaction::new(5)
    ///     .input(Input { token, owner: 10, amount: 6 })
    ///     .output(give(1))
    ///     .output(give(2));
    ///
    /// let mut cluster = Cluster::new();
    /// assert_eq!(cluster.register(1, &transaction)?.to_string(), "YES WAIT");
    /// assert_eq!(cluster.register(0, &transaction)?.to_string(), "NO ABORT");
    /// let mut deliver = |sender, verdict| cluster.deliver(1, sender, verdict, &transaction);
    /// assert_eq!(deliver(0, Verdict::No)?.to_string(), "HEARD ABORT");
    ///
    /// // Shard 2's vote comes later. It is noted and changes no decision.
    /// assert_eq!(deliver(2, Verdict::Yes), Err(Refusal::VoteNotGiven));
    /// cluster.register(2, &transaction)?;
    /// let heard = cluster.deliver(1, 2, Verdict::Yes, &transaction)?;
    /// assert_eq!(heard.to_string(), "HEARD ABORT");
    /// # Ok::<(), Refusal>(())
    /// ```
    #[inline]
    pub fn deliver(
        &mut self,
        receiver: u8,
        sender: u8,
        verdict: Verdict,
        transaction: &Transaction,
    ) -> Result<Answer, Refusal> {
        let (receiver, sender, verdict) = (receiver.into(), sender.into(), verdict as u32);
        let words = transaction.words();
        answered(self.memory.deliver(receiver, sender, verdict, words))
    }

    /// Turns the receiving shard, for good: from now on an abort there ends the
    /// pledges of its transaction (document 02, 4). What transactions had
    /// pledged that it has aborted before comes free now; those that it has not
    /// decided go on. Shards may be turned at different times, and a shard that
    /// is turned already refuses.
    ///
    /// ```
    /// use plankeeper::{Answer, Cluster, Input, Output, Refusal, TokenId, Transaction};
    ///
    /// let take = |index| Input {
    ///     token: TokenId { shard: 0, creator: 0, index },
    ///     owner: 10,
    ///     amount: 3,
    /// };
    /// let give = |amount| Output { shard: 0, owner: 20, amount };
    /// // There is no token of index 1, so the one of index 0 is bound for nothing.
    /// let vain = Transaction::new(5).input(take(0)).input(take(1)).output(give(6));
    /// let other = |number| Transaction::new(number).input(take(0)).output(give(3));
    ///
    /// let mut cluster = Cluster::new();
    /// cluster.mint(0, 0, 10, 3)?;
    /// assert_eq!(cluster.register(0, &vain)?.to_string(), "NO ABORT");
    /// assert_eq!(cluster.register(0, &other(6))?.to_string(), "NO ABORT");
    ///
    /// assert_eq!(cluster.turn(0), Ok(Answer::Turned));
    /// assert_eq!(cluster.turn(0), Err(Refusal::TurnedAlready));
    /// assert!(cluster.is_turned(0) && !cluster.is_turned(1));
    /// assert_eq!(cluster.register(0, &other(7))?.to_string(), "YES COMMIT");
    /// # Ok::<(), Refusal>(())
    /// ```
    #[inline]
    pub fn turn(&mut self, receiver: u8) -> Result<Answer, Refusal> {
        answered(self.memory.turn(receiver.into()))
    }

    /// What the shard found of the inputs there when it registered the
    /// transaction that it knows by this number, by a call of its own or by a
    /// vote (document 02, 2): a finding for each, in their order. It stays what it
    /// was then, whatever becomes of the tokens. Refused with 3 where there is no
    /// such shard (a lone one knows of itself alone) or the number is 0, and
    /// with 18 where the number is not known there.
    ///
    /// ```
    /// use plankeeper::{Cluster, Finding, Input, Output, Refusal, TokenId, Transaction};
    ///
    /// let take = |index| Input {
    ///     token: TokenId { shard: 0, creator: 0, index },
    ///     owner: 10,
    ///     amount: 3,
    /// };
    /// let give = |amount| Output { shard: 1, owner: 20, amount };
    /// let first = Transaction::new(5).input(take(0)).output(give(3));
    /// let second = Transaction::new(6).input(take(1)).input(take(0)).output(give(6));
    ///
    /// let mut cluster = Cluster::new();
    /// cluster.mint(0, 0, 10, 3)?;
    /// cluster.register(0, &first)?;
    /// assert_eq!(*cluster.findings(0, 5)?, [Finding::Available]);
    /// assert_eq!(cluster.register(0, &second)?.to_string(), "NO ABORT");
    /// assert_eq!(*cluster.findings(0, 6)?, [Finding::NotHeld, Finding::Pledged(5)]);
    /// assert_eq!(cluster.findings(1, 6), Err(Refusal::NoSuchNumber));
    /// # Ok::<(), Refusal>(())
    /// ```
    pub fn findings(&self, shard: u8, number: u32) -> Result<Findings, Refusal> {
        let mut words = [0; FINDINGS_WORDS];
        let code = self.memory.findings(shard.into(), number, &mut words);
        found(code, &words)
    }

    /// Makes the call that the record stands for.
    #[inline]
    pub fn play(&mut self, record: &Record) -> Result<Answer, Refusal> {
        match *record {
            Record::Register {
                receiver,
                ref transaction,
            } => self.register(receiver, transaction),
            Record::Vote {
                receiver,
                sender,
                verdict,
                ref transaction,
            } => self.deliver(receiver, sender, verdict, transaction),
            Record::Mint {
                receiver,
                index,
                owner,
                amount,
            } => self.mint(receiver, index, owner, amount),
            Record::Turn { receiver } => self.turn(receiver),
        }
    }

    /// The sum of the amounts held (document 01: TOTAL).
    pub fn total(&self) -> u64 {
        self.memory.total()
    }
}
