//! Demand 3's clauses, computed from the calls and the states after them
//! alone: what was registered, available and decided is read off the states,
//! and nothing the reference computes is used.

use std::collections::btree_map::Entry as Place;
use std::collections::{BTreeMap, BTreeSet};

use reference::{
    Cluster, Finding, Input, Known, Outcome, Record, SHARDS, Token, Transaction, Verdict,
};

use crate::local::{available_here, findings_here, inputs_here};

/// What the clauses look at in one shard.
#[derive(Clone, Copy, Debug, PartialEq)]
pub struct View<'a> {
    /// The tokens held.
    pub tokens: &'a [Token],
    /// The transactions known, in order of registration.
    pub known: &'a [Known],
    /// Whether it is turned.
    pub turned: bool,
}

/// The reference's shards.
pub fn views(cluster: &Cluster) -> [View<'_>; SHARDS] {
    cluster.shards().each_ref().map(|shard| View {
        tokens: shard.tokens(),
        known: shard.known(),
        turned: shard.is_turned(),
    })
}

/// A registration (document 01: an entry in the book's row), by a call of its
/// own or by a vote. Its place is that of the call in the list.
struct Entry {
    shard: u8,
    transaction: Transaction,
    /// Which inputs there were available.
    available: Vec<Input>,
    /// Whether a vote has brought it.
    brought: bool,
}

#[derive(Default)]
struct Kept {
    tokens: Vec<Token>,
    known: Vec<Known>,
    turned: bool,
}

impl Kept {
    fn view(&self) -> View<'_> {
        View {
            tokens: &self.tokens,
            known: &self.known,
            turned: self.turned,
        }
    }
}

/// A token's name, and what is kept under it.
type Name = (u8, u32, u8);
type Holding = (u32, u32);
type Ledger = BTreeMap<Name, Holding>;

/// Follows a list of calls from an empty cluster. Panics where a clause does
/// not hold.
#[derive(Default)]
pub struct Clauses {
    before: [Kept; SHARDS],
    genesis: Ledger,
    log: Vec<Entry>,
}

impl Clauses {
    /// Nothing has been called yet.
    pub fn new() -> Self {
        Clauses::default()
    }

    /// Follows one call: whether it was refused, and the shards after it.
    /// Checks that a refused call changes nothing and any other only its
    /// receiver, what becomes of pledges, agreement, finality and the commit
    /// rule.
    pub fn step(&mut self, record: &Record, refused: bool, after: &[View; SHARDS]) {
        let receiver = usize::from(crate::receiver(record));
        for (number, (before, after)) in self.before.iter().zip(after).enumerate() {
            if refused || number != receiver {
                assert!(before.view() == *after, "shard {number} has changed");
            }
        }
        if refused {
            return;
        }
        let now = after[receiver];
        let registered = registered(record, &self.before[receiver]);
        check_turned(record, &self.before[receiver], now);
        if let Some(transaction) = registered {
            self.note_registered(record, transaction, now);
        }
        self.note(record, registered.is_some(), now);
        check_pledges(registered, &self.before[receiver], now);
        for (place, known) in now.known.iter().enumerate() {
            if let Some(earlier) = self.before[receiver].known.get(place) {
                check_finality(earlier, known);
            }
            check_agreement(receiver, known, after);
            self.check_commit_rule(known);
        }

        let kept = &mut self.before[receiver];
        kept.tokens.clear();
        kept.tokens.extend(now.tokens);
        kept.known.clear();
        kept.known.extend(now.known);
        kept.turned = now.turned;
    }

    /// Notes the registration that a call has brought: the receiver now knows
    /// the transaction, behind those that it knew.
    fn note_registered(&mut self, record: &Record, transaction: &Transaction, now: View) {
        let shard = crate::receiver(record);
        let before = &self.before[usize::from(shard)];
        let (last, known) = now.known.split_last().expect("a transaction is known");
        assert_eq!(known, before.known, "known before");
        assert_eq!(last.transaction, *transaction, "known last");
        let own = last.heard[usize::from(shard)];
        assert!(own.is_some(), "it has no vote of its own");
        check_findings(shard, last, before);
        self.log.push(Entry {
            shard,
            transaction: *transaction,
            available: available_here(&inputs_here(shard, transaction), &before.tokens),
            brought: matches!(record, Record::Vote { .. }),
        });
    }

    /// Notes what else a call that was carried out has brought. Checks that the
    /// receiver has become what the call asks for.
    fn note(&mut self, record: &Record, registered: bool, now: View) {
        let before = &self.before[usize::from(crate::receiver(record))];
        match record {
            Record::Turn { .. } | Record::Register { .. } => {}
            Record::Mint {
                receiver,
                index,
                owner,
                amount,
            } => {
                assert_eq!(now.tokens.len(), before.tokens.len() + 1, "tokens minted");
                assert_eq!(now.known, before.known, "known after a mint");
                let new = self
                    .genesis
                    .insert((*receiver, 0, *index), (*owner, *amount));
                assert_eq!(new, None, "a genesis index given twice");
            }
            Record::Vote {
                sender,
                transaction,
                ..
            } => {
                let known = before.known.len() + usize::from(registered);
                assert_eq!(now.known.len(), known, "known after a vote");
                check_noted(*sender, transaction, now);
            }
        }
    }

    /// A shard that has heard all votes holds the transaction committed exactly
    /// when each input was available. Of one that has decided before, by a no,
    /// the rule says nothing.
    fn check_commit_rule(&self, known: &Known) {
        let mut shards = known.transaction.shards();
        if !shards.all(|shard| known.heard[usize::from(shard)].is_some()) {
            return;
        }
        let (decided, all) = (outcome(known), self.all_available(&known.transaction));
        assert_eq!(
            decided == Outcome::Commit,
            all,
            "commit rule: {decided:?}, inputs available: {all}"
        );
    }

    /// Runs the committed transactions one by one on one ledger, by last
    /// registration. Each takes tokens that are there: where two have found one
    /// token available, the one before and the other after it came free, never
    /// both are committed. Where every one of them is decided at all its shards,
    /// that ledger has to hold the shards' tokens; tells whether it was so.
    pub fn serial(&self) -> bool {
        let (committed, whole) = self.committed();
        let mut ledger = self.genesis.clone();
        let mut names: BTreeSet<Name> = ledger.keys().copied().collect();
        for &transaction in committed.values() {
            for input in transaction.used_inputs() {
                let name = (input.token.shard, input.token.creator, input.token.index);
                let taken = ledger.remove(&name);
                assert_eq!(
                    taken,
                    Some((input.owner, input.amount)),
                    "serial ledger: {name:?} for transaction {}",
                    transaction.number
                );
            }
            for (index, output) in (0..).zip(transaction.used_outputs()) {
                let name = (output.shard, transaction.number, index);
                assert!(names.insert(name), "serial ledger: {name:?} made twice");
                ledger.insert(name, (output.owner, output.amount));
            }
        }
        if whole {
            let mut held = Ledger::new();
            for (shard, kept) in (0..).zip(&self.before) {
                for token in &kept.tokens {
                    match held.entry((shard, token.creator, token.index)) {
                        Place::Vacant(place) => place.insert((token.owner, token.amount)),
                        Place::Occupied(place) => panic!("{:?} is held twice", place.key()),
                    };
                }
            }
            assert_eq!(
                held, ledger,
                "serial ledger: the shards' tokens, the ledger"
            );
        }
        whole
    }

    /// How many transactions are committed.
    pub fn commits(&self) -> usize {
        self.committed().0.len()
    }

    /// The numbers of the committed transactions, in the serial order.
    pub fn committed_numbers(&self) -> Vec<u32> {
        let committed = self.committed().0;
        committed.values().map(|t| t.number).collect()
    }

    /// Whether the serial order would be another one if the registrations that
    /// votes have brought did not count.
    pub fn is_ordered_by_votes(&self) -> bool {
        let committed = self.committed().0;
        let by_calls = committed.values().map(|transaction| {
            let last = self.last_registration(transaction, |entry| !entry.brought);
            last.expect("somebody has registered it before there were votes")
        });
        !by_calls.is_sorted()
    }

    /// The place of the last registration of the transaction among these.
    fn last_registration(
        &self,
        transaction: &Transaction,
        counts: impl Fn(&Entry) -> bool,
    ) -> Option<usize> {
        let its = |entry: &Entry| entry.transaction == *transaction && counts(entry);
        self.log.iter().rposition(its)
    }

    /// The transactions that some shard has committed, by the place of their
    /// last registration, and whether each is decided at all its shards.
    fn committed(&self) -> (BTreeMap<usize, &Transaction>, bool) {
        let mut committed = BTreeMap::new();
        let mut whole = true;
        let known = self.before.iter().flat_map(|kept| &kept.known);
        for known in known.filter(|known| outcome(known) == Outcome::Commit) {
            let transaction = &known.transaction;
            let last = self
                .last_registration(transaction, |_| true)
                .expect("a committed transaction was registered");
            committed.insert(last, transaction);
            for shard in transaction.shards() {
                let mut there = self.before[usize::from(shard)].known.iter();
                let there = there.find(|there| there.transaction == *transaction);
                whole &= there.is_some_and(|there| outcome(there) != Outcome::Wait);
            }
        }
        (committed, whole)
    }

    /// Whether each input was available when its shard registered the
    /// transaction.
    fn all_available(&self, transaction: &Transaction) -> bool {
        transaction.used_inputs().iter().all(|input| {
            let mut log = self.log.iter();
            let entry = log.find(|entry| {
                entry.shard == input.token.shard && entry.transaction == *transaction
            });
            entry
                .expect("all votes are heard, so all shards have registered")
                .available
                .contains(input)
        })
    }
}

/// The transaction that a call which was carried out has registered at its
/// receiver: by its own call, or by a vote on a number that was not known
/// there.
fn registered<'a>(record: &'a Record, before: &Kept) -> Option<&'a Transaction> {
    let is_known = |number| knows(&before.known, number);
    match record {
        Record::Register { transaction, .. } => Some(transaction),
        Record::Vote { transaction, .. } if !is_known(transaction.number) => Some(transaction),
        Record::Vote { .. } | Record::Mint { .. } | Record::Turn { .. } => None,
    }
}

/// Whether a transaction of this number is among them.
pub(crate) fn knows(known: &[Known], number: u32) -> bool {
    let mut numbers = known.iter().map(|known| known.transaction.number);
    numbers.any(|other| other == number)
}

/// What a registration has found of the inputs here is what the shard was before
/// it (document 02, slip 2); a token that is pledged was so to a transaction
/// known before.
fn check_findings(shard: u8, registered: &Known, before: &Kept) {
    let found = findings_here(&inputs_here(shard, &registered.transaction), &before.tokens);
    let kept: Vec<Finding> = registered.findings.iter().copied().flatten().collect();
    assert_eq!(kept, found, "findings: kept, and the tokens before");
    for finding in kept {
        if let Finding::Pledged(number) = finding {
            assert!(knows(&before.known, number), "pledged to an unknown one");
        }
    }
}

/// A token but for its pledge: creator, index, owner, amount.
type Named = (u32, u8, u32, u32);

fn named(token: &Token) -> Named {
    (token.creator, token.index, token.owner, token.amount)
}

/// Also after an abort: else the shard would never have heard all votes.
fn check_noted(sender: u8, transaction: &Transaction, now: View) {
    let mut known = now.known.iter();
    let known = known.find(|known| known.transaction == *transaction);
    let heard = known.and_then(|known| known.heard[usize::from(sender)]);
    assert!(heard.is_some(), "a vote was not noted");
}

/// A shard is turned by its turn, once and for the whole week. The turn changes
/// nothing else but pledges.
fn check_turned(record: &Record, before: &Kept, now: View) {
    let Record::Turn { .. } = record else {
        assert_eq!(now.turned, before.turned, "turned without a turn");
        return;
    };
    let turned = (before.turned, now.turned);
    assert_eq!(turned, (false, true), "turned before and after");
    assert_eq!(now.known, before.known, "known after a turn");
    let names = |tokens: &[Token]| -> Vec<Named> { tokens.iter().map(named).collect() };
    let (now, before) = (names(now.tokens), names(&before.tokens));
    assert_eq!(now, before, "tokens after a turn");
}

/// A pledge begins with the registration of its transaction. Of a token that is
/// still held it ends only where the shard is turned and has aborted that
/// transaction; and there it has ended.
fn check_pledges(registered: Option<&Transaction>, before: &Kept, now: View) {
    let registered = registered.map(|transaction| transaction.number);
    let aborted = |number: u32| {
        let mut known = now.known.iter();
        let known = known.find(|known| known.transaction.number == number);
        known.is_some_and(|known| outcome(known) == Outcome::Abort)
    };
    for token in now.tokens {
        let ended = |number| now.turned && aborted(number);
        if let Some(number) = token.pledge {
            assert!(!ended(number), "pledged to {number}, which is aborted");
        }
        let mut earlier = before.tokens.iter();
        let earlier = earlier.find(|earlier| named(earlier) == named(token));
        let pledge = earlier.and_then(|earlier| earlier.pledge);
        match (pledge, token.pledge) {
            (before, now) if before == now => {}
            (Some(number), None) => assert!(ended(number), "a pledge to {number} has ended"),
            (None, begun) => assert_eq!(begun, registered, "a pledge has begun"),
            (before, now) => panic!("a pledge to {before:?} is one to {now:?}"),
        }
    }
}

/// A verdict heard stays, and so does the decision, while votes still come in;
/// and so does what the registration has found.
fn check_finality(earlier: &Known, known: &Known) {
    assert_eq!(
        known.transaction, earlier.transaction,
        "known in another order"
    );
    assert_eq!(known.findings, earlier.findings, "findings have changed");
    for (now, before) in known.heard.iter().zip(earlier.heard) {
        assert!(before.is_none() || *now == before, "a verdict has changed");
    }
    let decided = outcome(earlier);
    assert!(
        decided == Outcome::Wait || outcome(known) == decided,
        "finality: {decided:?} has changed"
    );
}

/// No shard has decided the transaction otherwise, whatever votes it has heard.
fn check_agreement(receiver: usize, known: &Known, after: &[View; SHARDS]) {
    let decided = outcome(known);
    if decided == Outcome::Wait {
        return;
    }
    for (number, other) in after.iter().enumerate() {
        let mut same = other.known.iter();
        if let Some(other) = same.find(|other| other.transaction == known.transaction) {
            let other = outcome(other);
            assert!(
                other == Outcome::Wait || other == decided,
                "agreement: {decided:?} at {receiver}, {other:?} at {number}"
            );
        }
    }
}

/// Document 02's decision: one no suffices for an abort, a commit needs every
/// yes.
pub(crate) fn outcome(known: &Known) -> Outcome {
    let heard = |shard: u8| known.heard[usize::from(shard)];
    let mut shards = known.transaction.shards();
    if shards.any(|shard| heard(shard) == Some(Verdict::No)) {
        return Outcome::Abort;
    }
    let mut shards = known.transaction.shards();
    if shards.all(|shard| heard(shard) == Some(Verdict::Yes)) {
        Outcome::Commit
    } else {
        Outcome::Wait
    }
}
