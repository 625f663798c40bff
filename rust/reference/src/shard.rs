//! One shard's ledger (document 01: a pantry).

use crate::finding::{Finding, Findings};
use crate::transaction::{
    GENESIS, Input, MAX_SHARD, Output, SHARDS, SLOTS, TokenId, Transaction, cause, holding_fits,
    takes_part,
};
use crate::{Record, Refusal, Refusal::*};

/// A shard's vote on a transaction (document 01: verdict).
#[derive(Clone, Copy, Debug, PartialEq, Eq, Hash)]
pub enum Verdict {
    /// Some input here was not available.
    No,
    /// All inputs here were available.
    Yes,
}

/// What a shard makes of a transaction (document 01: outcome).
#[derive(Clone, Copy, Debug, PartialEq, Eq)]
pub enum Outcome {
    /// All votes heard so far are yes, and some are still missing.
    Wait,
    /// All votes were heard and are yes; the tokens here are exchanged.
    Commit,
    /// Some vote heard is no, whatever is still missing (document 02, slip 5);
    /// no token has changed but for its pledge, which ends where the shard is
    /// turned (slip 4).
    Abort,
}

/// What a call did that was not refused.
#[derive(Clone, Copy, Debug, PartialEq, Eq)]
pub enum Done {
    /// Document 01: opened.
    Minted,
    /// The transaction is known now.
    Registered {
        /// This shard's own vote.
        verdict: Verdict,
        /// The outcome here.
        outcome: Outcome,
    },
    /// A fresh vote was noted, also one that comes after an abort; the outcome
    /// here after it.
    Heard(Outcome),
    /// The same vote was heard before; the outcome here.
    Again(Outcome),
    /// An abort ends its pledges here from now on (document 02, slip 4).
    Turned,
    /// A vote on a number that was not known here has brought its transaction:
    /// that is known now, and the vote is noted (document 02, slip 6).
    Brought {
        /// This shard's own vote.
        verdict: Verdict,
        /// The outcome here after both.
        outcome: Outcome,
    },
}

/// The answer to a call.
pub type Answer = Result<Done, Refusal>;

/// How much a shard can keep.
#[derive(Clone, Copy, Debug, PartialEq, Eq, Hash)]
pub struct Limits {
    /// Tokens held, those still to be made included.
    pub tokens: usize,
    /// Transactions known, decided ones included.
    pub transactions: usize,
    /// Genesis indices.
    pub genesis: u8,
}

/// Document 01's limits.
pub const LIMITS: Limits = Limits {
    tokens: 128,
    transactions: 32,
    genesis: GENESIS,
};

/// A token held. Its shard is the one that holds it.
#[derive(Clone, Copy, Debug, PartialEq, Eq, Hash)]
pub struct Token {
    /// Document 01: making swap, 0 for an opening token.
    pub creator: u32,
    /// Document 01: position.
    pub index: u8,
    /// Document 01: household.
    pub owner: u32,
    /// Document 01: portions.
    pub amount: u32,
    /// Number of the transaction it is pledged to. A shard knows a number for
    /// one transaction only.
    pub pledge: Option<u32>,
}

/// A transaction registered at a shard.
#[derive(Clone, Copy, Debug, PartialEq, Eq, Hash)]
pub struct Known {
    /// Document 01: swap.
    pub transaction: Transaction,
    /// The verdicts heard, by sender, the shard's own included.
    pub heard: [Option<Verdict>; SHARDS],
    /// What the registration found of the inputs here, right before it pledged
    /// any (document 02, slip 2).
    pub findings: Findings,
}

/// One shard's ledger.
#[derive(Clone, Debug, PartialEq, Eq, Hash)]
pub struct Shard {
    number: u8,
    limits: Limits,
    tokens: Vec<Token>,
    given: Vec<bool>,
    known: Vec<Known>,
    turned: bool,
}

impl Token {
    fn is_named(&self, shard: u8, id: TokenId) -> bool {
        id.shard == shard && id.creator == self.creator && id.index == self.index
    }

    /// Whether the input at this shard is available as this token.
    fn is_available(&self, shard: u8, input: &Input) -> bool {
        self.is_named(shard, input.token)
            && self.owner == input.owner
            && self.amount == input.amount
            && self.pledge.is_none()
    }
}

impl Known {
    /// The outcome that the verdicts heard so far bring: one no suffices for an
    /// abort, a commit needs every yes (document 02, slip 5).
    pub fn outcome(&self) -> Outcome {
        let mut outcome = Outcome::Commit;
        for shard in self.transaction.shards() {
            match self.heard[usize::from(shard)] {
                Some(Verdict::No) => return Outcome::Abort,
                None => outcome = Outcome::Wait,
                Some(Verdict::Yes) => {}
            }
        }
        outcome
    }
}

impl Shard {
    /// An empty shard with this number, 0 to 7.
    pub fn new(number: u8, limits: Limits) -> Self {
        assert!(number <= MAX_SHARD, "there is no shard {number}");
        Shard {
            number,
            limits,
            tokens: Vec::with_capacity(limits.tokens),
            given: vec![false; limits.genesis.into()],
            known: Vec::with_capacity(limits.transactions),
            turned: false,
        }
    }

    /// This shard's number.
    pub fn number(&self) -> u8 {
        self.number
    }

    /// The tokens held: made ones behind those held before.
    pub fn tokens(&self) -> &[Token] {
        &self.tokens
    }

    /// Which genesis indices were given.
    pub fn given(&self) -> &[bool] {
        &self.given
    }

    /// The transactions known, in order of registration, by a call or by a
    /// vote.
    pub fn known(&self) -> &[Known] {
        &self.known
    }

    /// Whether an abort ends its pledges here.
    pub fn is_turned(&self) -> bool {
        self.turned
    }

    /// The sum of the amounts held.
    pub fn total(&self) -> u64 {
        self.tokens
            .iter()
            .map(|token| u64::from(token.amount))
            .sum()
    }

    /// Makes the call that the record's fields stand for.
    pub fn play(&mut self, record: &Record) -> Answer {
        match *record {
            Record::Register {
                receiver,
                ref transaction,
            } => self.register(receiver, transaction),
            Record::Vote {
                receiver,
                sender,
                verdict,
                ref transaction,
            } => self.hear(receiver, sender, verdict, transaction),
            Record::Mint {
                receiver,
                index,
                owner,
                amount,
            } => self.mint(receiver, index, owner, amount),
            Record::Turn { receiver } => self.turn(receiver),
        }
    }

    /// Gives the shard a genesis token (document 01: opening).
    pub fn mint(&mut self, receiver: u8, index: u8, owner: u32, amount: u32) -> Answer {
        let fits =
            receiver == self.number && index < self.limits.genesis && holding_fits(owner, amount);
        if !fits {
            return Err(OutOfRange);
        }
        if !self.known.is_empty() {
            return Err(MintTooLate);
        }
        let given = &mut self.given[usize::from(index)];
        if *given {
            return Err(IndexGiven);
        }
        *given = true;
        self.tokens.push(Token {
            creator: 0,
            index,
            owner,
            amount,
            pledge: None,
        });
        Ok(Done::Minted)
    }

    /// Pledges the inputs here and votes (document 01: registration). One that
    /// follows close behind another is held off, to be sent again later
    /// (document 02, slip 1).
    pub fn register(&mut self, receiver: u8, transaction: &Transaction) -> Answer {
        if receiver != self.number {
            return Err(OutOfRange);
        }
        self.check_transaction(transaction)?;
        if !takes_part(receiver, transaction) {
            return Err(NotTakingPart);
        }
        if let Some(place) = self.find(transaction.number) {
            let same = self.known[place].transaction == *transaction;
            return Err(if same { KnownAlready } else { NumberTaken });
        }
        let (verdict, outcome) = self.enter(transaction)?;
        Ok(Done::Registered { verdict, outcome })
    }

    /// Notes another shard's vote (document 01: vote). One on a number that is
    /// not known here brings its transaction (document 02, slip 6).
    pub fn hear(
        &mut self,
        receiver: u8,
        sender: u8,
        verdict: u8,
        transaction: &Transaction,
    ) -> Answer {
        let verdict = self.check_vote(receiver, sender, verdict, transaction)?;
        self.note(sender, verdict, transaction)
    }

    /// Turns the shard, for the rest of the week (document 02, slip 4): what is
    /// pledged to transactions that it has aborted comes free, and from now on
    /// each abort frees what is pledged to its transaction.
    pub fn turn(&mut self, receiver: u8) -> Answer {
        if receiver != self.number {
            return Err(OutOfRange);
        }
        if self.turned {
            return Err(TurnedAlready);
        }
        self.turned = true;
        for place in 0..self.known.len() {
            if self.known[place].outcome() == Outcome::Abort {
                self.free(place);
            }
        }
        Ok(Done::Turned)
    }

    /// What the registration of the transaction with this number found of its
    /// inputs here (document 02, slip 2: a steward's call). It changes nothing.
    pub fn findings(&self, shard: u8, number: u32) -> Result<Findings, Refusal> {
        if shard != self.number || number == 0 {
            return Err(OutOfRange);
        }
        let place = self.find(number).ok_or(NoSuchNumber)?;
        Ok(self.known[place].findings)
    }

    /// The checks of a vote that its fields and this shard's number decide,
    /// refusals 3 to 6; the cluster has one of its own behind them.
    pub(crate) fn check_vote(
        &self,
        receiver: u8,
        sender: u8,
        verdict: u8,
        transaction: &Transaction,
    ) -> Result<Verdict, Refusal> {
        if receiver != self.number || sender > MAX_SHARD {
            return Err(OutOfRange);
        }
        let verdict = match verdict {
            0 => Verdict::No,
            1 => Verdict::Yes,
            _ => return Err(OutOfRange),
        };
        self.check_transaction(transaction)?;
        if !takes_part(receiver, transaction) || !takes_part(sender, transaction) {
            return Err(NotTakingPart);
        }
        Ok(verdict)
    }

    /// Notes a vote that passed [`Self::check_vote`]. On a number that is not
    /// known here another shard's vote brings its transaction; the shard's own
    /// has nothing to bring, for it comes with the registration.
    pub(crate) fn note(
        &mut self,
        sender: u8,
        verdict: Verdict,
        transaction: &Transaction,
    ) -> Answer {
        let Some(place) = self.find(transaction.number) else {
            if sender == self.number {
                return Err(NumberUnknown);
            }
            return self.bring(sender, verdict, transaction);
        };
        let known = &self.known[place];
        if known.transaction != *transaction {
            return Err(NumberTaken);
        }
        match known.heard[usize::from(sender)] {
            Some(before) if before != verdict => Err(OtherVerdict),
            Some(_) => Ok(Done::Again(known.outcome())),
            None => Ok(Done::Heard(self.hear_fresh(place, sender, verdict))),
        }
    }

    /// Registers the transaction that a vote brings, then hears the vote. It is
    /// fresh: nobody but this shard itself has been heard. Where the
    /// transaction cannot be entered, the vote is not heard either.
    fn bring(&mut self, sender: u8, verdict: Verdict, transaction: &Transaction) -> Answer {
        let (own, _) = self.enter(transaction)?;
        let last = self.known.len() - 1;
        Ok(Done::Brought {
            verdict: own,
            outcome: self.hear_fresh(last, sender, verdict),
        })
    }

    /// Notes a vote that was not heard before on the known transaction at this
    /// place, and gives the outcome after it.
    fn hear_fresh(&mut self, place: usize, sender: u8, verdict: Verdict) -> Outcome {
        self.known[place].heard[usize::from(sender)] = Some(verdict);
        self.decide(place)
    }

    /// Enters a transaction whose number is not known here, by a registration
    /// or by a vote: pledges its inputs here and notes this shard's own vote.
    /// Gives that and the outcome.
    fn enter(&mut self, transaction: &Transaction) -> Result<(Verdict, Outcome), Refusal> {
        self.check_entry(transaction)?;
        let findings = self.look(transaction);
        let verdict = self.pledge(transaction);
        let mut heard = [None; SHARDS];
        heard[usize::from(self.number)] = Some(verdict);
        self.known.push(Known {
            transaction: *transaction,
            heard,
            findings,
        });
        Ok((verdict, self.decide(self.known.len() - 1)))
    }

    /// What keeps a transaction out whose number is not known here: refusals 9,
    /// 10 and 17.
    fn check_entry(&self, transaction: &Transaction) -> Result<(), Refusal> {
        if self.known.len() >= self.limits.transactions {
            return Err(TransactionsFull);
        }
        let new = outputs_at(self.number, transaction).count();
        if self.tokens.len() + self.reserved() + new > self.limits.tokens {
            return Err(TokensFull);
        }
        if self.holds_off(transaction) {
            return Err(HeldOff);
        }
        Ok(())
    }

    /// The vote that this shard has given on this very transaction.
    pub(crate) fn vote_given(&self, transaction: &Transaction) -> Option<Verdict> {
        let known = &self.known[self.find(transaction.number)?];
        if known.transaction == *transaction {
            known.heard[usize::from(self.number)]
        } else {
            None
        }
    }

    fn check_transaction(&self, transaction: &Transaction) -> Result<(), Refusal> {
        cause(self.limits.genesis, transaction).map_or(Ok(()), Err)
    }

    /// Place of the known transaction with this number.
    fn find(&self, number: u32) -> Option<usize> {
        self.known
            .iter()
            .position(|known| known.transaction.number == number)
    }

    /// Tokens that undecided transactions may still make here.
    fn reserved(&self) -> usize {
        self.known
            .iter()
            .filter(|known| known.outcome() == Outcome::Wait)
            .map(|known| outputs_at(self.number, &known.transaction).count())
            .sum()
    }

    /// Whether an input is a token that may still be made here. Its owner and
    /// amount play no part: whatever they are, the transaction waits for the
    /// other one's decision.
    fn holds_off(&self, transaction: &Transaction) -> bool {
        let mut inputs = transaction.used_inputs().iter();
        inputs.any(|input| self.may_be_made(input.token))
    }

    /// Whether the token is an output here of an undecided transaction.
    fn may_be_made(&self, token: TokenId) -> bool {
        let Some(place) = self.find(token.creator) else {
            return false;
        };
        let creator = &self.known[place];
        let mut outputs = outputs_at(self.number, &creator.transaction);
        token.shard == self.number
            && creator.outcome() == Outcome::Wait
            && outputs.any(|(index, _)| index == token.index)
    }

    /// What there is to be found of each input here.
    fn look(&self, transaction: &Transaction) -> Findings {
        let inputs = transaction.used_inputs().iter();
        let here = inputs.filter(|input| input.token.shard == self.number);
        let mut findings = [None; SLOTS];
        for (place, input) in findings.iter_mut().zip(here) {
            *place = Some(self.look_at(input));
        }
        findings
    }

    fn look_at(&self, input: &Input) -> Finding {
        let mut tokens = self.tokens.iter();
        match tokens.find(|token| token.is_named(self.number, input.token)) {
            None => Finding::NotHeld,
            Some(token) if token.owner != input.owner => Finding::OtherOwner,
            Some(token) if token.amount != input.amount => Finding::OtherAmount,
            Some(token) => token.pledge.map_or(Finding::Available, Finding::Pledged),
        }
    }

    /// Pledges every available input here, also beside one that is not, and
    /// gives the vote.
    fn pledge(&mut self, transaction: &Transaction) -> Verdict {
        let shard = self.number;
        let mut verdict = Verdict::Yes;
        let inputs = transaction.used_inputs().iter();
        for input in inputs.filter(|input| input.token.shard == shard) {
            let mut tokens = self.tokens.iter_mut();
            match tokens.find(|token| token.is_available(shard, input)) {
                Some(token) => token.pledge = Some(transaction.number),
                None => verdict = Verdict::No,
            }
        }
        verdict
    }

    /// The outcome after a verdict was added; a commit is carried out at once,
    /// and once only, for it takes the last vote. After an abort the pledges
    /// stay, unless the shard is turned; a vote that comes later finds none.
    fn decide(&mut self, place: usize) -> Outcome {
        let outcome = self.known[place].outcome();
        match outcome {
            Outcome::Commit => self.commit(place),
            Outcome::Abort if self.turned => self.free(place),
            Outcome::Abort | Outcome::Wait => {}
        }
        outcome
    }

    /// Ends all pledges to the known transaction at this place.
    fn free(&mut self, place: usize) {
        let number = self.known[place].transaction.number;
        let tokens = self.tokens.iter_mut();
        for token in tokens.filter(|token| token.pledge == Some(number)) {
            token.pledge = None;
        }
    }

    fn commit(&mut self, place: usize) {
        let shard = self.number;
        let transaction = &self.known[place].transaction;
        self.tokens.retain(|token| {
            let mut inputs = transaction.used_inputs().iter();
            !inputs.any(|input| token.is_named(shard, input.token))
        });
        let made = outputs_at(shard, transaction).map(|(index, output)| Token {
            creator: transaction.number,
            index,
            owner: output.owner,
            amount: output.amount,
            pledge: None,
        });
        self.tokens.extend(made);
    }
}

/// The outputs at a shard, each with its place among all outputs.
fn outputs_at(shard: u8, transaction: &Transaction) -> impl Iterator<Item = (u8, &Output)> {
    (0..)
        .zip(transaction.used_outputs())
        .filter(move |(_, output)| output.shard == shard)
}
