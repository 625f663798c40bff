//! What happened at a call, beside its answer.

use reference::{
    Answer, Done, Finding, Input, Known, LIMITS, Outcome, Output, Record, Refusal, SHARDS, Shard,
    Token, TokenId, Transaction, Verdict, takes_part,
};

use crate::answers::label;
use crate::brought::Bringing;
use crate::findings::{self, Way};
use crate::local::{available_here, inputs_here};
use crate::tally::Tally;
use crate::transactions::{held, inputs_at, is_all_heard, known, outputs_at, receiver};

/// Kinds of events at a shard.
pub const SHARD_EVENTS: [&str; 17] = [
    "no, with a pledge",
    "no, without a pledge",
    "no, token not held",
    "no, other owner",
    "no, other amount",
    "no, token pledged",
    "no, not to be made here",
    "held off by the name alone",
    "held off, later committed",
    "held off, later aborted",
    "yes, with outputs only",
    "own vote again",
    "made token destroyed",
    "127 tokens held",
    "128 tokens held",
    "32 transactions known",
    "freed space used again",
];

/// What an abort brings that comes before all votes are in, at a shard too.
pub const EARLY_ABORTS: [&str; 7] = [
    "aborted early, by its own no",
    "aborted early, by a no heard",
    "yes after an abort",
    "no after an abort",
    "all votes in after an early abort",
    "not too full, another aborted early",
    "not held off, another aborted early",
];

/// What a turned shard brings, and what one keeps that is not turned. Tokens are
/// counted one by one.
pub const TURNS: [&str; 9] = [
    "freed by a turn",
    "pledged over a turn",
    "freed by a no heard early",
    "freed by a no heard last",
    "freed by its own no",
    "freed and pledged again",
    "freed and spent",
    "committed at a turned shard",
    "no, pledged to an aborted one",
];

/// What only a cluster shows. How many of its shards are turned is counted once
/// a week, with the first call after which it is so.
pub const CLUSTER_EVENTS: [&str; 9] = [
    "vote overtaking another",
    "two commits of one number",
    "brought by the vote of one that was brought",
    "committed, brought to two of its shards or more",
    NONE_TURNED,
    SOME_TURNED,
    ALL_TURNED,
    "committed, turned at some of its shards",
    "aborted, turned at some of its shards",
];

const NONE_TURNED: &str = "none turned";
const SOME_TURNED: &str = "some turned";
const ALL_TURNED: &str = "all eight turned";

/// What has to be noted before a call, to tell what the call did.
#[derive(Clone, Debug)]
pub struct Before {
    /// The receiving shard's place among the shards.
    pub place: usize,
    /// The tokens that it held.
    tokens: Vec<Token>,
}

impl Before {
    /// Notes it of a lone shard or of all eight. There is nothing to note if
    /// none has the receiver's number.
    pub fn of(shards: &[Shard], record: &Record) -> Option<Self> {
        let number = receiver(record);
        let place = shards.iter().position(|shard| shard.number() == number)?;
        Some(Before {
            place,
            tokens: shards[place].tokens().to_vec(),
        })
    }

    /// Those tokens that were pledged.
    fn pledged(&self) -> impl Iterator<Item = &Token> {
        self.tokens.iter().filter(|token| token.pledge.is_some())
    }
}

/// Counts a week's answers and events, call by call.
pub struct Events<'a> {
    /// Counts them.
    pub tally: &'a mut Tally,
    /// The transactions held off so far, each with its shard.
    held_off: Vec<(u8, Transaction)>,
    /// The tokens that came free so far.
    freed: Vec<TokenId>,
    /// What votes have brought so far.
    bringing: Bringing,
    /// How many shards of the cluster are turned, in words.
    turned: &'static str,
}

/// A registration or a vote that was carried out.
struct Carried<'a> {
    record: &'a Record,
    transaction: &'a Transaction,
    done: Done,
    before: &'a Before,
    /// The receiver after the call.
    shard: &'a Shard,
    /// The lone shard or all eight after the call.
    shards: &'a [Shard],
}

impl Tally {
    /// Counts a week from its first call on.
    pub fn week(&mut self) -> Events<'_> {
        Events {
            tally: self,
            held_off: Vec::new(),
            freed: Vec::new(),
            bringing: Bringing::default(),
            turned: "",
        }
    }
}

impl Events<'_> {
    /// Counts the answer, and what happened: what was noted before the call,
    /// and the lone shard or all eight after it.
    pub fn call(
        &mut self,
        record: &Record,
        answer: Answer,
        before: Option<Before>,
        shards: &[Shard],
    ) {
        self.tally.add(label(answer));
        self.count_turned(shards);
        let Some(before) = before else {
            return;
        };
        let shard = &shards[before.place];
        let done = match answer {
            Ok(done) => done,
            Err(refusal) => return self.refuse(shard, record, refusal),
        };
        let carried = |transaction| Carried {
            record,
            transaction,
            done,
            before: &before,
            shard,
            shards,
        };
        match record {
            Record::Mint { .. } => {}
            Record::Turn { .. } => self.turn(shard, &before),
            Record::Register { transaction, .. } => self.enter(&carried(transaction)),
            Record::Vote {
                sender,
                transaction,
                ..
            } => self.vote(&carried(transaction), *sender),
        }
        self.count_full(shard);
    }

    fn count_full(&mut self, shard: &Shard) {
        match shard.tokens().len() {
            127 => self.tally.add("127 tokens held"),
            128 => self.tally.add("128 tokens held"),
            _ => {}
        }
        if shard.known().len() == 32 {
            self.tally.add("32 transactions known");
        }
    }

    /// A call was refused, and has left the shard as it was.
    fn refuse(&mut self, shard: &Shard, record: &Record, refusal: Refusal) {
        self.bringing.refuse(self.tally, record, refusal);
        if let (
            Refusal::HeldOff,
            Record::Register { transaction, .. } | Record::Vote { transaction, .. },
        ) = (refusal, record)
        {
            self.hold_off(shard, transaction);
        }
    }

    /// A transaction was held off, whether it was to be registered or brought.
    fn hold_off(&mut self, shard: &Shard, transaction: &Transaction) {
        let mut inputs = inputs_at(shard.number(), transaction);
        if !inputs.any(|input| is_to_be_made(shard, input)) {
            self.tally.add("held off by the name alone");
        }
        self.held_off.push((shard.number(), *transaction));
    }

    /// Counts how many shards are turned, if that has become another word.
    fn count_turned(&mut self, shards: &[Shard]) {
        if shards.len() < SHARDS {
            return;
        }
        let now = match shards.iter().filter(|shard| shard.is_turned()).count() {
            0 => NONE_TURNED,
            SHARDS => ALL_TURNED,
            _ => SOME_TURNED,
        };
        if now != self.turned {
            self.turned = now;
            self.tally.add(now);
        }
    }

    fn turn(&mut self, shard: &Shard, before: &Before) {
        self.free("freed by a turn", shard, before);
        let pledged = shard.tokens().iter().filter(|token| token.pledge.is_some());
        for _ in pledged {
            self.tally.add("pledged over a turn");
        }
    }

    /// Counts the tokens that have lost their pledge and are still held.
    fn free(&mut self, label: &str, shard: &Shard, before: &Before) {
        for token in before.pledged() {
            let id = id(shard.number(), token);
            if held(shard.tokens(), id).is_some_and(|token| token.pledge.is_none()) {
                self.tally.add(label);
                self.freed.push(id);
            }
        }
    }

    /// A transaction was registered, by a call or by a vote that is still to be
    /// heard.
    fn enter(&mut self, call: &Carried) {
        self.count_findings(call);
        let entered = call.entered();
        let takes = inputs_at(call.shard.number(), call.transaction)
            .next()
            .is_some();
        match call.own_verdict() {
            Verdict::Yes if takes => {}
            Verdict::Yes => self.tally.add("yes, with outputs only"),
            Verdict::No => {
                self.pledges_of_no(call);
                self.causes_of_no(call);
                if !is_all_heard(&entered) {
                    self.tally.add("aborted early, by its own no");
                }
            }
        }
        for input in inputs_at(call.shard.number(), call.transaction) {
            let token = held(call.shard.tokens(), input.token);
            let pledged = token.is_some_and(|token| token.pledge == Some(call.transaction.number));
            if pledged && self.freed.contains(&input.token) {
                self.tally.add("freed and pledged again");
            }
        }
        self.count_let_through(call);
        self.decide(call, entered.outcome());
    }

    /// What it has found of its inputs here.
    fn count_findings(&mut self, call: &Carried) {
        let way = if call.is_brought() {
            Way::Brought
        } else {
            Way::Registered
        };
        let inputs = inputs_here(call.shard.number(), call.transaction);
        let kept = call.known().findings;
        let found: Vec<Finding> = kept.into_iter().flatten().collect();
        findings::count(self.tally, way, &inputs, &found, &call.before.tokens);
    }

    /// What a no has pledged: what was available, and at a turned shard it is
    /// free again in the same call.
    fn pledges_of_no(&mut self, call: &Carried) {
        let inputs = inputs_here(call.shard.number(), call.transaction);
        let available = available_here(&inputs, &call.before.tokens);
        for &Input { token: id, .. } in &available {
            if held(call.shard.tokens(), id).is_some_and(|token| token.pledge.is_none()) {
                self.tally.add("freed by its own no");
                if call.is_brought() {
                    self.tally.add("brought, freed by its own no");
                }
                self.freed.push(id);
            }
        }
        self.tally.add(if available.is_empty() {
            "no, without a pledge"
        } else {
            "no, with a pledge"
        });
    }

    /// Counts a registration that would have been refused if transactions that
    /// were aborted before all votes were in still waited for these votes.
    fn count_let_through(&mut self, call: &Carried) {
        let here = call.shard.number();
        let others = call.shard.known().iter();
        let others = others.filter(|known| known.transaction != *call.transaction);
        let open = others.filter(|known| !is_all_heard(known));
        let open: Vec<&Transaction> = open.map(|known| &known.transaction).collect();
        let outputs = open.iter().map(|open| outputs_at(here, open).count());
        let to_come: usize = outputs.sum();
        let new = outputs_at(here, call.transaction).count();
        if call.before.tokens.len() + to_come + new > LIMITS.tokens {
            self.tally.add("not too full, another aborted early");
        }
        let makes = |open: &Transaction, token: TokenId| {
            let mut indices = outputs_at(here, open).map(|(index, _)| index);
            open.number == token.creator && indices.any(|index| index == token.index)
        };
        let mut inputs = inputs_at(here, call.transaction);
        if inputs.any(|input| open.iter().any(|open| makes(open, input.token))) {
            self.tally.add("not held off, another aborted early");
        }
    }

    fn causes_of_no(&mut self, call: &Carried) {
        for input in inputs_at(call.shard.number(), call.transaction) {
            match held(&call.before.tokens, input.token) {
                None => {
                    self.tally.add("no, token not held");
                    if undecided(call.shard, input.token.creator).is_some() {
                        self.tally.add("no, not to be made here");
                    }
                }
                Some(token) if token.owner != input.owner => self.tally.add("no, other owner"),
                Some(token) if token.amount != input.amount => self.tally.add("no, other amount"),
                Some(Token {
                    pledge: Some(number),
                    ..
                }) => {
                    self.tally.add("no, token pledged");
                    if outcome_of(call.shard, *number) == Some(Outcome::Abort) {
                        self.tally.add("no, pledged to an aborted one");
                    }
                }
                Some(_) => {}
            }
        }
    }

    fn vote(&mut self, call: &Carried, sender: u8) {
        match call.done {
            Done::Again(_) => {
                if sender == call.shard.number() {
                    self.tally.add("own vote again");
                }
                if self.bringing.has_brought(call.record) {
                    self.tally.add("brought, the same vote again");
                }
            }
            Done::Heard(outcome) => self.hear(call, sender, outcome),
            Done::Brought { outcome, .. } => {
                self.enter(call);
                self.hear(call, sender, outcome);
                self.bring(call, sender);
            }
            _ => {}
        }
    }

    /// A vote has brought its transaction, and both steps are counted.
    fn bring(&mut self, call: &Carried, sender: u8) {
        let own = call.own_verdict();
        for input in inputs_at(call.shard.number(), call.transaction) {
            let token = held(call.shard.tokens(), input.token);
            if own == Verdict::Yes && token.is_some_and(|token| token.pledge.is_none()) {
                self.tally.add("brought, freed by the no that brought it");
                self.freed.push(input.token);
            }
        }
        if self.bringing.is_brought(sender, call.transaction) {
            self.tally
                .add("brought by the vote of one that was brought");
        }
        self.bringing.bring(self.tally, call.record, own);
    }

    /// A fresh vote was noted. One that comes after an abort decides nothing.
    fn hear(&mut self, call: &Carried, sender: u8, outcome: Outcome) {
        if call.overtakes(sender) {
            self.tally.add("vote overtaking another");
        }
        let now = call.known();
        let mut before = *now;
        let verdict = before.heard[usize::from(sender)].take();
        let early = !is_all_heard(now);
        if before.outcome() != Outcome::Abort {
            if outcome == Outcome::Abort && early {
                self.tally.add("aborted early, by a no heard");
                self.free("freed by a no heard early", call.shard, call.before);
            } else if outcome == Outcome::Abort {
                self.free("freed by a no heard last", call.shard, call.before);
            }
            return self.decide(call, outcome);
        }
        self.tally.add(match verdict {
            Some(Verdict::No) => "no after an abort",
            _ => "yes after an abort",
        });
        if !early {
            self.tally.add("all votes in after an early abort");
        }
    }

    fn decide(&mut self, call: &Carried, outcome: Outcome) {
        let decided = (call.shard.number(), *call.transaction);
        let held_off = self.held_off.contains(&decided);
        match outcome {
            Outcome::Commit if held_off => self.tally.add("held off, later committed"),
            Outcome::Abort if held_off => self.tally.add("held off, later aborted"),
            _ => {}
        }
        // Not by the vote that has brought it, which is noted behind this.
        let brought = self.bringing.is_brought(decided.0, call.transaction);
        match outcome {
            Outcome::Commit if brought => self.tally.add("brought, later committed"),
            Outcome::Abort if brought => self.tally.add("brought, later aborted"),
            _ => {}
        }
        if call.is_mixed() {
            match outcome {
                Outcome::Wait => {}
                Outcome::Commit => self.tally.add("committed, turned at some of its shards"),
                Outcome::Abort => self.tally.add("aborted, turned at some of its shards"),
            }
        }
        if outcome == Outcome::Commit {
            self.commit(call);
        }
    }

    fn commit(&mut self, call: &Carried) {
        let mut inputs = inputs_at(call.shard.number(), call.transaction);
        if inputs.any(|input| input.token.creator != 0) {
            self.tally.add("made token destroyed");
        }
        if call.shard.is_turned() {
            self.tally.add("committed at a turned shard");
        }
        for input in inputs_at(call.shard.number(), call.transaction) {
            if self.freed.contains(&input.token) {
                self.tally.add("freed and spent");
            }
        }
        if self.bringing.shards(call.transaction).count() > 1 {
            self.tally
                .add("committed, brought to two of its shards or more");
        }
        // More tokens than there is space for were here in all.
        let genesis = call.shard.given().iter().filter(|&&given| given).count();
        if genesis + made(call.shard) > 128 {
            self.tally.add("freed space used again");
        }
        let number = call.transaction.number;
        let mut others = call.shards.iter().flat_map(committed);
        if others.any(|other| other.number == number && other != call.transaction) {
            self.tally.add("two commits of one number");
        }
    }
}

impl Carried<'_> {
    /// What the receiver now keeps of the transaction.
    fn known(&self) -> &Known {
        known(self.shard, self.transaction).expect("it is known after the call")
    }

    /// What it kept of it behind the registration, before any vote was heard
    /// but its own.
    fn entered(&self) -> Known {
        let mut heard = [None; SHARDS];
        heard[usize::from(self.shard.number())] = Some(self.own_verdict());
        Known {
            transaction: *self.transaction,
            heard,
            findings: self.known().findings,
        }
    }

    /// The receiver's own vote.
    fn own_verdict(&self) -> Verdict {
        let own = self.known().heard[usize::from(self.shard.number())];
        own.expect("it has voted")
    }

    /// Whether a vote has brought the transaction with this call.
    fn is_brought(&self) -> bool {
        matches!(self.done, Done::Brought { .. })
    }

    /// Whether some of the transaction's shards are turned, and some are not.
    fn is_mixed(&self) -> bool {
        let shards = self.shards.iter();
        let mut its = shards.filter(|shard| takes_part(shard.number(), self.transaction));
        let first = its.next().map(Shard::is_turned);
        its.any(|shard| Some(shard.is_turned()) != first)
    }

    /// Whether an earlier vote of this sender is still on its way to the shard.
    fn overtakes(&self, sender: u8) -> bool {
        let mut shards = self.shards.iter();
        let Some(sending) = shards.find(|shard| shard.number() == sender) else {
            return false;
        };
        let given = sending.known().iter().map(|known| &known.transaction);
        let mut earlier = given.take_while(|earlier| *earlier != self.transaction);
        earlier.any(|earlier| {
            let waits = known(self.shard, earlier);
            waits.is_some_and(|known| known.heard[usize::from(sender)].is_none())
        })
    }
}

/// The name of a token that the shard of this number holds.
fn id(shard: u8, token: &Token) -> TokenId {
    let &Token { creator, index, .. } = token;
    TokenId {
        shard,
        creator,
        index,
    }
}

/// What the shard knows by this number.
fn numbered(shard: &Shard, number: u32) -> Option<&Known> {
    let mut known = shard.known().iter();
    known.find(|known| known.transaction.number == number)
}

/// What the shard has decided on the transaction of this number.
fn outcome_of(shard: &Shard, number: u32) -> Option<Outcome> {
    numbered(shard, number).map(Known::outcome)
}

/// The undecided transaction that the shard knows by this number.
fn undecided(shard: &Shard, number: u32) -> Option<&Transaction> {
    let known = numbered(shard, number)?;
    (known.outcome() == Outcome::Wait).then_some(&known.transaction)
}

/// Whether an undecided transaction is to make just what the input says, owner
/// and amount included.
fn is_to_be_made(shard: &Shard, input: &Input) -> bool {
    let Some(creator) = undecided(shard, input.token.creator) else {
        return false;
    };
    let output = Output {
        shard: input.token.shard,
        owner: input.owner,
        amount: input.amount,
    };
    let index = usize::from(input.token.index);
    creator.used_outputs().get(index) == Some(&output)
}

/// The transactions that the shard has committed.
fn committed(shard: &Shard) -> impl Iterator<Item = &Transaction> {
    let known = shard.known().iter();
    let committed = known.filter(|known| known.outcome() == Outcome::Commit);
    committed.map(|known| &known.transaction)
}

/// How many tokens were made at the shard.
fn made(shard: &Shard) -> usize {
    let outputs = committed(shard).flat_map(|made| outputs_at(shard.number(), made));
    outputs.count()
}
