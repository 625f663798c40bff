//! Registrations that were carried out, by a call of their own or by a vote:
//! each held to the local step that the shard's state before it asks for, and
//! counted by what it shows.

use reference::{
    Answer, Done, Finding, Input, Known, Outcome, Record, SHARDS, SLOTS, Token, Transaction,
    Verdict,
};

use crate::clauses::{View, knows, outcome};
use crate::findings::{self, Way, labels};
use crate::local::{LocalStep, free, is_among};
use crate::tally::Tally;
use crate::transactions::{held, outputs_at, receiver};

/// What registrations show of the four, and of the pledges afterwards.
const KINDS: [&str; 16] = [
    "no input here",
    "none available",
    "some available",
    "all available",
    "no, not held",
    "no, other owner alone",
    "no, other amount alone",
    "no, pledged alone",
    "pledged, waits",
    "pledged, committed",
    "pledged, freed by the abort",
    "pledged, bound after the abort",
    "two inputs here or more",
    "available behind one that is not",
    "an input elsewhere",
    "an input elsewhere, named like a free token here",
];

/// What registrations are counted as, those by a call of their own and those
/// that votes bring.
pub fn registration_labels() -> Vec<String> {
    labels(&KINDS)
}

/// A registration that was carried out, by a call of its own or by a vote: what
/// the shard has answered, beside the local step that its state before asks for.
#[derive(Clone, Debug)]
pub struct Registration<'a> {
    shard: u8,
    transaction: &'a Transaction,
    /// The vote that has brought it: its sender and what it says.
    vote: Option<(u8, Verdict)>,
    /// The verdict that the shard tells.
    told: Verdict,
    /// The outcome that it tells.
    outcome: Outcome,
    before: View<'a>,
    step: LocalStep,
}

impl<'a> Registration<'a> {
    /// The registration that a call has brought, if its answer tells of one.
    /// The view is the receiver's before the call. Panics if such a call cannot
    /// have this answer.
    pub fn of(record: &'a Record, answer: Answer, before: View<'a>) -> Option<Self> {
        let done = answer.ok()?;
        let (Done::Registered { verdict, outcome } | Done::Brought { verdict, outcome }) = done
        else {
            return None;
        };
        let (transaction, vote) = match (record, done) {
            (Record::Register { transaction, .. }, Done::Registered { .. }) => (transaction, None),
            (
                Record::Vote {
                    sender,
                    verdict: said,
                    transaction,
                    ..
                },
                Done::Brought { .. },
            ) => {
                let said = if *said == 1 {
                    Verdict::Yes
                } else {
                    Verdict::No
                };
                (transaction, Some((*sender, said)))
            }
            _ => panic!("{done:?} answers {record:?}"),
        };
        let shard = receiver(record);
        Some(Registration {
            shard,
            transaction,
            vote,
            told: verdict,
            outcome,
            before,
            step: LocalStep::of(shard, transaction, before.tokens),
        })
    }

    /// The transaction that was registered.
    pub fn transaction(&self) -> &'a Transaction {
        self.transaction
    }

    /// What is first not as the documents have it, if anything: in the answer, or
    /// in the receiver's state after the call.
    pub fn fault(&self, after: View) -> Option<&'static str> {
        let known = self.known();
        let heard = after.known.split_last() == Some((&known, self.before.known));
        let kept = after
            .known
            .last()
            .map_or([None; SLOTS], |last| last.findings);
        let holds = [
            ("the message", self.told == self.step.verdict),
            ("the findings", self.found(kept.iter().flatten())),
            ("the votes heard", heard),
            ("the outcome", self.outcome == outcome(&known)),
            ("the tokens", after.tokens == self.tokens()),
            ("turned", after.turned == self.before.turned),
        ];
        let fault = holds.iter().find(|(_, holds)| !holds);
        fault.map(|&(what, _)| what)
    }

    /// Whether these are the findings: each is the true state of its token before
    /// the call, all are available exactly where the vote is yes, and one that
    /// is pledged names a transaction that the shard knew before.
    pub fn found<'f>(&self, findings: impl Iterator<Item = &'f Finding> + Clone) -> bool {
        let mut all = findings.clone();
        let mut pledges = findings.clone().filter_map(|finding| match finding {
            Finding::Pledged(number) => Some(*number),
            _ => None,
        });
        findings.eq(&self.step.findings)
            && all.all(|&finding| finding == Finding::Available) == (self.told == Verdict::Yes)
            && pledges.all(|number| knows(self.before.known, number))
    }

    /// The message counts as heard from this shard, and behind it the vote is
    /// heard that has brought the transaction.
    fn known(&self) -> Known {
        let mut heard = [None; SHARDS];
        heard[usize::from(self.shard)] = Some(self.step.verdict);
        if let Some((sender, verdict)) = self.vote {
            heard[usize::from(sender)] = Some(verdict);
        }
        let mut findings = [None; SLOTS];
        for (place, &finding) in findings.iter_mut().zip(&self.step.findings) {
            *place = Some(finding);
        }
        Known {
            transaction: *self.transaction,
            heard,
            findings,
        }
    }

    /// What the outcome makes of the tokens with the pledges. An abort changes
    /// none of them, but at a turned shard it ends the pledges to its own number.
    fn tokens(&self) -> Vec<Token> {
        let pledged = self.step.pledged.iter().copied();
        match self.outcome {
            Outcome::Commit => {
                let left = pledged.filter(|token| !is_among(token, &self.step.inputs));
                left.chain(self.made()).collect()
            }
            Outcome::Abort if self.before.turned => {
                let number = self.transaction.number;
                let freed = pledged.map(|token| Token {
                    pledge: token.pledge.filter(|&pledge| pledge != number),
                    ..token
                });
                freed.collect()
            }
            Outcome::Abort | Outcome::Wait => pledged.collect(),
        }
    }

    /// The outputs here, as tokens.
    fn made(&self) -> impl Iterator<Item = Token> {
        let outputs = outputs_at(self.shard, self.transaction);
        outputs.map(|(index, output)| Token {
            creator: self.transaction.number,
            index,
            owner: output.owner,
            amount: output.amount,
            pledge: None,
        })
    }

    /// Counts what it shows.
    pub fn count(&self, tally: &mut Tally) {
        let way = match self.vote {
            None => Way::Registered,
            Some(_) => Way::Brought,
        };
        let kinds = [
            Some(self.part()),
            self.cause(),
            self.pledges(),
            self.several(),
            self.behind(),
            self.elsewhere(),
            self.alike(),
        ];
        for kind in kinds.iter().flatten() {
            tally.add(&format!("{}: {kind}", way.word()));
        }
        let LocalStep {
            inputs, findings, ..
        } = &self.step;
        findings::count(tally, way, inputs, findings, self.before.tokens);
    }

    /// How many inputs here are available.
    fn part(&self) -> &'static str {
        match (self.step.inputs.len(), self.step.available.len()) {
            (0, _) => "no input here",
            (_, 0) => "none available",
            (here, available) if here == available => "all available",
            _ => "some available",
        }
    }

    /// Why the only input here that is not available is not, if one thing alone
    /// is wrong with it: but for that, the shard would have voted yes.
    fn cause(&self) -> Option<&'static str> {
        let inputs = self.step.inputs.iter();
        let mut missing = inputs.filter(|input| !self.is_available(input));
        let (Some(input), None) = (missing.next(), missing.next()) else {
            return None;
        };
        let Some(token) = held(self.before.tokens, input.token) else {
            return Some("no, not held");
        };
        let (owner, amount) = (token.owner == input.owner, token.amount == input.amount);
        match (owner, amount, token.pledge) {
            (false, true, None) => Some("no, other owner alone"),
            (true, false, None) => Some("no, other amount alone"),
            (true, true, Some(_)) => Some("no, pledged alone"),
            _ => None,
        }
    }

    /// What becomes of the pledges, if there are any.
    fn pledges(&self) -> Option<&'static str> {
        let kind = match self.outcome {
            Outcome::Wait => "pledged, waits",
            Outcome::Commit => "pledged, committed",
            Outcome::Abort if self.before.turned => "pledged, freed by the abort",
            Outcome::Abort => "pledged, bound after the abort",
        };
        (!self.step.available.is_empty()).then_some(kind)
    }

    fn several(&self) -> Option<&'static str> {
        (self.step.inputs.len() > 1).then_some("two inputs here or more")
    }

    /// Whether a step that stopped at the first input that is not available
    /// would leave out a pledge.
    fn behind(&self) -> Option<&'static str> {
        let inputs = self.step.inputs.iter();
        let mut behind = inputs.skip_while(|input| self.is_available(input));
        let is_left_out = behind.any(|input| self.is_available(input));
        is_left_out.then_some("available behind one that is not")
    }

    fn elsewhere(&self) -> Option<&'static str> {
        let inputs = self.transaction.used_inputs().len();
        (self.step.inputs.len() < inputs).then_some("an input elsewhere")
    }

    /// Whether a step that did not look at the inputs' shard would pledge
    /// another token.
    fn alike(&self) -> Option<&'static str> {
        let inputs = self.transaction.used_inputs().iter();
        let mut elsewhere = inputs.filter(|input| input.token.shard != self.shard);
        let is_alike = elsewhere.any(|input| self.before.tokens.contains(&free(input)));
        is_alike.then_some("an input elsewhere, named like a free token here")
    }

    fn is_available(&self, input: &Input) -> bool {
        self.step.available.contains(input)
    }
}
