//! Random weeks of a lone shard.

use reference::{Input, LIMITS, Outcome, Record, SLOTS, Shard, TokenId, Transaction, Verdict};

use crate::rng::Rng;
use crate::transactions::{add_input, is_all_heard, transfer, variant};
use crate::week::{Plan, Turns, Week, Wrong};

/// What a week is like.
#[derive(Clone, Copy, Debug)]
pub struct ShardStyle {
    /// Calls in all.
    pub calls: usize,
    /// Genesis tokens, as far as the calls suffice.
    pub mints: usize,
    /// Amounts of genesis tokens, from 1.
    pub amounts: u32,
    /// How many transactions of eight are of this shard alone.
    pub local: usize,
    /// How many outputs of eight are made here.
    pub here: usize,
    /// One record in so many is damaged.
    pub damage: Option<usize>,
    /// How many of sixteen votes are yes.
    pub yes: usize,
    /// How many new transactions of eight are brought by a vote, where another
    /// shard takes part.
    pub brought: usize,
    /// When the shard is turned.
    pub turns: Turns,
}

impl ShardStyle {
    /// Any style.
    pub fn random(rng: &mut Rng) -> Self {
        let calls = match rng.below(4) {
            0 => 1 + rng.below(40),
            1 => 40 + rng.below(200),
            _ => 150 + rng.below(200),
        };
        let mints = match rng.below(4) {
            0 => rng.below(8),
            1 => rng.below(50),
            2 => 90 + rng.below(38),
            _ => 128,
        };
        ShardStyle {
            calls,
            mints,
            amounts: rng.pick(&[1, 5, 60, 60, 5_000, 1_000_000]),
            local: rng.pick(&[0, 1, 4, 7]),
            here: rng.pick(&[1, 4, 7, 8]),
            damage: rng.pick(&[None, Some(40), Some(12), Some(4)]),
            yes: rng.pick(&[8, 14, 16]),
            brought: rng.pick(&[0, 3, 6]),
            turns: Turns::random(rng, calls),
        }
    }
}

/// A random week of any style: the shard's number and the calls.
pub fn shard_week(rng: &mut Rng) -> (u8, Vec<Record>) {
    let style = ShardStyle::random(rng);
    shard_week_of(rng, style)
}

/// A random week of this style: the shard's number and the calls.
pub fn shard_week_of(rng: &mut Rng, style: ShardStyle) -> (u8, Vec<Record>) {
    let here = rng.below(8) as u8;
    let next = match rng.below(4) {
        0 => u32::MAX - 20,
        1 => rng.between(1, u32::MAX),
        _ => 1,
    };
    let shard = Shard::new(here, LIMITS);
    let plan = Plan {
        calls: style.calls,
        amounts: style.amounts,
        damage: style.damage,
        turns: style.turns,
    };
    let mut week = Week::new(rng, style, plan, shard, next);
    week.turn();
    week.mints();
    while !week.is_over() {
        week.turn();
        week.step();
    }
    (here, week.records)
}

impl Week<'_, ShardStyle, Shard> {
    fn here(&self) -> u8 {
        self.ledger.number()
    }

    fn mints(&mut self) {
        // All 128 indices occur, in an order of the week's own.
        let (start, stride) = (self.rng.below(128), 1 + 2 * self.rng.below(64));
        for number in 0..self.style.mints.min(self.style.calls) {
            let index = ((start + number * stride) % 128) as u8;
            self.mint(self.here(), index);
            if self.rng.once_in(12) {
                let given = ((start + self.rng.below(number + 1) * stride) % 128) as u8;
                self.mint(self.here(), given);
            }
        }
    }

    fn step(&mut self) {
        if self.rng.once_in(4) && self.send_again() {
            return;
        }
        match self.rng.below(100) {
            0..27 => self.hand_in(),
            27..31 => {
                let old = self.old_transaction();
                self.register(old);
            }
            31..34 => {
                let old = self.old_transaction();
                let other = variant(self.rng, &old);
                self.register(other);
            }
            34..72 => self.fresh_vote(),
            72..84 => self.vote_again(),
            84..87 => {
                let old = self.old_transaction();
                let other = variant(self.rng, &old);
                self.vote(other);
            }
            87..90 => {
                let new = self.new_transaction();
                self.vote(new);
                self.transactions.push(new);
            }
            90..94 => self.elsewhere(),
            94..97 => {
                let index = self.rng.below(128) as u8;
                self.mint(self.here(), index);
            }
            _ => self.other_receiver(),
        }
    }

    /// A new transaction, registered or brought by a vote.
    fn hand_in(&mut self) {
        let new = self.new_transaction();
        let here = self.here();
        let others: Vec<u8> = new.shards().filter(|&shard| shard != here).collect();
        if others.is_empty() || self.rng.below(8) >= self.style.brought {
            return self.register(new);
        }
        let (sender, verdict) = (self.rng.pick(&others), self.verdict());
        self.send_vote(sender, verdict, new);
        self.transactions.push(new);
    }

    fn register(&mut self, transaction: Transaction) {
        self.send(Record::Register {
            receiver: self.here(),
            transaction,
        });
        self.transactions.push(transaction);
    }

    fn send_vote(&mut self, sender: u8, verdict: u8, transaction: Transaction) {
        self.send(Record::Vote {
            receiver: self.here(),
            sender,
            verdict,
            transaction,
        });
    }

    /// A vote of one of the transaction's shards, whatever was heard.
    fn vote(&mut self, transaction: Transaction) {
        let (sender, verdict) = (self.shard_of(&transaction), self.verdict());
        self.send_vote(sender, verdict, transaction);
    }

    fn verdict(&mut self) -> u8 {
        u8::from(self.rng.below(16) < self.style.yes)
    }

    /// A vote not heard yet, on a transaction known here.
    fn fresh_vote(&mut self) {
        for _ in 0..8 {
            if self.ledger.known().is_empty() {
                break;
            }
            let known = self.ledger.known()[self.rng.below(self.ledger.known().len())];
            let heard = |shard: &u8| known.heard[usize::from(*shard)].is_some();
            let missing: Vec<u8> = known.transaction.shards().filter(|s| !heard(s)).collect();
            if !missing.is_empty() {
                let (sender, verdict) = (self.rng.pick(&missing), self.verdict());
                return self.send_vote(sender, verdict, known.transaction);
            }
        }
        self.hand_in();
    }

    /// A vote heard before, its own included, or its contrary.
    fn vote_again(&mut self) {
        if self.ledger.known().is_empty() {
            return self.step();
        }
        let known = self.ledger.known()[self.rng.below(self.ledger.known().len())];
        let heard: Vec<(u8, Verdict)> = (0..)
            .zip(known.heard)
            .filter_map(|(sender, verdict)| Some((sender, verdict?)))
            .collect();
        let (sender, verdict) = self.rng.pick(&heard);
        let contrary = self.rng.once_in(3);
        let verdict = u8::from((verdict == Verdict::Yes) != contrary);
        self.send_vote(sender, verdict, known.transaction);
    }

    /// A transaction that is none of this shard's, or a vote of a shard that
    /// does not take part.
    fn elsewhere(&mut self) {
        let mut transaction = self.new_transaction();
        let sender = self.rng.below(8) as u8;
        let verdict = self.verdict();
        match self.rng.below(3) {
            0 => self.send_vote(sender, verdict, transaction),
            choice => {
                let here = self.here();
                let away = |shard: &mut u8| *shard = (*shard + u8::from(*shard == here)) % 8;
                let inputs = usize::from(transaction.input_count);
                for input in &mut transaction.inputs[..inputs] {
                    away(&mut input.token.shard);
                }
                let outputs = usize::from(transaction.output_count);
                for output in &mut transaction.outputs[..outputs] {
                    away(&mut output.shard);
                }
                if choice == 1 {
                    self.register(transaction);
                } else {
                    self.vote(transaction);
                }
            }
        }
    }

    /// A record for another shard, valid but for that.
    fn other_receiver(&mut self) {
        let transaction = self.old_transaction();
        let receiver = self.rng.below(9) as u8;
        let sender = self.rng.below(8) as u8;
        // A turn only where the week has turns: the receiver may be this shard.
        let kinds = 3 + usize::from(self.style.turns.some.is_some());
        let record = match self.rng.below(kinds) {
            0 => Record::Register {
                receiver,
                transaction,
            },
            1 => Record::Vote {
                receiver,
                sender,
                verdict: self.verdict(),
                transaction,
            },
            2 => Record::Mint {
                receiver,
                index: 0,
                owner: 1,
                amount: 1,
            },
            _ => Record::Turn { receiver },
        };
        self.send(record);
    }

    fn old_transaction(&mut self) -> Transaction {
        if self.transactions.is_empty() {
            return self.new_transaction();
        }
        self.transactions[self.rng.below(self.transactions.len())]
    }

    fn new_transaction(&mut self) -> Transaction {
        let number = self.number();
        let local = self.rng.below(8) < self.style.local;
        let inputs = self.inputs(number, local);
        let shards: [u8; 8] = std::array::from_fn(|part| {
            if local || part < self.style.here {
                self.here()
            } else {
                self.rng.below(8) as u8
            }
        });
        transfer(self.rng, number, &inputs, &shards)
    }

    /// One to four tokens; or one output of another transaction and nothing
    /// else, so that this one can be committed as soon as that is.
    fn inputs(&mut self, number: u32, local: bool) -> Vec<Input> {
        if self.rng.once_in(5)
            && let Some(input) = self.output_to_come()
        {
            return vec![input];
        }
        let mut inputs = Vec::with_capacity(SLOTS);
        for _ in 0..=self.rng.below(SLOTS) {
            let input = if local || self.rng.once_in(2) {
                self.input_here(number)
            } else {
                self.input_elsewhere()
            };
            add_input(&mut inputs, input);
        }
        inputs
    }

    fn number(&mut self) -> u32 {
        if !self.transactions.is_empty() && self.rng.once_in(25) {
            return self.old_transaction().number;
        }
        self.next_number()
    }

    /// A token here, mostly one that is available.
    fn input_here(&mut self, number: u32) -> Input {
        let choice = self.rng.below(20);
        if choice == 0 || self.ledger.tokens().is_empty() {
            return self.missing_input(number);
        }
        if (3..6).contains(&choice)
            && let Some(input) = self.output_to_come()
        {
            return input;
        }
        let tokens = self.ledger.tokens();
        let mut token = tokens[self.rng.below(tokens.len())];
        for _ in 0..4 {
            if choice > 2 && token.pledge.is_some() {
                token = tokens[self.rng.below(tokens.len())];
            }
        }
        let wrong = match choice {
            1 => Wrong::Owner,
            2 => Wrong::Amount,
            _ => Wrong::Nothing,
        };
        self.held(self.here(), token, wrong)
    }

    /// An output, as if it were made here, of a transaction that waits for
    /// votes; now and then of one that was aborted while votes were missing, so
    /// that 17 is also tried where one no has ended the wait.
    fn output_to_come(&mut self) -> Option<Input> {
        let outcome = if self.rng.once_in(4) {
            Outcome::Abort
        } else {
            Outcome::Wait
        };
        let known = self.ledger.known().iter();
        let open: Vec<Transaction> = known
            .filter(|known| known.outcome() == outcome && !is_all_heard(known))
            .map(|known| known.transaction)
            .collect();
        if open.is_empty() {
            return None;
        }
        let creator = self.rng.pick(&open);
        let mut input = self.output_of(&creator);
        input.token.shard = self.here();
        Some(input)
    }

    /// A token that may be gone, is still to be made, or never was.
    fn missing_input(&mut self, number: u32) -> Input {
        if !self.tokens.is_empty() && self.rng.once_in(2) {
            return self.named_before();
        }
        let creator = match self.rng.below(3) {
            0 => number,
            1 => self.last,
            _ => 0,
        };
        let index = self.rng.below(if creator == 0 { 128 } else { SLOTS }) as u8;
        self.guessed(TokenId {
            shard: self.here(),
            creator,
            index,
        })
    }

    /// Any token of another shard: a lone shard cannot know.
    fn input_elsewhere(&mut self) -> Input {
        let token = TokenId {
            shard: (self.here() + 1 + self.rng.below(7) as u8) % 8,
            creator: self.rng.between(0, 3),
            index: self.rng.below(SLOTS) as u8,
        };
        self.guessed(token)
    }
}
