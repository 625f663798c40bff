//! What the random weeks of a shard and of a cluster have in common.

use reference::{Input, Record, Refusal, SLOTS, Shard, Token, TokenId, Transaction};

use crate::ledger::Playable;
use crate::rng::Rng;
use crate::transactions::{damage, owner};

/// When a week turns shards: never, if it says nothing.
#[derive(Clone, Copy, Debug, Default)]
pub struct Turns {
    /// With this call, or soon after it, all are turned that are not, one behind
    /// the other; 0 is before the first mint.
    pub all: Option<usize>,
    /// One call in so many turns some shard, turned already or not.
    pub some: Option<usize>,
}

impl Turns {
    /// For a week that never turns a shard.
    pub const NEVER: Turns = Turns {
        all: None,
        some: None,
    };

    /// For a week of so many calls: of six weeks two never turn a shard, one
    /// turns all before the first mint, one all in its midst, and two some, now
    /// and then. Those that turn all try it again later.
    pub fn random(rng: &mut Rng, calls: usize) -> Self {
        let (all, some) = match rng.below(6) {
            0 | 1 => return Turns::NEVER,
            2 => (Some(0), 80),
            3 => (Some(calls / 4 + rng.below(calls / 2 + 1)), 80),
            _ => (None, rng.pick(&[8, 25, 80])),
        };
        Turns {
            all,
            some: Some(some),
        }
    }
}

/// What every style of a week tells.
#[derive(Clone, Copy)]
pub(crate) struct Plan {
    /// Calls in all.
    pub calls: usize,
    /// Amounts of genesis tokens, from 1.
    pub amounts: u32,
    /// One record in so many is damaged.
    pub damage: Option<usize>,
    /// When shards are turned.
    pub turns: Turns,
}

/// The week so far. The shard or the cluster is played along, so that calls can
/// be aimed at what it holds and knows.
pub(crate) struct Week<'a, S, L> {
    pub rng: &'a mut Rng,
    pub style: S,
    plan: Plan,
    pub ledger: L,
    /// The shards with tokens: all, if the week says nothing else.
    pub shards: Vec<u8>,
    /// All that were handed in.
    pub transactions: Vec<Transaction>,
    /// Inputs that named a token, for tokens that may be gone.
    pub tokens: Vec<Input>,
    /// Calls that were held off, and votes that found no space for what they
    /// bring, and that have not come again: they may pass later.
    put_off: Vec<Record>,
    /// The last number given.
    pub last: u32,
    pub records: Vec<Record>,
}

/// What an input says wrongly of the token that it names.
pub(crate) enum Wrong {
    Nothing,
    Owner,
    Amount,
}

impl<'a, S, L: Playable> Week<'a, S, L> {
    /// Nothing is called yet. Transactions get the numbers behind `last`.
    pub fn new(rng: &'a mut Rng, style: S, plan: Plan, ledger: L, last: u32) -> Self {
        let shards = ledger.shards().iter().map(Shard::number).collect();
        Week {
            rng,
            style,
            plan,
            ledger,
            shards,
            transactions: Vec::new(),
            tokens: Vec::new(),
            put_off: Vec::new(),
            last,
            records: Vec::with_capacity(plan.calls),
        }
    }

    /// Whether the week has all its calls.
    pub fn is_over(&self) -> bool {
        self.records.len() >= self.plan.calls
    }

    /// Makes the call, now and then damaged.
    pub fn send(&mut self, mut record: Record) {
        let once = self.plan.damage;
        if once.is_some_and(|once| self.rng.once_in(once)) {
            damage(self.rng, &mut record);
            // Then the first refusal in order has to win.
            if self.rng.once_in(3) {
                damage(self.rng, &mut record);
            }
        }
        // Nothing else depends on the answer, only on what the ledger keeps.
        let may_pass_later = match self.ledger.play(&record) {
            Err(Refusal::HeldOff) => true,
            Err(Refusal::TokensFull) => matches!(record, Record::Vote { .. }),
            _ => false,
        };
        if may_pass_later {
            self.put_off.push(record);
        }
        self.records.push(record);
    }

    /// Makes a call again that was put off. Tells whether there was one.
    pub fn send_again(&mut self) -> bool {
        if self.put_off.is_empty() {
            return false;
        }
        let place = self.rng.below(self.put_off.len());
        let record = self.put_off.swap_remove(place);
        self.send(record);
        true
    }

    /// Turns shards, where the week says that this is the time. A week that
    /// never does so is what it would be without.
    pub fn turn(&mut self) {
        let Turns { all, some } = self.plan.turns;
        if all.is_some_and(|call| self.records.len() >= call) {
            self.plan.turns.all = None;
            let shards = self.ledger.shards().iter();
            let left = shards.filter(|shard| !shard.is_turned());
            let left: Vec<u8> = left.map(Shard::number).collect();
            for receiver in left {
                self.send_turn(receiver);
            }
        }
        if some.is_some_and(|once| self.rng.once_in(once)) {
            let receiver = match self.rng.below(16) {
                0 => self.rng.below(9) as u8,
                _ => self.rng.pick(&self.shards),
            };
            self.send_turn(receiver);
        }
    }

    fn send_turn(&mut self, receiver: u8) {
        if !self.is_over() {
            self.send(Record::Turn { receiver });
        }
    }

    /// A mint of any owner and amount.
    pub fn mint(&mut self, receiver: u8, index: u8) {
        let record = Record::Mint {
            receiver,
            index,
            owner: owner(self.rng),
            amount: self.amount(),
        };
        self.send(record);
    }

    fn amount(&mut self) -> u32 {
        self.rng.between(1, self.plan.amounts)
    }

    /// The next number; behind the largest comes 1.
    pub fn next_number(&mut self) -> u32 {
        self.last = self.last.checked_add(1).unwrap_or(1);
        self.last
    }

    /// One of the transaction's shards.
    pub fn shard_of(&mut self, transaction: &Transaction) -> u8 {
        let shards: Vec<u8> = transaction.shards().collect();
        self.rng.pick(&shards)
    }

    /// An input that named a token before. There must be one.
    pub fn named_before(&mut self) -> Input {
        self.tokens[self.rng.below(self.tokens.len())]
    }

    /// The input of a token that the shard holds.
    pub fn held(&mut self, shard: u8, token: Token, wrong: Wrong) -> Input {
        let mut input = Input {
            token: TokenId {
                shard,
                creator: token.creator,
                index: token.index,
            },
            owner: token.owner,
            amount: token.amount,
        };
        self.tokens.push(input);
        match wrong {
            Wrong::Nothing => {}
            Wrong::Owner => input.owner = owner(self.rng),
            Wrong::Amount => input.amount = self.amount(),
        }
        input
    }

    /// The input of an output, made or not; now and then with something wrong.
    pub fn output_of(&mut self, creator: &Transaction) -> Input {
        let index = self.rng.below(creator.output_count.into());
        let output = creator.outputs[index];
        let mut input = Input {
            token: TokenId {
                shard: output.shard,
                creator: creator.number,
                index: index as u8,
            },
            owner: output.owner,
            amount: output.amount,
        };
        match self.rng.below(24) {
            0 => input.owner = owner(self.rng),
            1 => input.amount = self.amount(),
            2 => input.token.index = self.rng.below(SLOTS) as u8,
            3 => input.token.shard = self.rng.pick(&self.shards),
            _ => {}
        }
        input
    }

    /// The input of a token of which nothing is known: any owner and amount.
    pub fn guessed(&mut self, token: TokenId) -> Input {
        Input {
            token,
            owner: owner(self.rng),
            amount: self.amount(),
        }
    }
}
