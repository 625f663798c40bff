//! Random weeks of a cluster.

use reference::{
    Cluster, Input, LIMITS, Record, SLOTS, Shard, Token, TokenId, Transaction, Verdict, takes_part,
};

use crate::rng::Rng;
use crate::transactions::{add_input, known, transfer, variant};
use crate::week::{Plan, Turns, Week, Wrong};

/// What a week is like.
#[derive(Clone, Copy, Debug)]
pub struct ClusterStyle {
    /// Calls in all.
    pub calls: usize,
    /// Shards with tokens: the fewer, the more transactions meet.
    pub shards: usize,
    /// Genesis tokens of each of them, as far as the calls suffice.
    pub mints: usize,
    /// Amounts of genesis tokens, from 1.
    pub amounts: u32,
    /// How many calls of a hundred hand in a new transaction.
    pub new: usize,
    /// How many calls of a hundred deliver a vote that is due.
    pub due: usize,
    /// How many registrations of eight are left out where another shard has
    /// registered the transaction: votes alone bring it then.
    pub left_out: usize,
    /// One record in so many is damaged.
    pub damage: Option<usize>,
    /// When shards are turned.
    pub turns: Turns,
}

impl ClusterStyle {
    /// Any style.
    pub fn random(rng: &mut Rng) -> Self {
        let damage = rng.pick(&[None, Some(60), Some(20), Some(6)]);
        let turns = Turns::NEVER;
        let style = match rng.below(16) {
            // A shard or two that run full.
            0 => ClusterStyle {
                calls: 500 + rng.below(300),
                shards: 1 + rng.below(2),
                mints: rng.pick(&[100, 115, 122, 126, 127, 128]),
                amounts: 60,
                new: 14,
                due: 50,
                left_out: rng.pick(&[0, 3, 8]),
                damage,
                turns,
            },
            _ => {
                let shards = rng.pick(&[1, 2, 2, 3, 3, 4, 8]);
                ClusterStyle {
                    // Few shards know all they can before long.
                    calls: 80 + rng.below(100 * shards.min(4)),
                    shards,
                    mints: 1 + rng.below(12),
                    amounts: rng.pick(&[3, 40, 40, 9_000, 1_000_000]),
                    new: rng.pick(&[6, 10, 14]),
                    due: rng.pick(&[20, 40, 55]),
                    left_out: rng.pick(&[0, 0, 3, 8]),
                    damage,
                    turns,
                }
            }
        };
        let turns = Turns::random(rng, style.calls);
        ClusterStyle { turns, ..style }
    }
}

/// The calls of a random week of any style.
pub fn cluster_week(rng: &mut Rng) -> Vec<Record> {
    let style = ClusterStyle::random(rng);
    cluster_week_of(rng, style)
}

/// The calls of a random week of this style.
pub fn cluster_week_of(rng: &mut Rng, style: ClusterStyle) -> Vec<Record> {
    let first = rng.below(8);
    let next = if rng.once_in(4) { u32::MAX - 6 } else { 1 };
    let plan = Plan {
        calls: style.calls,
        amounts: style.amounts,
        damage: style.damage,
        turns: style.turns,
    };
    let mut week = Week::new(rng, style, plan, Cluster::new(LIMITS), next);
    let shards = (0..style.shards).map(|number| ((first + number) % 8) as u8);
    week.shards = shards.collect();
    week.turn();
    week.mints();
    while !week.is_over() {
        week.turn();
        week.step();
    }
    week.records
}

impl Week<'_, ClusterStyle, Cluster> {
    fn shard(&self, number: u8) -> &Shard {
        &self.ledger.shards()[usize::from(number)]
    }

    fn mints(&mut self) {
        let start = self.rng.below(128);
        for index in 0..self.style.mints {
            for place in 0..self.shards.len() {
                if !self.is_over() {
                    self.mint(self.shards[place], ((start + index) % 128) as u8);
                }
            }
            if self.rng.once_in(12) {
                let shard = self.rng.pick(&self.shards);
                self.mint(shard, start as u8);
            }
        }
    }

    fn step(&mut self) {
        let choice = self.rng.below(100);
        if self.transactions.is_empty() || choice < self.style.new {
            return self.hand_in();
        }
        if choice < self.style.new + self.style.due {
            return self.due_vote();
        }
        if self.rng.once_in(6) && self.send_again() {
            return;
        }
        let transaction = self.transaction();
        match self.rng.below(40) {
            0..18 => self.missing_registration(),
            choice @ 18..23 => self.odd_registration(choice, transaction),
            choice @ 23..37 => self.odd_vote(choice, transaction),
            _ => {
                let (shard, index) = (self.rng.below(9), self.rng.below(128));
                self.mint(shard as u8, index as u8);
            }
        }
    }

    /// A registration that may come again, be another's or be for no shard of
    /// the transaction.
    fn odd_registration(&mut self, choice: usize, transaction: Transaction) {
        match choice {
            18..20 => {
                let shard = self.shard_of(&transaction);
                self.register(shard, transaction);
            }
            20..22 => {
                let other = variant(self.rng, &transaction);
                if self.rng.once_in(4) {
                    self.transactions.push(other);
                }
                let shard = self.shard_of(&other);
                self.register(shard, other);
            }
            _ => {
                let shard = self.rng.below(8) as u8;
                self.register(shard, transaction);
            }
        }
    }

    /// A vote that may come again or too early, be another's, be of no shard of
    /// the transaction or for none, or be the receiver's own.
    fn odd_vote(&mut self, choice: usize, transaction: Transaction) {
        match choice {
            23..32 => {
                let sender = self.shard_of(&transaction);
                let receiver = self.shard_of(&transaction);
                self.deliver(sender, receiver, transaction);
            }
            32..34 => {
                let (sender, receiver) = (self.rng.below(8) as u8, self.rng.below(8) as u8);
                self.deliver(sender, receiver, transaction);
            }
            34..36 => {
                let other = variant(self.rng, &transaction);
                let (sender, receiver) = (self.shard_of(&other), self.shard_of(&other));
                self.deliver(sender, receiver, other);
            }
            _ => {
                let sender = self.shard_of(&transaction);
                self.deliver(sender, sender, transaction);
            }
        }
    }

    fn register(&mut self, receiver: u8, transaction: Transaction) {
        self.send(Record::Register {
            receiver,
            transaction,
        });
    }

    /// The sender's own vote as far as it has given one; now and then another.
    fn deliver(&mut self, sender: u8, receiver: u8, transaction: Transaction) {
        let given = known(self.shard(sender), &transaction)
            .and_then(|known| known.heard[usize::from(sender)]);
        let verdict = match given {
            Some(verdict) if !self.rng.once_in(30) => u8::from(verdict == Verdict::Yes),
            _ => self.rng.below(2) as u8,
        };
        self.send(Record::Vote {
            receiver,
            sender,
            verdict,
            transaction,
        });
    }

    /// A vote that was given and not heard by a shard that knows the
    /// transaction, or that is to learn of it by votes.
    fn due_vote(&mut self) {
        for _ in 0..6 {
            let transaction = self.transaction();
            let mut due = Vec::new();
            for receiver in transaction.shards() {
                let votes = self.votes_for(receiver, &transaction);
                due.extend(votes.into_iter().map(|sender| (sender, receiver)));
            }
            if !due.is_empty() {
                let (sender, receiver) = self.rng.pick(&due);
                return self.deliver(sender, receiver, transaction);
            }
        }
        self.missing_registration();
    }

    /// The senders of the votes that are due at this shard: none where it has
    /// to be asked to register the transaction first.
    fn votes_for(&self, receiver: u8, transaction: &Transaction) -> Vec<u8> {
        let here = known(self.shard(receiver), transaction);
        if here.is_none() && !self.is_left_out(receiver, transaction) {
            return Vec::new();
        }
        let heard = |sender: u8| here.is_some_and(|here| here.heard[usize::from(sender)].is_some());
        let senders = transaction.shards().filter(|&sender| sender != receiver);
        let given = senders.filter(|&sender| known(self.shard(sender), transaction).is_some());
        given.filter(|&sender| !heard(sender)).collect()
    }

    /// Whether the transaction's registration at this shard is left out. The
    /// number and the shard decide it, so that it stays so.
    fn is_left_out(&self, shard: u8, transaction: &Transaction) -> bool {
        let place = transaction.number.wrapping_add(shard.into()) % 8;
        (place as usize) < self.style.left_out
    }

    /// A registration at a shard that does not know the number; or, where it is
    /// left out, a vote that brings the transaction, if there is one.
    fn missing_registration(&mut self) {
        let mut transaction = self.transaction();
        let mut shard = self.shard_of(&transaction);
        for _ in 0..6 {
            let mut known = self.shard(shard).known().iter();
            if known.all(|known| known.transaction.number != transaction.number) {
                let votes = self.votes_for(shard, &transaction);
                if votes.is_empty() {
                    return self.register(shard, transaction);
                }
                let sender = self.rng.pick(&votes);
                return self.deliver(sender, shard, transaction);
            }
            transaction = self.transaction();
            shard = self.shard_of(&transaction);
        }
        if self.rng.once_in(3) {
            self.register(shard, transaction);
        } else {
            self.hand_in();
        }
    }

    /// A new transaction, registered at one of its shards.
    fn hand_in(&mut self) {
        let new = self.new_transaction();
        self.transactions.push(new);
        let shard = self.shard_of(&new);
        self.register(shard, new);
    }

    /// One of the transactions so far, mostly a late one.
    fn transaction(&mut self) -> Transaction {
        let all = self.transactions.len();
        let from = if self.rng.once_in(4) {
            0
        } else {
            all.saturating_sub(8)
        };
        self.transactions[from + self.rng.below(all - from)]
    }

    fn new_transaction(&mut self) -> Transaction {
        let number = self.number();
        let inputs = self.inputs(number);
        let mut shards = self.shards.clone();
        if self.rng.once_in(4) {
            shards.push(self.rng.below(8) as u8);
        }
        // Often all at one place.
        if self.rng.once_in(3) {
            shards = vec![self.rng.pick(&shards)];
        }
        let mut transaction = transfer(self.rng, number, &inputs, &shards);
        // Numbers may be used twice where no shard sees both.
        if !self.transactions.is_empty() && self.rng.once_in(6) {
            let other = self.transaction();
            if other.shards().all(|shard| !takes_part(shard, &transaction)) {
                transaction.number = other.number;
            }
        }
        transaction
    }

    /// One to four tokens; or one output of another transaction and nothing
    /// else, so that this one can be committed as soon as that is.
    fn inputs(&mut self, number: u32) -> Vec<Input> {
        if !self.transactions.is_empty() && self.rng.once_in(8) {
            return vec![self.output_of_another()];
        }
        // Few inputs where tokens are few.
        let most = if self.style.mints < 4 { 2 } else { SLOTS };
        let mut inputs = Vec::with_capacity(SLOTS);
        for _ in 0..=self.rng.below(most) {
            let input = self.input(number);
            add_input(&mut inputs, input);
        }
        inputs
    }

    fn number(&mut self) -> u32 {
        if !self.transactions.is_empty() && self.rng.once_in(20) {
            return self.transaction().number;
        }
        self.next_number()
    }

    /// A token, mostly one that is available.
    fn input(&mut self, number: u32) -> Input {
        let choice = self.rng.below(40);
        match choice {
            0 => return self.missing_input(number),
            1..4 if !self.tokens.is_empty() => return self.named_before(),
            4..9 if !self.transactions.is_empty() => return self.output_of_another(),
            _ => {}
        }
        let Some((shard, token)) = self.token_held(choice == 10) else {
            return self.missing_input(number);
        };
        let wrong = match choice {
            11 => Wrong::Owner,
            12 => Wrong::Amount,
            _ => Wrong::Nothing,
        };
        self.held(shard, token, wrong)
    }

    /// A token held, mostly one that is not pledged, unless any will do.
    fn token_held(&mut self, any: bool) -> Option<(u8, Token)> {
        let mut found = None;
        for _ in 0..8 {
            let shard = self.rng.pick(&self.shards);
            let tokens = self.ledger.shards()[usize::from(shard)].tokens();
            if tokens.is_empty() {
                continue;
            }
            let token = tokens[self.rng.below(tokens.len())];
            found = Some((shard, token));
            if token.pledge.is_none() || any {
                break;
            }
        }
        found
    }

    /// An output that may not be made yet.
    fn output_of_another(&mut self) -> Input {
        let creator = self.transaction();
        self.output_of(&creator)
    }

    /// A token that never was, or the transaction's own output.
    fn missing_input(&mut self, number: u32) -> Input {
        let creator = if self.rng.once_in(2) { number } else { 0 };
        let token = TokenId {
            shard: self.rng.pick(&self.shards),
            creator,
            index: self.rng.below(SLOTS) as u8,
        };
        self.guessed(token)
    }
}
