//! Small scenarios, to be played in every order.

use std::collections::{HashMap, VecDeque};
use std::hash::{BuildHasher, BuildHasherDefault, DefaultHasher};
use std::mem;

use reference::{Cluster, Input, LIMITS, Output, Record, Refusal, TokenId, Transaction, Verdict};

use crate::transactions::known;

/// A call whose place in the order is free. The transaction is given by its
/// place in the scenario.
#[derive(Clone, Copy, Debug, PartialEq, Eq)]
enum Step {
    Register {
        transaction: usize,
        shard: u8,
    },
    Deliver {
        transaction: usize,
        sender: u8,
        receiver: u8,
    },
    Turn {
        shard: u8,
    },
}

/// Transactions on genesis tokens, with all their registrations, or all but
/// some that are left to votes, and all deliveries; and turns of shards.
pub struct Scenario {
    /// For messages.
    pub name: &'static str,
    /// The numbers of the committed transactions in serial order, for every
    /// end that some order reaches, as documents 01 and 02 have it.
    pub ends: &'static [&'static [u32]],
    mints: Vec<Record>,
    transactions: Vec<Transaction>,
    steps: Vec<Step>,
    /// For each step, a bit for every step that has to come before.
    needs: Vec<u32>,
    orders: Orders,
}

/// What of the orders is played.
#[derive(Clone, Copy, PartialEq, Eq)]
enum Orders {
    /// Every order: a delivery may come too early, before its sender knows the
    /// transaction, and is refused; to a receiver that does not know it, it
    /// brings the transaction.
    All,
    /// As `All`, and after each step every registration and every delivery that
    /// was held off before it is sent again.
    HeldOffAgain,
    /// A transaction's last shard registers it after its others.
    LastShardLate,
    /// A delivery comes after both its shards have registered.
    NoneEarly,
    /// As `NoneEarly`, and what is held off is sent again as in `HeldOffAgain`.
    NoneEarlyHeldOffAgain,
    /// As `NoneEarly`, but too many to be played one by one: so many of them
    /// that every step is taken from every state that some order leads to.
    EveryTransition,
}

/// The scenarios.
pub fn scenarios() -> Vec<Scenario> {
    let genesis = |shard| (shard, 0, 0);
    vec![
        Scenario::new(
            "two conflicting transactions over two shards",
            &[0, 1],
            &[
                (5, &[genesis(0), genesis(1)], &[1, 0]),
                (6, &[genesis(0), genesis(1)], &[0, 1]),
            ],
            Orders::All,
            &[&[], &[5], &[6]],
        ),
        Scenario::new(
            "two transactions over two shards, in conflict at one",
            &[0, 1],
            &[
                (5, &[genesis(0)], &[1]),
                (6, &[genesis(0), genesis(1)], &[1, 1]),
            ],
            Orders::All,
            &[&[5], &[6]],
        ),
        Scenario::new(
            "two conflicting transactions over three shards, two each",
            &[2, 4, 7],
            &[
                (5, &[genesis(2), genesis(4)], &[2, 2]),
                (6, &[genesis(4), genesis(7)], &[4, 7]),
            ],
            Orders::All,
            &[&[5], &[6]],
        ),
        Scenario::new(
            "a transaction over three shards, one in conflict with it at one",
            &[0, 1, 2],
            &[
                (5, &[genesis(0), genesis(1), genesis(2)], &[0, 1, 2]),
                (6, &[genesis(1)], &[1]),
            ],
            Orders::NoneEarly,
            &[&[5], &[6]],
        ),
        Scenario::new(
            "two conflicting transactions over three shards",
            &[0, 1, 2],
            &[
                (5, &[genesis(0), genesis(1), genesis(2)], &[0, 1, 2]),
                (6, &[genesis(2), genesis(1), genesis(0)], &[1, 2, 0]),
            ],
            Orders::EveryTransition,
            &[&[], &[5], &[6]],
        ),
        Scenario::new(
            "two transactions of one number that meet at a shard",
            &[0, 1, 2],
            &[(5, &[genesis(0)], &[1]), (5, &[genesis(1)], &[2])],
            Orders::All,
            &[&[5]],
        ),
        Scenario::new(
            "a transaction and its successor on a fresh output",
            &[0],
            &[(5, &[genesis(0)], &[1]), (6, &[(1, 5, 0)], &[2])],
            Orders::All,
            // 5 always commits: nobody else wants its token. 6 is voted no
            // where it comes to shard 1, by a call or by a vote, before 5 is
            // known there. Else it is held off until 5 has made the token, if
            // only by the repeats. Then shard 1 registers it after both
            // registrations of 5, so that 5 goes first.
            &[&[5], &[5, 6]],
        ),
        Scenario::new(
            "a transaction and its successor at the same shards",
            &[3, 6],
            &[
                (5, &[genesis(3), genesis(6)], &[6, 3]),
                (6, &[(6, 5, 0), (3, 5, 1)], &[3, 6]),
            ],
            Orders::All,
            // Likewise, with an input at each shard: 6 commits where both know 5
            // before it comes to them.
            &[&[5], &[5, 6]],
        ),
        Scenario::new(
            "a chain across two shards, sent again after each step while held off",
            &[0],
            &[(5, &[genesis(0)], &[1]), (6, &[(1, 5, 0)], &[0])],
            Orders::HeldOffAgain,
            // Likewise. Held off at shard 1, 6 comes through behind the very
            // step that decides 5 there. Shard 0 has no input of 6 and never
            // holds it off, and may commit it while it waits for 5.
            &[&[5], &[5, 6]],
        ),
        Scenario::new(
            "a transaction of three shards that is registered at one",
            &[0, 1],
            &[(5, &[genesis(0), genesis(1)], &[2, 2])],
            Orders::All,
            // Its votes bring it to the others, and nobody else wants its
            // tokens.
            &[&[5]],
        )
        .leaving_out(&[(5, 1), (5, 2)]),
        Scenario::new(
            "a transaction of three shards that is registered at one, and one no",
            &[0, 2],
            &[(5, &[genesis(0), genesis(1), genesis(2)], &[0, 1, 2])],
            Orders::All,
            // Shard 1 has no token, and votes no when it is brought there.
            &[&[]],
        )
        .leaving_out(&[(5, 1), (5, 2)]),
        Scenario::new(
            "a chain across three shards, brought to its second one while held off",
            &[0],
            &[(5, &[genesis(0)], &[1]), (6, &[(1, 5, 0)], &[2])],
            Orders::HeldOffAgain,
            // 5 always commits. The vote of shard 2 brings 6 to shard 1: before
            // 5 is known there, so that it is voted no; or behind the decision
            // of 5, for until then it is held off. So 5 goes first, though
            // shard 2 may register 6 before anybody knows 5.
            &[&[5], &[5, 6]],
        )
        .leaving_out(&[(5, 0), (6, 1)]),
        Scenario::new(
            "two conflicting transactions that each are brought to the other's shard",
            &[0, 1],
            &[
                (5, &[genesis(0), genesis(1)], &[1, 0]),
                (6, &[genesis(0), genesis(1)], &[0, 1]),
            ],
            Orders::All,
            // Each may come to both shards before the other does. Where each
            // has one token, the one that is brought first is voted no; the
            // other may find the token that this has bound free, if the no and
            // the turn come there in time.
            &[&[], &[5], &[6]],
        )
        .leaving_out(&[(5, 1), (6, 0)])
        .turning(&[0, 1]),
        Scenario::new(
            "a transaction registered late at its last shard",
            &[0, 1, 2],
            &[(5, &[genesis(0), genesis(1)], &[2, 2])],
            Orders::LastShardLate,
            &[&[5]],
        ),
        Scenario::new(
            "one no or two of three votes, and a transaction behind them",
            &[1],
            &[
                (5, &[genesis(0), genesis(1)], &[1, 2]),
                (6, &[(1, 5, 0), genesis(1)], &[1, 1]),
            ],
            Orders::NoneEarlyHeldOffAgain,
            // Shard 0 has no token, and votes no on 5. Where 6 comes to shard 1
            // before 5, it is voted no and keeps the token there pledged, so
            // that shard 1 votes no on 5 as well. Else it is held off until
            // shard 1 hears the no on 5, with shard 2's yes or without it.
            &[&[]],
        ),
        Scenario::new(
            "contended tokens that come free, at shards that turn at any time",
            &[0, 1],
            &[
                (5, &[genesis(0), genesis(1)], &[0, 1]),
                (6, &[genesis(1)], &[1]),
                (7, &[genesis(0)], &[0]),
            ],
            Orders::All,
            // 5 commits where it comes first at both shards. Where 6 is before
            // it at shard 1, shard 1 votes no, and 7 gets the token of shard 0
            // if it is there before 5, or else if that token has come free:
            // shard 0 has heard the no and is turned. Likewise with 6 and 7
            // changed about.
            &[&[5], &[6], &[6, 7], &[7], &[7, 6]],
        )
        .turning(&[0, 1]),
        Scenario::new(
            "a token that two transactions keep from each other, and a third spends",
            &[0, 1],
            &[
                (5, &[genesis(0), genesis(1)], &[1, 0]),
                (6, &[genesis(0), genesis(1)], &[0, 1]),
                (7, &[genesis(0)], &[0]),
            ],
            Orders::EveryTransition,
            // 5 and 6 may each get one token. Then both are aborted, and 7 gets
            // the token of shard 0 once it has come free there. One that has
            // come free in time for 5 or 6 lets that one commit, though they met.
            &[&[], &[5], &[6], &[7]],
        )
        .turning(&[0, 1]),
    ]
}

/// A transaction by its number, the tokens it takes (shard, creator, index)
/// and the shards of its outputs, as many as tokens.
type Plan<'a> = (u32, &'a [(u8, u32, u8)], &'a [u8]);

impl Scenario {
    /// Every token is of the same amount and has an owner of its shard.
    fn new(
        name: &'static str,
        mints: &[u8],
        transactions: &[Plan],
        orders: Orders,
        ends: &'static [&'static [u32]],
    ) -> Self {
        const AMOUNT: u32 = 12;
        let mints = mints
            .iter()
            .map(|&receiver| Record::Mint {
                receiver,
                index: 0,
                owner: 10 + u32::from(receiver),
                amount: AMOUNT,
            })
            .collect();
        let transactions: Vec<Transaction> = transactions
            .iter()
            .map(|&(number, tokens, shards)| {
                let mut transaction = Transaction {
                    number,
                    input_count: tokens.len() as u8,
                    output_count: shards.len() as u8,
                    ..Transaction::default()
                };
                for (slot, &(shard, creator, index)) in tokens.iter().enumerate() {
                    transaction.inputs[slot] = Input {
                        token: TokenId {
                            shard,
                            creator,
                            index,
                        },
                        owner: 10 + u32::from(shard),
                        amount: AMOUNT,
                    };
                }
                for (slot, &shard) in shards.iter().enumerate() {
                    transaction.outputs[slot] = Output {
                        shard,
                        owner: 10 + u32::from(shard),
                        amount: AMOUNT,
                    };
                }
                transaction
            })
            .collect();

        let mut steps = Vec::new();
        for (place, transaction) in transactions.iter().enumerate() {
            let shards = shards(transaction);
            let register = |&shard: &u8| Step::Register {
                transaction: place,
                shard,
            };
            steps.extend(shards.iter().map(register));
            for &sender in &shards {
                let receivers = shards.iter().filter(|&&receiver| receiver != sender);
                steps.extend(receivers.map(|&receiver| Step::Deliver {
                    transaction: place,
                    sender,
                    receiver,
                }));
            }
        }
        let scenario = Scenario {
            name,
            ends,
            mints,
            transactions,
            steps: Vec::new(),
            needs: Vec::new(),
            orders,
        };
        scenario.with(steps)
    }

    /// The same with these steps, and what has to come before each of them.
    fn with(mut self, steps: Vec<Step>) -> Self {
        let needs = steps.iter().map(|step| {
            let others = steps.iter().enumerate();
            let before =
                others.filter(|(_, other)| self.orders.need(step, other, &self.transactions));
            before.map(|(place, _)| 1 << place).sum()
        });
        self.needs = needs.collect();
        self.steps = steps;
        self
    }

    /// The same without these registrations, each by its transaction's number
    /// and the shard: votes alone bring the transaction there. The votes of
    /// shards that register it stand before the others, so that in the repeats
    /// none is too early.
    fn leaving_out(mut self, left_out: &[(u32, u8)]) -> Self {
        let mut steps = mem::take(&mut self.steps);
        let is_left_out = |transaction: usize, shard: u8| {
            left_out.contains(&(self.transactions[transaction].number, shard))
        };
        steps.retain(|step| match *step {
            Step::Register { transaction, shard } => !is_left_out(transaction, shard),
            Step::Deliver { .. } | Step::Turn { .. } => true,
        });
        steps.sort_by_key(|step| match *step {
            Step::Register { transaction, .. } => (transaction, 0),
            Step::Deliver {
                transaction,
                sender,
                ..
            } => (transaction, 1 + u8::from(is_left_out(transaction, sender))),
            Step::Turn { .. } => (self.transactions.len(), 0),
        });
        self.with(steps)
    }

    /// The same with a turn of each of these shards, at any place of an order.
    fn turning(mut self, shards: &[u8]) -> Self {
        for &shard in shards {
            self.steps.push(Step::Turn { shard });
            self.needs.push(0);
        }
        self
    }

    /// Calls `visit` with every order's number, its calls and its repeats: the
    /// mints and the steps in that order; then, if some may have been too
    /// early, all steps again, one transaction's behind the other's, so that
    /// every transaction comes to be decided at all its shards. A delivery
    /// carries the vote its sender has given; one that is too early carries
    /// any, is refused and stays so until the repeats, and so does what is held
    /// off, unless it is sent again after each step.
    pub fn orders(&self, mut visit: impl FnMut(u64, &[Record], &[Record])) -> u64 {
        let mut number = 0;
        let mut visit = |order: &[usize]| {
            let (calls, repeats) = self.play(number, order);
            visit(number, &calls, &repeats);
            number += 1;
        };
        if self.orders == Orders::EveryTransition {
            self.cover(&mut visit);
        } else {
            self.place(&mut Vec::new(), &mut visit);
        }
        number
    }

    /// The steps that may come next.
    fn next(&self, order: &[usize]) -> impl Iterator<Item = usize> {
        let done = order.iter().fold(0_u32, |done, place| done | 1 << place);
        (0..self.steps.len())
            .filter(move |&next| done & 1 << next == 0 && self.needs[next] & !done == 0)
    }

    /// Extends the order in every way that is left.
    fn place(&self, order: &mut Vec<usize>, visit: &mut impl FnMut(&[usize])) {
        if order.len() == self.steps.len() {
            return visit(order);
        }
        let next: Vec<usize> = self.next(order).collect();
        for next in next {
            order.push(next);
            self.place(order, visit);
            order.pop();
        }
    }

    /// Visits so many orders that every step is taken from every state. States
    /// are told apart by the steps taken and a hash of the whole cluster.
    fn cover(&self, visit: &mut impl FnMut(&[usize])) {
        let hasher = BuildHasherDefault::<DefaultHasher>::default();
        let mut taken: HashMap<(u32, u64), u32> = HashMap::new();
        // Ways to states from which some step may be left. The short ones go
        // first: they have the longest way to find other steps.
        let mut open = VecDeque::from([Vec::new()]);
        while let Some(mut order) = open.pop_front() {
            let mut cluster = self.cluster();
            for &place in &order {
                self.take(place, &mut cluster);
            }
            let start = order.len();
            while order.len() < self.steps.len() {
                let done = order.iter().fold(0, |done, place| done | 1 << place);
                let key = (done, hasher.hash_one(&cluster));
                let taken = taken.entry(key).or_default();
                let left: Vec<usize> = self
                    .next(&order)
                    .filter(|next| *taken & 1 << next == 0)
                    .collect();
                let next = match left[..] {
                    // This way has nothing new; go on anyhow if it had.
                    [] if order.len() == start => break,
                    [] => self.next(&order).next().expect("some step is left"),
                    [only] => only,
                    [first, ..] => {
                        open.push_back(order.clone());
                        first
                    }
                };
                *taken |= 1 << next;
                self.take(next, &mut cluster);
                order.push(next);
            }
            if order.len() == self.steps.len() {
                visit(&order);
            }
        }
    }

    fn cluster(&self) -> Cluster {
        let mut cluster = Cluster::new(LIMITS);
        for record in &self.mints {
            cluster.play(record).expect("the mints are valid");
        }
        cluster
    }

    fn take(&self, place: usize, cluster: &mut Cluster) {
        let record = self.record(&self.steps[place], true, cluster);
        let answer = cluster.play(&record);
        answer.expect("no step is too early in these orders");
    }

    /// The calls of this order, and the repeats.
    fn play(&self, number: u64, order: &[usize]) -> (Vec<Record>, Vec<Record>) {
        let mut cluster = self.cluster();
        let mut call = |place: usize, records: &mut Vec<Record>| {
            let early = number.is_multiple_of(2);
            let record = self.record(&self.steps[place], early, &cluster);
            records.push(record);
            // Some are refused; which, is for the comparison to see.
            cluster.play(&record)
        };
        let mut calls = self.mints.clone();
        let mut held_off: Vec<usize> = Vec::new();
        for &place in order {
            let answer = call(place, &mut calls);
            if self.orders.sends_again() {
                held_off.retain(|&place| call(place, &mut calls) == Err(Refusal::HeldOff));
            }
            if answer == Err(Refusal::HeldOff) {
                held_off.push(place);
            }
        }
        let mut repeats = Vec::new();
        if self.orders.may_be_early() {
            for place in 0..self.steps.len() {
                let _ = call(place, &mut repeats);
            }
        }
        (calls, repeats)
    }

    fn record(&self, step: &Step, early: bool, cluster: &Cluster) -> Record {
        match *step {
            Step::Turn { shard } => Record::Turn { receiver: shard },
            Step::Register { transaction, shard } => Record::Register {
                receiver: shard,
                transaction: self.transactions[transaction],
            },
            Step::Deliver {
                transaction,
                sender,
                receiver,
            } => {
                let transaction = self.transactions[transaction];
                let shard = &cluster.shards()[usize::from(sender)];
                let given = known(shard, &transaction)
                    .and_then(|known| known.heard[usize::from(sender)])
                    .map(|verdict| verdict == Verdict::Yes);
                Record::Vote {
                    receiver,
                    sender,
                    verdict: given.unwrap_or(early).into(),
                    transaction,
                }
            }
        }
    }
}

impl Orders {
    /// Whether a delivery may come too early.
    fn may_be_early(self) -> bool {
        matches!(
            self,
            Orders::All | Orders::HeldOffAgain | Orders::LastShardLate
        )
    }

    /// Whether what is held off is sent again after each step.
    fn sends_again(self) -> bool {
        matches!(self, Orders::HeldOffAgain | Orders::NoneEarlyHeldOffAgain)
    }

    /// Whether `step` has to come after `other`.
    fn need(self, step: &Step, other: &Step, transactions: &[Transaction]) -> bool {
        let &Step::Register {
            transaction: registered,
            shard: at,
        } = other
        else {
            return false;
        };
        match (self, *step) {
            (
                _,
                Step::Deliver {
                    transaction,
                    sender,
                    receiver,
                },
            ) if !self.may_be_early() => {
                transaction == registered && (at == sender || at == receiver)
            }
            (Orders::LastShardLate, Step::Register { transaction, shard }) => {
                let last = shards(&transactions[transaction]).pop();
                transaction == registered && Some(shard) == last && at != shard
            }
            _ => false,
        }
    }
}

/// The transaction's shards, each once.
fn shards(transaction: &Transaction) -> Vec<u8> {
    let mut shards: Vec<u8> = transaction.shards().collect();
    shards.sort_unstable();
    shards.dedup();
    shards
}
