//! Calls by hand, each with its answer's code.

use crate::{Input, Output, Record, TokenId, Transaction, Verdict};

/// A call and its answer's code.
pub type Told = (Record, u32);

pub const OWNER: u32 = 0x0102_0304;
pub const AMOUNT: u32 = 1000;

/// Stands in all words before the library makes a ledger of them: it has to
/// set whatever it will look at.
pub const UNSET: u32 = 0xA5A5_A5A5;

/// Where a transaction's words are bytes.
pub const BYTES: [usize; 14] = [1, 2, 3, 5, 8, 10, 13, 15, 18, 20, 23, 26, 29, 32];

pub fn mint(receiver: u8, index: u8) -> Record {
    Record::Mint {
        receiver,
        index,
        owner: OWNER,
        amount: AMOUNT,
    }
}

pub fn register(receiver: u8, transaction: Transaction) -> Record {
    Record::Register {
        receiver,
        transaction,
    }
}

pub fn yes(sender: u8, receiver: u8, transaction: Transaction) -> Record {
    Record::Vote {
        receiver,
        sender,
        verdict: Verdict::Yes,
        transaction,
    }
}

pub fn no(sender: u8, receiver: u8, transaction: Transaction) -> Record {
    Record::Vote {
        receiver,
        sender,
        verdict: Verdict::No,
        transaction,
    }
}

pub fn turn(receiver: u8) -> Record {
    Record::Turn { receiver }
}

/// Takes genesis tokens (shard, index) and makes as many tokens at these
/// shards.
pub fn transaction(number: u32, tokens: &[(u8, u8)], shards: &[u8]) -> Transaction {
    let input = |(shard, index)| Input {
        token: TokenId {
            shard,
            creator: 0,
            index,
        },
        owner: OWNER,
        amount: AMOUNT,
    };
    let taking = tokens
        .iter()
        .fold(Transaction::new(number), |taking, &token| {
            taking.input(input(token))
        });
    let outputs = (OWNER + 1..).zip(shards).map(|(owner, &shard)| Output {
        shard,
        owner,
        amount: AMOUNT,
    });
    outputs.fold(taking, Transaction::output)
}

/// One of shard 1 alone, one that comes too late for the same token, one of two
/// shards, one of three and one of four, on which shard 3 votes no.
fn transactions() -> [Transaction; 5] {
    [
        transaction(5, &[(1, 0)], &[1]),
        transaction(6, &[(1, 0)], &[1]),
        transaction(7, &[(1, 1)], &[2]),
        transaction(8, &[(1, 1), (2, 0), (3, 0)], &[1, 2, 3]),
        transaction(11, &[(2, 1), (3, 1)], &[1, 4]),
    ]
}

/// Takes the first token that the transaction of that number makes, at this
/// shard, and makes another at that one.
fn successor(number: u32, creator: u32, shard: u8, to: u8) -> Transaction {
    let token = TokenId {
        shard,
        creator,
        index: 0,
    };
    let input = Input {
        token,
        owner: OWNER + 1,
        amount: AMOUNT,
    };
    let output = Output {
        shard: to,
        owner: OWNER,
        amount: AMOUNT,
    };
    Transaction::new(number).input(input).output(output)
}

/// The record's bytes, whatever its fields hold: the writers refuse what tests
/// have to try.
pub fn encode(record: &Record) -> Vec<u8> {
    let (mut bytes, transaction) = match *record {
        Record::Register {
            receiver,
            transaction,
        } => (vec![1, receiver], transaction),
        Record::Vote {
            receiver,
            sender,
            verdict,
            transaction,
        } => (vec![2, receiver, sender, verdict as u8], transaction),
        Record::Mint {
            receiver,
            index,
            owner,
            amount,
        } => {
            let numbers = [owner, amount].map(u32::to_be_bytes);
            return [&[3, receiver, index], numbers.as_flattened()].concat();
        }
        Record::Turn { receiver } => return vec![4, receiver],
    };
    for (place, word) in transaction.words().iter().enumerate() {
        let all = word.to_be_bytes();
        bytes.extend(if BYTES.contains(&place) {
            &all[3..]
        } else {
            &all
        });
    }
    bytes
}

/// Every answer that a cluster can give to a call by fields.
pub fn cluster_story() -> Vec<Told> {
    let [here, late, both, three, four] = transactions();
    // What shard 2 is to hold after `both`.
    let behind = successor(10, 7, 2, 2);
    let mut told = vec![
        (mint(1, 0), 100),
        (mint(1, 1), 100),
        (mint(1, 1), 14),
        (mint(2, 0), 100),
        (mint(2, 1), 100),
        (mint(8, 0), 3),
        (mint(1, 128), 3),
        (register(1, here), 211),
        (register(1, here), 8),
        (mint(1, 2), 13),
        (yes(1, 1, here), 401),
        (no(1, 1, here), 16),
        (register(1, late), 202),
        (no(1, 1, late), 402),
        (register(1, both), 210),
        (yes(1, 1, both), 400),
        (yes(2, 1, both), 16),
        (register(2, both), 210),
        (yes(2, 1, both), 301),
        (register(2, behind), 17),
        (yes(1, 2, both), 301),
        (register(2, behind), 211),
        (yes(3, 2, both), 6),
        // `both` has taken the token of shard 1, and shard 3 never had one.
        (register(1, three), 202),
        (register(2, three), 210),
        (register(3, three), 202),
        (no(1, 2, three), 302),
        (no(1, 2, three), 402),
        (yes(1, 2, three), 16),
        (no(3, 2, three), 302),
        (no(3, 2, three), 402),
        (register(1, four), 210),
        (register(2, four), 210),
        (register(3, four), 202),
        (yes(2, 1, four), 300),
        (yes(2, 1, four), 400),
        (no(3, 1, four), 302),
        (yes(4, 1, four), 16),
        (register(4, four), 210),
        (yes(4, 1, four), 302),
        (yes(4, 1, four), 402),
    ];
    told.extend(turned_shard(four));
    told.extend(brought_in_a_cluster());
    told.extend(refused_forms());
    told.extend(full_shard());
    told
}

/// Shard 5 has two tokens; shard 3 has none, and votes no. What they vote on
/// comes to shard 6 by votes, and by the vote of shard 6 to shard 3.
fn brought_in_a_cluster() -> [Told; 26] {
    let two = transaction(20, &[(5, 0)], &[6]);
    let other_two = transaction(20, &[(3, 5)], &[6]);
    let three = transaction(21, &[(5, 1), (3, 5)], &[6, 6]);
    let vain = transaction(22, &[(3, 5)], &[6]);
    // What shard 6 would hold if `three` were committed.
    let behind = successor(23, 21, 6, 5);
    [
        (mint(5, 0), 100),
        (mint(5, 1), 100),
        (yes(6, 6, two), 16),
        (register(5, two), 210),
        (yes(5, 6, two), 611),
        (yes(5, 6, two), 401),
        (register(6, two), 8),
        (mint(6, 0), 13),
        (yes(6, 5, two), 301),
        (register(3, other_two), 202),
        (no(3, 6, other_two), 7),
        (register(5, three), 210),
        (yes(5, 6, three), 610),
        (yes(6, 3, three), 602),
        (register(5, behind), 210),
        (yes(5, 6, behind), 17),
        (yes(6, 5, behind), 16),
        (no(3, 6, three), 302),
        (yes(5, 6, behind), 602),
        (no(6, 5, behind), 302),
        (register(3, vain), 202),
        (no(3, 6, vain), 612),
        (no(3, 6, vain), 402),
        (yes(6, 3, vain), 302),
        // For shard 7 to come.
        (register(6, without_token()), 202),
        (register(6, away(32)), 210),
    ]
}

/// Shard 2 is turned. Its first token is bound by a transaction that it has
/// aborted, and comes free; the other one by `four`, which waits there, and the
/// turn leaves it so until the no.
fn turned_shard(four: Transaction) -> [Told; 8] {
    let again = |number, index| register(2, transaction(number, &[(2, index)], &[2]));
    [
        (again(12, 0), 202),
        (turn(2), 500),
        (turn(2), 19),
        (turn(8), 3),
        (again(13, 0), 211),
        (again(14, 1), 202),
        (no(3, 2, four), 302),
        (again(15, 1), 211),
    ]
}

/// Every answer that a lone shard can give to a call, first shard 1 and then
/// shard 7.
pub fn shard_stories() -> [(u8, Vec<Told>); 2] {
    let [here, late, both, three, four] = transactions();
    // What shard 1 would hold if `four` were committed.
    let behind = successor(10, 11, 1, 1);
    let mut told = vec![
        (mint(1, 0), 100),
        (mint(1, 1), 100),
        (mint(1, 1), 14),
        (mint(2, 0), 3),
        (mint(1, 128), 3),
        (register(1, here), 211),
        (register(1, here), 8),
        (mint(1, 2), 13),
        (yes(1, 1, here), 401),
        (no(1, 1, here), 12),
        (register(1, late), 202),
        (no(1, 1, late), 402),
        (yes(1, 1, both), 11),
        (no(1, 1, both), 11),
        (register(1, both), 210),
        (yes(1, 1, both), 400),
        (yes(2, 1, both), 301),
        (no(2, 1, both), 12),
        (yes(3, 1, both), 6),
        (register(2, both), 3),
        (register(1, three), 202),
        (yes(2, 1, three), 302),
        (no(3, 1, three), 302),
        (register(1, four), 210),
        (yes(2, 1, four), 300),
        (register(1, behind), 17),
        (no(3, 1, four), 302),
        (register(1, behind), 202),
        (yes(3, 1, four), 12),
        (yes(4, 1, four), 302),
        (yes(4, 1, four), 402),
        (no(4, 1, four), 12),
    ];
    told.extend([(turn(2), 3), (turn(1), 500), (turn(1), 19), (turn(2), 3)]);
    told.extend(brought_to_shard_1());
    told.extend(refused_forms());
    [(1, told), (7, full_shard())]
}

/// Votes of the shards 2 and 3, which bring what shard 1 is to make.
fn brought_to_shard_1() -> [Told; 11] {
    let three = transaction(20, &[(2, 0), (3, 0)], &[1, 1]);
    let two = transaction(21, &[(2, 5)], &[1]);
    let other_two = transaction(21, &[(3, 5)], &[1]);
    let vain = transaction(22, &[(2, 6)], &[1]);
    // What shard 1 would hold if `three` were committed.
    let behind = successor(23, 20, 1, 2);
    [
        (yes(2, 1, three), 610),
        (yes(2, 1, three), 400),
        (register(1, three), 8),
        (yes(2, 1, behind), 17),
        (yes(1, 1, behind), 11),
        (no(3, 1, three), 302),
        (yes(2, 1, behind), 602),
        (yes(2, 1, two), 611),
        (no(3, 1, other_two), 7),
        (no(2, 1, vain), 612),
        (yes(2, 1, vain), 12),
    ]
}

/// Calls at shard 1 that are refused for what they say, and for a number taken
/// by transaction 5.
fn refused_forms() -> Vec<Told> {
    let mut unbalanced = *transaction(9, &[(1, 5)], &[1]).words();
    unbalanced[25] += 1;
    let forms = [
        (3, transaction(0, &[(1, 5)], &[1])),
        (4, transaction(9, &[(1, 5), (1, 5)], &[1, 1])),
        (5, Transaction::from_words(unbalanced)),
        (6, transaction(9, &[(4, 5)], &[5])),
        (7, transaction(5, &[(1, 5)], &[1])),
    ];
    forms
        .into_iter()
        .map(|(code, transaction)| (register(1, transaction), code))
        .collect()
}

/// A genesis token goes from shard 7 to shard 6.
fn away(index: u8) -> Transaction {
    transaction(100 + u32::from(index), &[(7, index)], &[6])
}

/// Takes a token that shard 6 has not, and would make one at shard 7.
fn without_token() -> Transaction {
    transaction(98, &[(6, 0)], &[7])
}

/// Shard 7 until it holds and knows all it can, in the last words of the
/// memory; votes can bring it no more than registrations.
fn full_shard() -> Vec<Told> {
    let mints = (0..128).map(|index| (mint(7, index), 100));
    let known = (0..31).map(|index| (register(7, away(index)), 210));
    let full = [
        (register(7, transaction(99, &[(7, 99)], &[7])), 10),
        (no(6, 7, without_token()), 10),
        (register(7, away(31)), 210),
        (register(7, away(32)), 9),
        (yes(6, 7, away(32)), 9),
    ];
    mints.chain(known).chain(full).collect()
}
