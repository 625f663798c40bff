//! Transactions changed field by field: their cause of refusal, alone and in
//! records read and written, their equality and their shards.

use differential::{
    Field, Rng, SEED, base, check_cause, check_same, check_shard, check_transaction, numbered,
    transaction,
};
use reference::{SLOTS, TokenId, Transaction};
use weeks::{Tally, refused};

/// A plain transaction for every pair of counts, of genesis and of made tokens.
fn bases() -> impl Iterator<Item = Transaction> {
    let counts = (1..=4).flat_map(|inputs| (1..=4).map(move |outputs| (inputs, outputs)));
    counts.flat_map(|(inputs, outputs)| [false, true].map(|genesis| base(inputs, outputs, genesis)))
}

/// Pairs of different slots.
fn pairs() -> impl Iterator<Item = (usize, usize)> {
    (0..SLOTS).flat_map(|low| (low + 1..SLOTS).map(move |high| (low, high)))
}

#[test]
fn every_field_at_its_edges() {
    let mut tally = Tally::default();
    let mut number = 0;
    for base in bases() {
        for field in Field::all() {
            let every_byte = if field.bits() == 8 { 0..256 } else { 0..0 };
            for value in every_byte.chain(field.edges().iter().copied()) {
                let answer = check_transaction(number, &field.set(&base, value));
                tally.add(refused(answer));
                number += 1;
            }
        }
    }
    tally.report("fields at their edges", &numbered(&[0, 3, 5]), 1000);
}

/// The answers are document 01's, not only the reference's.
#[test]
fn edges_have_the_expected_refusals() {
    type Edit = fn(&mut Transaction);
    let edits: &[(u8, &str, Edit)] = &[
        (0, "nothing", |_| ()),
        (3, "number 0", |t| t.number = 0),
        (0, "number 1", |t| t.number = 1),
        (0, "largest number", |t| t.number = u32::MAX),
        (3, "no input", |t| t.input_count = 0),
        (3, "fewer inputs than slots filled", |t| t.input_count = 2),
        (3, "more inputs than slots filled", |t| t.input_count = 4),
        (3, "five inputs", |t| t.input_count = 5),
        (3, "255 inputs", |t| t.input_count = 255),
        (3, "no output", |t| t.output_count = 0),
        (3, "fewer outputs than slots filled", |t| t.output_count = 1),
        (3, "more outputs than slots filled", |t| t.output_count = 3),
        (3, "five outputs", |t| t.output_count = 5),
        (3, "255 outputs", |t| t.output_count = 255),
        (0, "input shard 7", |t| t.inputs[2].token.shard = 7),
        (3, "input shard 8", |t| t.inputs[0].token.shard = 8),
        (3, "input shard 255", |t| t.inputs[2].token.shard = 255),
        (0, "output shard 7", |t| t.outputs[0].shard = 7),
        (3, "output shard 8", |t| t.outputs[0].shard = 8),
        (3, "output shard 255", |t| t.outputs[1].shard = 255),
        (0, "index 3", |t| t.inputs[0].token.index = 3),
        (3, "index 4", |t| t.inputs[0].token.index = 4),
        (3, "index 127", |t| t.inputs[2].token.index = 127),
        (0, "largest creator", |t| {
            t.inputs[2].token.creator = u32::MAX
        }),
        (0, "genesis index 4", |t| {
            (t.inputs[1].token.creator, t.inputs[1].token.index) = (0, 4);
        }),
        (0, "genesis index 127", |t| {
            (t.inputs[1].token.creator, t.inputs[1].token.index) = (0, 127);
        }),
        (3, "genesis index 128", |t| {
            (t.inputs[1].token.creator, t.inputs[1].token.index) = (0, 128);
        }),
        (3, "genesis index 255", |t| {
            (t.inputs[1].token.creator, t.inputs[1].token.index) = (0, 255);
        }),
        (3, "index 127 of a creator beyond 24 bits", |t| {
            (t.inputs[1].token.creator, t.inputs[1].token.index) = (1 << 24, 127);
        }),
        (3, "input owner 0", |t| t.inputs[2].owner = 0),
        (0, "input owner 1", |t| t.inputs[2].owner = 1),
        (0, "largest input owner", |t| t.inputs[0].owner = u32::MAX),
        (3, "output owner 0", |t| t.outputs[1].owner = 0),
        (0, "output owner 1", |t| t.outputs[1].owner = 1),
        (0, "largest output owner", |t| t.outputs[0].owner = u32::MAX),
        (3, "input amount 0", |t| {
            t.inputs[0].amount = 0;
            t.inputs[1].amount = 24;
        }),
        (3, "output amount 0", |t| {
            t.outputs[0].amount = 0;
            t.outputs[1].amount = 36;
        }),
        (5, "one more in", |t| t.inputs[1].amount += 1),
        (5, "one less in", |t| t.inputs[1].amount -= 1),
        (5, "one more out", |t| t.outputs[1].amount += 1),
        (5, "one less out", |t| t.outputs[1].amount -= 1),
        (5, "one amount in range only", |t| {
            t.inputs[1].amount = 1_000_000
        }),
        (3, "one amount beyond", |t| t.inputs[1].amount = 1_000_001),
        (3, "largest amount", |t| t.outputs[1].amount = u32::MAX),
        (3, "unused input shard", |t| t.inputs[3].token.shard = 1),
        (3, "unused input creator", |t| t.inputs[3].token.creator = 1),
        (3, "unused input index", |t| t.inputs[3].token.index = 1),
        (3, "unused input owner", |t| t.inputs[3].owner = 1),
        (3, "unused input amount", |t| t.inputs[3].amount = 1),
        (3, "unused output shard", |t| t.outputs[3].shard = 1),
        (3, "unused output owner", |t| t.outputs[2].owner = 1),
        (3, "unused output amount", |t| t.outputs[3].amount = 1),
        (4, "a token twice", |t| {
            t.inputs[2].token = t.inputs[0].token
        }),
        (4, "a token three times", |t| {
            t.inputs[0].token = t.inputs[2].token;
            t.inputs[1].token = t.inputs[2].token;
        }),
        (4, "a token twice, and sums differ", |t| {
            t.inputs[2].token = t.inputs[1].token;
            t.outputs[0].amount -= 1;
        }),
        (3, "a token twice, and a field out of range", |t| {
            t.inputs[2].token = t.inputs[1].token;
            t.outputs[0].owner = 0;
        }),
        (3, "sums differ, and an unused slot not zero", |t| {
            t.inputs[0].amount += 1;
            t.inputs[3].token.shard = 7;
        }),
    ];
    for (number, &(expected, name, edit)) in (0..).zip(edits) {
        let mut transaction = base(3, 2, false);
        edit(&mut transaction);
        assert_eq!(check_transaction(number, &transaction), expected, "{name}");
    }
}

#[test]
fn amounts_at_their_edges_with_equal_sums() {
    let mut number = 0;
    for (input, output) in (0..4).flat_map(|input| (0..4).map(move |output| (input, output))) {
        for amount in [
            0,
            1,
            2,
            999_999,
            1_000_000,
            1_000_001,
            1 << 24,
            1 << 31,
            u32::MAX,
        ] {
            let mut transaction = base(4, 4, number % 2 == 0);
            transaction.inputs[input].amount = amount;
            transaction.outputs[output].amount = amount;
            let fits = (1..=1_000_000).contains(&amount);
            let answer = check_transaction(number, &transaction);
            assert_eq!(answer, if fits { 0 } else { 3 }, "amount {amount}");
            number += 1;
        }
    }
}

#[test]
fn one_token_in_each_pair_of_slots() {
    let mut number = 0;
    for genesis in [false, true] {
        for (low, high) in pairs() {
            for outputs in 1..=4 {
                for inputs in (high as u8 + 1)..=4 {
                    let plain = base(inputs, outputs, genesis);
                    let mut check = |expected, edit: &dyn Fn(&mut TokenId)| {
                        let mut transaction = plain;
                        transaction.inputs[high].token = transaction.inputs[low].token;
                        edit(&mut transaction.inputs[high].token);
                        let answer = check_transaction(number, &transaction);
                        assert_eq!(answer, expected, "slots {low} and {high} of {inputs}");
                        number += 1;
                    };
                    check(4, &|_| ());
                    // Another in one part only is another token.
                    check(0, &|token| token.shard = 6);
                    check(0, &|token| token.index = 3 - low as u8 / 3);
                    if !genesis {
                        check(0, &|token| token.creator += 4);
                        check(0, &|token| token.creator += 1 << 8);
                        check(0, &|token| token.creator += 1 << 24);
                    }
                    check(0, &|token| token.creator = if genesis { 1 } else { 0 });
                }
            }
        }
    }
}

#[test]
fn sums_at_their_edges() {
    let mut number = 0;
    for base in bases() {
        let (inputs, outputs) = (base.input_count.into(), base.output_count.into());
        let mut check = |expected, input_amounts: &[u32], output_amounts: &[u32]| {
            let mut transaction = base;
            for (input, &amount) in transaction.inputs.iter_mut().zip(input_amounts) {
                input.amount = amount;
            }
            for (output, &amount) in transaction.outputs.iter_mut().zip(output_amounts) {
                output.amount = amount;
            }
            let answer = check_transaction(number, &transaction);
            assert_eq!(answer, expected, "{input_amounts:?} to {output_amounts:?}");
            number += 1;
        };
        // Largest and smallest sums, and one off.
        let equal = if inputs == outputs { 0 } else { 5 };
        for amount in [1, 1_000_000] {
            check(equal, &vec![amount; inputs], &vec![amount; outputs]);
        }
        for slot in 0..outputs {
            let mut off = vec![1_000_000; outputs];
            off[slot] -= 1;
            check(5, &vec![1_000_000; inputs], &off);
        }
        for slot in 0..inputs {
            let mut off = vec![1; inputs];
            off[slot] += 1;
            let one_more = if inputs + 1 == outputs { 0 } else { 5 };
            check(one_more, &off, &vec![1; outputs]);
        }
        // Sums that are equal only modulo 2 to the 32nd, 16th or 8th power.
        if inputs >= 2 && outputs == 1 {
            let mut wrapping = vec![4; inputs];
            let rest = 4 * (inputs as u32 - 2);
            (wrapping[0], wrapping[1]) = ((1 << 31) + 6, (1 << 31) + 6);
            check(3, &wrapping, &[12 + rest]);
            (wrapping[0], wrapping[1]) = (u32::MAX, 13);
            check(3, &wrapping, &[12 + rest]);
        }
        for excess in [1 << 8, 1 << 16] {
            let mut over: Vec<u32> = base.inputs[..inputs].iter().map(|i| i.amount).collect();
            over[inputs - 1] += excess;
            let made: Vec<u32> = base.outputs[..outputs].iter().map(|o| o.amount).collect();
            check(5, &over, &made);
        }
    }
}

#[test]
fn cause_with_other_numbers_of_genesis_indices() {
    for genesis in 0..=255 {
        let number = genesis.into();
        for index in 0..=255 {
            for slot in 0..4 {
                // Only the input tried is a genesis token.
                let mut transaction = base(4, 4, false);
                let token = &mut transaction.inputs[slot].token;
                (token.creator, token.index) = (0, index);
                let expected = if index < genesis { 0 } else { 3 };
                let answer = check_cause(number, genesis, &transaction);
                assert_eq!(answer, expected, "index {index} of {genesis}");
            }
            // Made tokens do not depend on it.
            let mut transaction = base(2, 2, false);
            transaction.inputs[1].token.index = index;
            let expected = if index < 4 { 0 } else { 3 };
            let answer = check_cause(number, genesis, &transaction);
            assert_eq!(answer, expected, "index {index}, {genesis} for genesis");
        }
    }
}

#[test]
fn same_only_if_every_field_agrees() {
    let random = (0..100).map(|case| transaction(&mut Rng::new(SEED, case)));
    let blank = [Transaction::default()];
    for (number, one) in (0..).zip(bases().chain(random).chain(blank)) {
        assert!(check_same(number, &one, &one));
        for field in Field::all() {
            // Every bit of the field, so that no width is too small.
            for bit in 0..field.bits() {
                let other = field.set(&one, field.get(&one) ^ 1 << bit);
                assert!(!check_same(number, &one, &other), "{field:?}, bit {bit}");
            }
        }
    }
    // The same slots in another order.
    let one = base(4, 4, false);
    for (low, high) in pairs() {
        let mut other = one;
        other.inputs.swap(low, high);
        assert!(!check_same(0, &one, &other), "inputs {low} and {high}");
        let mut other = one;
        other.outputs.swap(low, high);
        assert!(!check_same(0, &one, &other), "outputs {low} and {high}");
    }
}

#[test]
fn every_shard_number_takes_part_or_not() {
    let mut number = 0;
    for inputs in [0, 1, 2, 3, 4, 5, 255] {
        for outputs in [0, 1, 2, 3, 4, 5, 255] {
            // Every slot has its own shard number, used or not.
            for offset in [0, 4, 100, 248] {
                let mut transaction = base(4, 4, true);
                (transaction.input_count, transaction.output_count) = (inputs, outputs);
                for slot in 0..4 {
                    transaction.inputs[slot].token.shard = offset + slot as u8;
                    transaction.outputs[slot].shard = offset + 4 + slot as u8;
                }
                for shard in 0..=255u8 {
                    let used = match shard.wrapping_sub(offset) {
                        slot @ 0..4 => slot < inputs,
                        slot @ 4..8 => slot - 4 < outputs,
                        _ => false,
                    };
                    assert_eq!(check_shard(number, shard, &transaction), used);
                }
                number += 1;
            }
        }
    }
    for case in 0..1000 {
        let transaction = transaction(&mut Rng::new(SEED, case));
        for shard in 0..=255 {
            check_shard(case, shard, &transaction);
        }
    }
}
