//! The baseline: document 01's record reader as one would write it in Rust for
//! speed. A record is an array where it stands, nothing is allocated and
//! nothing copied but the fields, and with all parts inlined every place in it
//! is a number that the compiler knows. A slot is decided when it is come to:
//! one that does not fit is refused at once, and one that is not used is only
//! seen to be zero.

/// Words that are handed back: kind, receiver, sender, verdict, index, owner,
/// amount, and the 35 of the transaction. Fields that the kind does not have are
/// 0, and so are all of them behind a refusal.
pub const FIELDS: usize = FRONT + TRANSACTION;
const FRONT: usize = 7;

/// Slots for inputs, and for outputs, in every transaction.
const SLOTS: usize = 4;

/// Words of a transaction: its number, how many inputs and outputs, and from
/// these places on the slots of each.
const TRANSACTION: usize = OUTPUTS + SLOTS * OUTPUT;
const INPUTS: usize = 3;
const OUTPUTS: usize = INPUTS + SLOTS * INPUT;
/// Words of an input: shard, creator, index, owner, amount.
const INPUT: usize = 5;
/// Words of an output: shard, owner, amount.
const OUTPUT: usize = 3;

/// The same in bytes: shards, counts and indices are one each, the others four.
const TRANSACTION_BYTES: usize = OUTPUTS_AT + SLOTS * OUTPUT_BYTES;
const INPUTS_AT: usize = 6;
const OUTPUTS_AT: usize = INPUTS_AT + SLOTS * INPUT_BYTES;
const INPUT_BYTES: usize = 14;
const OUTPUT_BYTES: usize = 9;

/// What was read.
pub type Fields = [u32; FIELDS];

/// Reads the record at the front of the bytes, and gives the refusal's number
/// (0 for none) and how many bytes the record takes: all of them where no whole
/// record stands there.
#[inline]
pub fn read(bytes: &[u8], fields: &mut Fields) -> (u32, usize) {
    let answer = match bytes.first() {
        Some(1) => whole(bytes, fields, read_register),
        Some(2) => whole(bytes, fields, read_vote),
        Some(3) => whole(bytes, fields, read_mint),
        Some(4) => whole(bytes, fields, read_turn),
        Some(_) => (1, bytes.len()),
        None => (2, 0),
    };
    // Fields are stored while they are checked: one that is found wrong late
    // leaves others behind.
    if answer.0 != 0 {
        *fields = [0; FIELDS];
    }
    answer
}

/// A record of `N` bytes, if all of them are there.
#[inline(always)]
fn whole<const N: usize>(
    bytes: &[u8],
    fields: &mut Fields,
    read: impl FnOnce(&[u8; N], &mut Fields) -> u32,
) -> (u32, usize) {
    match bytes.first_chunk() {
        Some(record) => (read(record, fields), N),
        None => (2, bytes.len()),
    }
}

#[inline(always)]
fn read_register(record: &[u8; 2 + TRANSACTION_BYTES], fields: &mut Fields) -> u32 {
    let &[kind, receiver, ref transaction @ ..] = record;
    let words = store_front(fields, [kind, receiver, 0, 0]);
    read_transaction(is_shard(receiver), transaction, words)
}

#[inline(always)]
fn read_vote(record: &[u8; 4 + TRANSACTION_BYTES], fields: &mut Fields) -> u32 {
    let &[kind, receiver, sender, verdict, ref transaction @ ..] = record;
    let words = store_front(fields, [kind, receiver, sender, verdict]);
    let fits = is_shard(receiver) & is_shard(sender) & (verdict < 2);
    read_transaction(fits, transaction, words)
}

#[inline(always)]
fn read_mint(record: &[u8; 11], fields: &mut Fields) -> u32 {
    let &[kind, receiver, index, ref value @ ..] = record;
    let (owner, amount) = (word(value, 0), word(value, 4));
    *fields = [0; FIELDS];
    fields[0] = kind.into();
    fields[1] = receiver.into();
    fields[4] = index.into();
    fields[5] = owner;
    fields[6] = amount;
    let fits = is_shard(receiver) && index < 128 && is_value(owner, amount);
    if fits { 0 } else { 3 }
}

#[inline(always)]
fn read_turn(&[kind, receiver]: &[u8; 2], fields: &mut Fields) -> u32 {
    *fields = [0; FIELDS];
    fields[0] = kind.into();
    fields[1] = receiver.into();
    if is_shard(receiver) { 0 } else { 3 }
}

/// Stores the words in front of the transaction's, which are given back.
#[inline(always)]
fn store_front(
    fields: &mut Fields,
    [kind, receiver, sender, verdict]: [u8; 4],
) -> &mut [u32; TRANSACTION] {
    let (front, words) = fields.split_first_chunk_mut::<FRONT>().expect("the front");
    *front = [kind, receiver, sender, verdict, 0, 0, 0].map(u32::from);
    words.first_chunk_mut().expect("a transaction's words")
}

/// Stores the transaction's words and makes its checks: 3, of which those of the
/// fields in front of it are part, before 4, and 4 before 5.
#[inline(always)]
fn read_transaction(
    front_fits: bool,
    bytes: &[u8; TRANSACTION_BYTES],
    words: &mut [u32; TRANSACTION],
) -> u32 {
    let (number, inputs, outputs) = (word(bytes, 0), bytes[4], bytes[5]);
    words[0] = number;
    words[1] = inputs.into();
    words[2] = outputs.into();
    // What every transaction has is one branch.
    let fits = front_fits & (number != 0) & is_count(inputs) & is_count(outputs);
    if !fits {
        return 3;
    }
    let Some((destroyed, twice)) = read_inputs(inputs.into(), bytes, words) else {
        return 3;
    };
    let Some(made) = read_outputs(outputs.into(), bytes, words) else {
        return 3;
    };
    if twice {
        return 4;
    }
    if destroyed == made { 0 } else { 5 }
}

/// Stores the inputs, so many of them used: the sum of their amounts and whether
/// a token is named twice, or nothing if they do not fit.
#[inline(always)]
fn read_inputs(
    used: usize,
    bytes: &[u8; TRANSACTION_BYTES],
    words: &mut [u32; TRANSACTION],
) -> Option<(u32, bool)> {
    let mut names = [0; SLOTS];
    let mut twice = false;
    let mut sum = 0;
    for slot in 0..SLOTS {
        let bytes = part::<_, INPUT_BYTES>(bytes, INPUTS_AT + slot * INPUT_BYTES);
        let words = part_mut::<_, INPUT>(words, INPUTS + slot * INPUT);
        if slot >= used {
            if eight(bytes, 0) | eight(bytes, 6) != 0 {
                return None;
            }
            *words = [0; INPUT];
            continue;
        }
        sum += read_input(bytes, words)?;
        let name = name(bytes);
        for &earlier in &names[..slot] {
            twice |= name == earlier;
        }
        names[slot] = name;
    }
    Some((sum, twice))
}

/// Stores an input that is used: its amount, if it fits.
#[inline(always)]
fn read_input(bytes: &[u8; INPUT_BYTES], words: &mut [u32; INPUT]) -> Option<u32> {
    let (shard, creator, index) = (bytes[0], word(bytes, 1), bytes[5]);
    let (owner, amount) = (word(bytes, 6), word(bytes, 10));
    *words = [shard.into(), creator, index.into(), owner, amount];
    let indices = if creator == 0 { 128 } else { 4 };
    let fits = is_shard(shard) && index < indices && is_value(owner, amount);
    fits.then_some(amount)
}

/// Stores the outputs, so many of them used: the sum of their amounts, or
/// nothing if they do not fit.
#[inline(always)]
fn read_outputs(
    used: usize,
    bytes: &[u8; TRANSACTION_BYTES],
    words: &mut [u32; TRANSACTION],
) -> Option<u32> {
    let mut sum = 0;
    for slot in 0..SLOTS {
        let bytes = part::<_, OUTPUT_BYTES>(bytes, OUTPUTS_AT + slot * OUTPUT_BYTES);
        let words = part_mut::<_, OUTPUT>(words, OUTPUTS + slot * OUTPUT);
        if slot >= used {
            if eight(bytes, 0) | u64::from(bytes[8]) != 0 {
                return None;
            }
            *words = [0; OUTPUT];
            continue;
        }
        sum += read_output(bytes, words)?;
    }
    Some(sum)
}

/// Stores an output that is used: its amount, if it fits.
#[inline(always)]
fn read_output(bytes: &[u8; OUTPUT_BYTES], words: &mut [u32; OUTPUT]) -> Option<u32> {
    let (shard, owner, amount) = (bytes[0], word(bytes, 1), word(bytes, 5));
    *words = [shard.into(), owner, amount];
    let fits = is_shard(shard) && is_value(owner, amount);
    fits.then_some(amount)
}

#[inline(always)]
fn is_shard(number: u8) -> bool {
    number < 8
}

#[inline(always)]
fn is_count(number: u8) -> bool {
    (1..=4).contains(&number)
}

#[inline(always)]
fn is_value(owner: u32, amount: u32) -> bool {
    owner != 0 && (1..=1_000_000).contains(&amount)
}

/// A token's name as one number: shard, creator and index are the six bytes at
/// an input's front, one behind the other, so that two names are the same
/// exactly if these bytes are.
#[inline(always)]
fn name(input: &[u8; INPUT_BYTES]) -> u64 {
    // The last two of the eight bytes are the high ones: they are shifted out.
    eight(input, 0) << 16
}

/// The number of four bytes at a place, high byte first.
#[inline(always)]
fn word<const N: usize>(bytes: &[u8; N], at: usize) -> u32 {
    u32::from_be_bytes(*part(bytes, at))
}

/// Eight bytes at a place as they stand there, the first one lowest.
#[inline(always)]
fn eight<const N: usize>(bytes: &[u8; N], at: usize) -> u64 {
    u64::from_le_bytes(*part(bytes, at))
}

#[inline(always)]
fn part<T, const N: usize>(whole: &[T], at: usize) -> &[T; N] {
    whole[at..].first_chunk().expect("a place inside")
}

#[inline(always)]
fn part_mut<T, const N: usize>(whole: &mut [T], at: usize) -> &mut [T; N] {
    whole[at..].first_chunk_mut().expect("a place inside")
}
